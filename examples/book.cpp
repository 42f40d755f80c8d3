/*
 * The calls of first.c from C++, by the same header.
 *
 *     g++ -std=c++11 examples/book.cpp $(pkg-config --cflags --libs botskhela) -o book
 */
#include <cstdint>
#include <iostream>
#include <stdexcept>
#include <string>
#include <vector>

#include "botskhela.h"

namespace {

void must(std::uint32_t refusal)
{
    if (refusal != 0)
        throw std::runtime_error("refused " + std::to_string(refusal));
}

void file_sheet(botskhela_book &book, std::uint32_t product, const std::vector<std::uint32_t> &months,
                const std::vector<std::uint32_t> &settlements)
{
    must(botskhela_sheet(&book, product, months.data(), months.size(), settlements.data(), settlements.size()));
}

void judge(const botskhela_book &book, std::uint32_t month, std::uint32_t price)
{
    const botskhela_span span = botskhela_check_span(&book, BOTSKHELA_CORN, BOTSKHELA_STANDARD, month, price);

    if (span.answer == BOTSKHELA_BELOW || span.answer == BOTSKHELA_ABOVE)
        std::cout << price << (span.answer == BOTSKHELA_BELOW ? " below, " : " above, ") << span.lowest << " to "
                  << span.highest << " allowed\n";
    else
        std::cout << price << (span.answer == BOTSKHELA_WITHIN ? " within\n" : " free or refused\n");
}

} // namespace

int main()
{
    const std::uint32_t july = 2024 * 12 + 7 - 1; // a month that all eight products trade
    botskhela_book book;

    must(botskhela_found(&book, BOTSKHELA_EDITION_2023, 200, 600, 250, 200, 240, 240, 160, 100));
    must(botskhela_open(&book, 2024, 6, 25, 3));
    for (std::uint32_t product = 0; product < BOTSKHELA_PRODUCTS; product++)
        file_sheet(book, product, {july}, {3600});
    must(botskhela_end(&book));
    must(botskhela_open(&book, 2024, 6, 26, 2));
    judge(book, july, 3800);
    judge(book, july, 3802);
}

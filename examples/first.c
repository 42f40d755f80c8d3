/*
 * The first calls on a book: a day with its sheets, and two prices judged on the day after.
 *
 *     gcc examples/first.c $(pkg-config --cflags --libs botskhela) -o first
 */
#include <inttypes.h>
#include <stdint.h>
#include <stdio.h>
#include <stdlib.h>

#include "botskhela.h"

/* A call that changes a book returns 0, or the number of its refusal. */
static void must(uint32_t refusal)
{
    if (refusal == 0)
        return;
    fprintf(stderr, "refused %" PRIu32 "\n", refusal);
    exit(1);
}

static void judge(const botskhela_book *book, uint32_t month, uint32_t price)
{
    botskhela_span span = botskhela_check_span(book, BOTSKHELA_CORN, BOTSKHELA_STANDARD, month, price);

    if (span.answer == BOTSKHELA_BELOW || span.answer == BOTSKHELA_ABOVE)
        printf("%" PRIu32 " %s, %" PRIu32 " to %" PRIu32 " allowed\n", price,
               span.answer == BOTSKHELA_BELOW ? "below" : "above", span.lowest, span.highest);
    else
        printf("%" PRIu32 " %s\n", price, span.answer == BOTSKHELA_WITHIN ? "within" : "free or refused");
}

int main(void)
{
    const uint32_t july[] = {2024 * 12 + 7 - 1}; /* a month that all eight products trade */
    const uint32_t settlements[] = {3600};
    botskhela_book book;

    must(botskhela_found(&book, BOTSKHELA_EDITION_2023, 200, 600, 250, 200, 240, 240, 160, 100));
    must(botskhela_open(&book, 2024, 6, 25, 3));
    for (uint32_t product = 0; product < BOTSKHELA_PRODUCTS; product++)
        must(botskhela_sheet(&book, product, july, 1, settlements, 1));
    must(botskhela_end(&book));
    must(botskhela_open(&book, 2024, 6, 26, 2));
    judge(&book, july[0], 3800);
    judge(&book, july[0], 3802);
    return 0;
}

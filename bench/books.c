#include "books.h"

#define LENGTH(array) (sizeof(array) / sizeof((array)[0]))

/* Every product trades these. */
static const uint32_t MONTHS[] = {3, 5, 7, 9};

/* From March 2025 on, so that July 2025 is collected. */
static void fill_arrays(struct books *books)
{
    for (uint32_t i = 0; i < CONTRACTS; i++)
        books->months[i] = (2025 + i / LENGTH(MONTHS)) * 12 + MONTHS[i % LENGTH(MONTHS)] - 1;
    for (uint32_t product = 0; product < PRODUCTS; product++)
        for (uint32_t i = 0; i < CONTRACTS; i++)
            books->settlements[product][i] = 4000 + 200 * product + 10 * i;
}

/* Settlements go up by a little on one day and down on the next. */
static void move_settlements(struct books *books, uint32_t day)
{
    for (uint32_t product = 0; product < PRODUCTS; product++)
        for (uint32_t i = 0; i < CONTRACTS; i++)
            books->settlements[product][i] += day % 2 == 0 ? 20 : -20u;
}

uint32_t file(const struct library *library, const struct books *books, botskhela_book *book,
              uint32_t product)
{
    return library->sheet(book, product, books->months, books->contracts,
                          books->settlements[product], books->contracts);
}

/* Opens a day with the calendar days remaining as its left: those fall where every day is opened. */
static uint32_t open_every(botskhela_book *book, uint32_t month, uint32_t day, uint32_t length)
{
    return botskhela_open(book, 2024, month, day, length - day);
}

/* The days of November and December 2024, from 0 on. */
static uint32_t open_day(botskhela_book *book, uint32_t day)
{
    const uint32_t november = 30, december = 31;

    if (day < november)
        return open_every(book, 11, day + 1, november);
    return open_every(book, 12, day - november + 1, december);
}

static int open_and_file(struct books *books, botskhela_book *book, uint32_t day)
{
    uint32_t refusals = open_day(book, day);

    move_settlements(books, day);
    books->at[OPENED] = *book;
    for (uint32_t product = 0; product < PRODUCTS; product++) {
        books->at[NEARLY_FILED] = *book;
        refusals |= file(&PROVED, books, book, product);
    }
    return refusals != 0;
}

static uint32_t file_moved(const struct books *books, botskhela_book *book, uint32_t product)
{
    const botskhela_contract *last = book->last[product].contracts;
    uint32_t settlements[CONTRACTS];

    for (uint32_t i = 0; i < books->contracts; i++)
        settlements[i] = last[i].settlement + book->limits[product].initial;
    return botskhela_sheet(book, product, books->months, books->contracts, settlements,
                           books->contracts);
}

static int file_all_moved(struct books *books)
{
    uint32_t refusals = 0;

    books->at[MOVED] = books->at[OPENED];
    for (uint32_t product = 0; product < PRODUCTS; product++)
        refusals |= file_moved(books, &books->at[MOVED], product);
    return refusals != 0;
}

int make_books(struct books *books, uint32_t contracts, uint32_t days)
{
    botskhela_book book;
    int refused =
        botskhela_found(&book, BOTSKHELA_EDITION_2023, 200, 600, 250, 200, 240, 240, 160, 100) != 0;

    books->contracts = contracts;
    fill_arrays(books);
    for (uint32_t day = 0; day < days; day++)
        refused |= open_and_file(books, &book, day) || botskhela_end(&book) != 0;
    books->at[ENDED] = book;
    /* Its days were quiet, and under 2014 are the same. */
    books->at[ENDED_2014] = book;
    books->at[ENDED_2014].edition = BOTSKHELA_EDITION_2014;
    refused |= open_and_file(books, &book, days);
    books->at[FILED] = book;
    refused |= file_all_moved(books);
    return refused || book.windows.counts[0] != (days < WINDOW ? days : WINDOW);
}

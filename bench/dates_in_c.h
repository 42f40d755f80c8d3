/* Contracts by the open day, for book_in_c.c: which are spot, and which is the one of a month. */
#ifndef DATES_IN_C_H
#define DATES_IN_C_H

#include <stddef.h>
#include <string.h>

#include "rule_in_c.h"

/* The open day's own contract month. */
static inline uint32_t trade_month(const botskhela_book *book)
{
    return book->year * 12 + book->month - 1;
}

/* The nearest month that has a limit: all before it are spot. */
static inline uint32_t limited_from(const botskhela_book *book)
{
    return trade_month(book) + (book->left <= 1 ? 2 : 1);
}

/* Where the contracts with a limit begin, as months ascend. */
static inline uint32_t first_limited(const botskhela_book *book,
                                     const botskhela_product_sheet *sheet)
{
    const uint32_t from = limited_from(book);
    uint32_t first = 0;

    while (first < sheet->count && sheet->contracts[first].month < from)
        first++;
    return first;
}

/* NULL where there is none. */
static inline const botskhela_contract *find(const botskhela_product_sheet *sheet, uint32_t month)
{
    for (uint32_t i = 0; i < sheet->count; i++)
        if (sheet->contracts[i].month == month)
            return &sheet->contracts[i];
    return NULL;
}

static inline uint32_t limit_of(const botskhela_book *book, uint32_t product)
{
    const botskhela_limit *limit = &book->limits[product];

    return book->standings[GROUP[product]].expanded ? limit->expanded : limit->initial;
}

#endif

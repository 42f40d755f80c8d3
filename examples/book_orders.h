/* Orders on a book, PRODUCT SIZE MONTH PRICE, judged through a tally. */
#ifndef BOOK_ORDERS_H
#define BOOK_ORDERS_H

#include <stdint.h>

#include "botskhela.h"
#include "orders.h"

#define ORDER_NUMBERS 4

/* The answer, and the ends of the span where the order is beyond the limit. */
static inline botskhela_span judge_by_book(botskhela_tally *tally, const botskhela_book *book,
                                           const uint32_t order[ORDER_NUMBERS])
{
    uint32_t answer = botskhela_tallied_book_check(tally, book, order[0], order[1], order[2], order[3]);

    if (is_beyond_limit(answer))
        return botskhela_check_span(book, order[0], order[1], order[2], order[3]);
    return (botskhela_span){answer, 0, 0};
}

#endif

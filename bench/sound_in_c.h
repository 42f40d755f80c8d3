/* Whether a book is sound, for book_in_c.c: most of what a call costs. */
#ifndef SOUND_IN_C_H
#define SOUND_IN_C_H

#include "rule_in_c.h"

static inline int has_day(const botskhela_book *book)
{
    return (book->year | book->month | book->day | book->left) != 0;
}

#ifdef BEST
/* Prices less the tick, joined: one comparison for all. It only accepts, as joined bits may be more than the largest price. */
static inline int is_joined_sound(uint32_t joined, uint32_t tick)
{
    return joined <= LARGEST_PRICE - 2 && (joined & (tick - 1)) == 0;
}

static inline int are_plainly_prices(const uint32_t *prices, uint32_t count, uint32_t tick)
{
    uint32_t joined = 0;

    for (uint32_t i = 0; i < count; i++)
        joined |= prices[i] - tick;
    return is_joined_sound(joined, tick);
}
#endif

/* To the end, so that the compiler can take several prices at a time. */
static inline int are_each_prices(const uint32_t *prices, uint32_t count, uint32_t tick)
{
#ifdef BEST
    /* All bits joined, and the largest: fewer operations for each. */
    uint32_t joined = 0, largest = 0;

    for (uint32_t i = 0; i < count; i++) {
        const uint32_t less = prices[i] - 1;

        joined |= prices[i];
        largest = less > largest ? less : largest;
    }
    return largest < LARGEST_PRICE && (joined & (tick - 1)) == 0;
#else
    int are = 1;

    for (uint32_t i = 0; i < count; i++)
        are &= is_price(prices[i], tick);
    return are;
#endif
}

static inline int are_prices(const uint32_t *prices, uint32_t count, uint32_t tick)
{
#ifdef BEST
    if (are_plainly_prices(prices, count, tick))
        return 1;
#endif
    return are_each_prices(prices, count, tick);
}

static inline int is_window_sound(const uint32_t *prices, uint32_t count, uint32_t tick)
{
    if (count > WINDOW)
        return 0;
    /* A full one has a length that the compiler knows. */
    return count == WINDOW ? are_prices(prices, WINDOW, tick) : are_prices(prices, count, tick);
}

static int are_contracts_sound(uint32_t product, const botskhela_contract *contracts,
                               uint32_t count, uint32_t tick)
{
    for (uint32_t i = 0; i < count; i++) {
        if (i > 0 && contracts[i].month <= contracts[i - 1].month)
            return 0;
        if (!is_traded(product, contracts[i].month) || !is_price(contracts[i].settlement, tick))
            return 0;
    }
    return 1;
}

#ifdef BEST
/*
 * A quick test that only accepts. Months are looked up in the bits from the first of them on, without a division for each, and
 * settlements less the tick are joined, with one comparison for all.
 */
static inline int are_plainly_sound(uint32_t product, const botskhela_contract *contracts,
                                    uint32_t count, uint32_t tick)
{
    const uint32_t first = contracts[0].month;
    const uint64_t traded = traded_from(product, first);
    uint32_t month = first, joined = contracts[0].settlement - tick;

    if (contracts[count - 1].month - first >= 48 || !(traded & 1))
        return 0;
    for (uint32_t i = 1; i < count; i++) {
        const uint32_t next = contracts[i].month;

        if (next <= month || !(traded >> ((next - first) & 63) & 1))
            return 0;
        month = next;
        joined |= contracts[i].settlement - tick;
    }
    return is_joined_sound(joined, tick);
}
#endif

static inline int is_sheet_sound(uint32_t product, const botskhela_product_sheet *sheet,
                                 uint32_t tick)
{
    if (sheet->count == 0)
        return 1;
    if (sheet->count > CONTRACTS)
        return 0;
#ifdef BEST
    if (are_plainly_sound(product, sheet->contracts, sheet->count, tick))
        return 1;
#endif
    return are_contracts_sound(product, sheet->contracts, sheet->count, tick);
}

static inline int is_limit_sound(uint32_t product, const botskhela_limit *limit)
{
    return is_fit(product, limit->initial, LARGEST_AMOUNT) &&
           limit->expanded == expanded_of(product, limit->initial);
}

/* In a loop of its own, which the compiler unrolls, so that each step is a number and no division is left. */
static inline int are_limits_sound(const botskhela_book *book)
{
    for (uint32_t product = 0; product < PRODUCTS; product++)
        if (!is_limit_sound(product, &book->limits[product]))
            return 0;
    return 1;
}

static inline int is_head_sound(const botskhela_book *book)
{
    if (book->format != BOTSKHELA_FORMAT || book->is_open > 1)
        return 0;
    if (book->edition != BOTSKHELA_EDITION_2014 && book->edition != BOTSKHELA_EDITION_2023)
        return 0;
    if (!has_day(book))
        return !book->is_open;
    return is_true_day(book->year, book->month, book->day, book->left);
}

/* A mark only on an expanded group, and none under 2014. */
static inline int are_standings_sound(const botskhela_book *book)
{
    const uint32_t largest_mark = book->edition == BOTSKHELA_EDITION_2023;

    for (uint32_t group = 0; group < BOTSKHELA_GROUPS; group++) {
        const botskhela_standing *standing = &book->standings[group];

        if (standing->expanded > 1 || standing->marked > standing->expanded ||
            standing->marked > largest_mark)
            return 0;
    }
    return 1;
}

/* Its window and sheets. */
static inline int is_product_sound(const botskhela_book *book, uint32_t product)
{
    const uint32_t tick = TICK[product][BOTSKHELA_STANDARD];
    const botskhela_windows *windows = &book->windows;

    return is_window_sound(windows->settlements[product], windows->counts[product], tick) &&
           is_sheet_sound(product, &book->today[product], tick) &&
           is_sheet_sound(product, &book->last[product], tick);
}

static int is_sound(const botskhela_book *book)
{
    uint32_t in_today = 0, in_last = 0;

    if (!is_head_sound(book) || !are_standings_sound(book) || !are_limits_sound(book))
        return 0;
    for (uint32_t product = 0; product < PRODUCTS; product++) {
        if (!is_product_sound(book, product))
            return 0;
        in_today += book->today[product].count != 0;
        in_last += book->last[product].count != 0;
    }
    if (in_today > 0 && !book->is_open)
        return 0;
    return in_last == 0 || (in_last == PRODUCTS && has_day(book));
}

#endif

/* What the calls of book_in_c.c need of the rule that knows no book: prices, amounts, dates. */
#ifndef RULE_IN_C_H
#define RULE_IN_C_H

#include "botskhela.h"
#include "products.h"

#define LARGEST_PRICE 1000000u
#define LARGEST_FOUNDING 1000000u
#define LARGEST_AMOUNT 2000000u

/* By a mask, as every tick is 1 or 2; 0 wraps above the range. No branch, so that several can be tested at a time. */
static inline int is_price(uint32_t price, uint32_t tick)
{
    return (price - 1 < LARGEST_PRICE) & ((price & (tick - 1)) == 0);
}

static inline int is_offered(uint32_t product, uint32_t size)
{
    return product < PRODUCTS && size < SIZES && TICK[product][size] != 0;
}

static inline int is_fit(uint32_t product, uint32_t amount, uint32_t largest)
{
    return amount >= FLOOR[product] && amount <= largest && amount % STEP[product] == 0;
}

static inline uint32_t expanded_of(uint32_t product, uint32_t initial)
{
    const uint32_t step = STEP[product];
    const uint32_t expanded = step * ((3 * initial + 2 * step - 1) / (2 * step));

    return expanded < LARGEST_AMOUNT ? expanded : LARGEST_AMOUNT;
}

static inline uint32_t season_initial(uint32_t product, const uint32_t settlements[WINDOW])
{
    const uint64_t step = STEP[product];
    uint64_t sum = 0;
    uint32_t rounded;

    for (uint32_t i = 0; i < WINDOW; i++)
        sum += settlements[i];
    rounded = (uint32_t)(step * ((7 * sum + 2250 * step) / (4500 * step)));
    return rounded > FLOOR[product] ? rounded : FLOOR[product];
}

/* A bit for each month from a first one on that is traded: the next 48 at least. */
static inline uint64_t traded_from(uint32_t product, uint32_t first)
{
    return (TRADED[product] * UINT64_C(0x1001001001001)) >> first % 12;
}

static inline int is_traded(uint32_t product, uint32_t month)
{
    return TRADED[product] >> month % 12 & 1;
}

static inline uint32_t month_length(uint32_t year, uint32_t month)
{
    static const uint8_t LENGTHS[13] = {0, 31, 28, 31, 30, 31, 30, 31, 31, 30, 31, 30, 31};

    if (month == 2 && year % 4 == 0 && (year % 100 != 0 || year % 400 == 0))
        return 29;
    return LENGTHS[month];
}

/* A date, with left at most the days remaining in its month. */
static inline int is_true_day(uint32_t year, uint32_t month, uint32_t day, uint32_t left)
{
    uint32_t length;

    if (year < 2000 || year > 2098 || month < 1 || month > 12)
        return 0;
    length = month_length(year, month);
    return day >= 1 && day <= length && left <= length - day;
}

static inline uint32_t season_of(uint32_t year, uint32_t month)
{
    return (year * 12 + month - 1 - 4) / 6;
}

static inline uint32_t distance(uint32_t a, uint32_t b)
{
    return a < b ? b - a : a - b;
}

static inline uint32_t judge(uint32_t settlement, uint32_t limit, uint32_t price)
{
    if (price + limit < settlement)
        return BOTSKHELA_BELOW;
    if (settlement + limit < price)
        return BOTSKHELA_ABOVE;
    return BOTSKHELA_WITHIN;
}

#endif

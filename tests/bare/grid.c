/* Every combination of numbers at the edges of the rule. */
#include "compare.h"

#define LENGTH(array) (sizeof(array) / sizeof((array)[0]))

static const uint32_t NUMBERS[] = {0, 1, 2, 3, 4, 5, 6, 7, 8, 9, UINT32_MAX};
static const uint32_t SIZES[] = {0, 1, 2, UINT32_MAX};
static const uint32_t SPOTS[] = {0, 1, 256, UINT32_MAX};

/* On a tick of 2 and one off it. */
static const uint32_t SETTLEMENTS[] = {
    0,      1,      2,       3,       100,     101,        5000,   5001,
    40000,  40001,  250000,  250001,  600000,  600001,     900000, 900001,
    999998, 999999, 1000000, 1000001, 1000002, UINT32_MAX,
};

/* Prices at the ends of the range, and how far others lie beyond the limit; -1 is inside. */
static const uint32_t RANGE_ENDS[] = {
    0, 1, 2, 3, 999998, 999999, 1000000, 1000001, 1000002, UINT32_MAX,
};
static const uint32_t BEYOND[] = {-2u, -1u, 0, 1, 2, 3};

#define PRICES (LENGTH(RANGE_ENDS) + 2 * LENGTH(BEYOND) + 1)

/* Where the amount is larger than the settlement, a price wraps and is out of range. */
static void fill_prices(uint32_t prices[PRICES], uint32_t settlement, uint32_t amount)
{
    uint32_t *price = prices;

    for (unsigned i = 0; i < LENGTH(RANGE_ENDS); i++)
        *price++ = RANGE_ENDS[i];
    for (unsigned i = 0; i < LENGTH(BEYOND); i++) {
        *price++ = settlement + amount + BEYOND[i];
        *price++ = settlement - amount - BEYOND[i];
    }
    *price = settlement;
}

static void compare_prices(struct run *run, struct call call)
{
    uint32_t prices[PRICES];

    fill_prices(prices, call.settlement, call.amount);
    for (unsigned i = 0; i < LENGTH(SPOTS); i++)
        for (unsigned j = 0; j < PRICES; j++) {
            call.spot = SPOTS[i];
            call.price = prices[j];
            compare(run, &call);
        }
}

static void compare_settlements(struct run *run, struct call call)
{
    for (unsigned i = 0; i < LENGTH(SETTLEMENTS); i++) {
        call.settlement = SETTLEMENTS[i];
        compare_prices(run, call);
    }
}

/* Settlements from which the amount reaches to about the first price, or the last. */
static void compare_edges(struct run *run, struct call call)
{
    for (uint32_t beyond = 0; beyond < 3; beyond++) {
        call.settlement = call.amount + beyond;
        compare_prices(run, call);
        call.settlement = LARGEST_PRICE - call.amount + beyond;
        compare_prices(run, call);
    }
}

static void compare_amounts(struct run *run, struct call call)
{
    /* A number without a product borrows the amounts of Corn. */
    const uint32_t row = call.product < PRODUCTS ? call.product : 0;
    const uint32_t step = STEPS[row];
    const uint32_t floor = FLOORS[row];
    const uint32_t largest = LARGEST_AMOUNT / step * step;
    const uint32_t amounts[] = {
        0,          floor - step,   floor - 1,          floor,
        floor + 1,  floor + step,   200 * step,         largest - step,
        largest,    LARGEST_AMOUNT, LARGEST_AMOUNT + 1, largest + step,
        UINT32_MAX,
    };

    for (unsigned i = 0; i < LENGTH(amounts); i++) {
        call.amount = amounts[i];
        compare_settlements(run, call);
        compare_edges(run, call);
    }
}

void compare_grid(struct run *run)
{
    struct call call = {0, 0, 0, 0, 0, 0};

    for (unsigned i = 0; i < LENGTH(NUMBERS); i++)
        for (unsigned j = 0; j < LENGTH(SIZES); j++) {
            call.product = NUMBERS[i];
            call.size = SIZES[j];
            compare_amounts(run, call);
        }
}

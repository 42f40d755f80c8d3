/* Random calls, drawn so that every answer is common. */
#include "compare.h"

#define CALLS 10000000u

/* splitmix64, seeded: the same calls in every run. */
static uint64_t state = 20230501u;

static uint32_t draw_word(void)
{
    uint64_t mixed = state += UINT64_C(0x9E3779B97F4A7C15);

    mixed = (mixed ^ (mixed >> 30)) * UINT64_C(0xBF58476D1CE4E5B9);
    mixed = (mixed ^ (mixed >> 27)) * UINT64_C(0x94D049BB133111EB);
    return (uint32_t)((mixed ^ (mixed >> 31)) >> 32);
}

static uint32_t below(uint32_t bound)
{
    return draw_word() % bound;
}

static int one_in(uint32_t chances)
{
    return below(chances) == 0;
}

static uint32_t draw_product(void)
{
    if (one_in(32))
        return one_in(2) ? 8 + below(8) : draw_word();
    return below(PRODUCTS);
}

/* Most are standard, which every product has. */
static uint32_t draw_size(void)
{
    if (one_in(32))
        return one_in(2) ? 2 + below(8) : draw_word();
    return one_in(4);
}

static uint32_t draw_settlement(void)
{
    if (one_in(32))
        return one_in(2) ? draw_word() : LARGEST_PRICE - 4 + below(8);
    if (one_in(16))
        return below(LARGEST_PRICE + 1);
    return 2 * (1 + below(one_in(4) ? LARGEST_PRICE / 2 : 10000));
}

static uint32_t draw_amount(uint32_t product)
{
    const uint32_t row = product < PRODUCTS ? product : 0;
    const uint32_t steps = (LARGEST_AMOUNT - FLOORS[row]) / STEPS[row];

    if (one_in(16))
        return draw_word();
    if (one_in(16))
        return below(LARGEST_AMOUNT + 100);
    return FLOORS[row] + STEPS[row] * below(one_in(8) ? steps + 2 : 30);
}

/* Mostly about the amount away from the settlement. */
static uint32_t draw_price(const struct call *call)
{
    const uint32_t offset = below(9) - 4;

    if (one_in(32))
        return draw_word();
    if (one_in(8))
        return below(LARGEST_PRICE + 4);
    if (one_in(8))
        return call->settlement + 2 * offset;
    return one_in(2) ? call->settlement + call->amount + offset
                     : call->settlement - call->amount + offset;
}

void compare_random(struct run *run)
{
    for (uint32_t i = 0; i < CALLS; i++) {
        struct call call;

        call.product = draw_product();
        call.size = draw_size();
        call.settlement = draw_settlement();
        call.amount = draw_amount(call.product);
        call.spot = one_in(8) ? draw_word() : 0;
        call.price = draw_price(&call);
        compare(run, &call);
    }
}

/* Nanoseconds a call: the proved bare check beside those in plain C, which have to give the same answers. */
#include <inttypes.h>
#include <stdint.h>
#include <stdio.h>

#include "book_in_c.h"
#include "draw.h"
#include "products.h"
#include "timing.h"

#define CALLS 65536
#define PASSES 100
#define ROUNDS 21

struct call {
    uint32_t product, size, settlement, amount, spot, price;
};

struct measured {
    const char *name;
    const struct library *library;
    double nanoseconds[ROUNDS];
};

static struct measured proved = {"botskhela_bare_check       ", &PROVED, {0}};

static struct measured in_c[] = {
    {"C at -O3, tick by remainder", &plain_gcc, {0}},
    {"C at -O3, tick by mask     ", &best_gcc, {0}},
#ifdef WITH_CLANG
    {"by clang, tick by remainder", &plain_clang, {0}},
    {"by clang, tick by mask     ", &best_clang, {0}},
#endif
};

static struct call calls[CALLS];

/*
 * Orders of every product around its limit. One in 8 asks for a mini, which five products do not
 * offer; one in 16 has its price a unit higher, which is off a tick of 2.
 */
static struct call draw_call(void)
{
    struct call call;
    uint32_t tick;

    call.product = draw(PRODUCTS);
    call.size = draw(8) == 0 ? BOTSKHELA_MINI : BOTSKHELA_STANDARD;
    tick = TICK[call.product][BOTSKHELA_STANDARD];
    call.settlement = tick * (4000 + draw(4000));
    call.amount = FLOOR[call.product] + STEP[call.product] * draw(20);
    call.spot = draw(8) == 0;
    call.price = call.settlement - 3 * call.amount / 2 + tick * draw(3 * call.amount / tick + 1);
    if (draw(16) == 0)
        call.price += 1;
    return call;
}

static uint32_t answer(const struct measured *measured, const struct call *c)
{
    return measured->library->bare_check(c->product, c->size, c->settlement, c->amount, c->spot,
                                         c->price);
}

/* Says the first call that a C version answers otherwise than the proved check. */
static int differ(const struct measured *plain)
{
    for (int i = 0; i < CALLS; i++) {
        const struct call *c = &calls[i];

        if (answer(&proved, c) == answer(plain, c))
            continue;
        printf("%s: %" PRIu32 " to %" PRIu32 " %" PRIu32 " %" PRIu32 " %" PRIu32 " %" PRIu32
               " %" PRIu32 ", the proved check %" PRIu32 "\n",
               plain->name, answer(plain, c), c->product, c->size, c->settlement, c->amount,
               c->spot, c->price, answer(&proved, c));
        return 1;
    }
    return 0;
}

static int accepted(void)
{
    int count = 0;

    for (int i = 0; i < CALLS; i++)
        count += answer(&proved, &calls[i]) >= BOTSKHELA_FREE;
    return count;
}

static void measure(struct measured *measured, int round)
{
    double start = now();

    for (int pass = 0; pass < PASSES; pass++)
        for (int i = 0; i < CALLS; i++)
            answer(measured, &calls[i]);
    measured->nanoseconds[round] = (now() - start) / ((double)PASSES * CALLS);
}

static void print_beside(double proved_ns, struct measured *plain)
{
    double plain_ns = median(plain->nanoseconds, ROUNDS);

    printf("%s  %.2f ns a call, ratio %.2f\n", plain->name, plain_ns, proved_ns / plain_ns);
}

int main(void)
{
    double proved_ns;

    for (int i = 0; i < CALLS; i++)
        calls[i] = draw_call();
    for (size_t i = 0; i < IN_C_COUNT; i++)
        if (differ(&in_c[i]))
            return 1;
    printf("%d orders of %d products, %d accepted, the answers of all the same\n", CALLS, PRODUCTS,
           accepted());
    for (int round = 0; round < ROUNDS; round++) {
        measure(&proved, round);
        for (size_t i = 0; i < IN_C_COUNT; i++)
            measure(&in_c[i], round);
    }
    proved_ns = median(proved.nanoseconds, ROUNDS);
    printf("%s  %.2f ns a call\n", proved.name, proved_ns);
    for (size_t i = 0; i < IN_C_COUNT; i++)
        print_beside(proved_ns, &in_c[i]);
    return 0;
}

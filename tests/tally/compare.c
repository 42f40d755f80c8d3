/* The proved check through a tally beside the second implementation: each damage, the edges of 32 bits, and random lists. */
#include <inttypes.h>
#include <stdio.h>
#include <string.h>

#include "botskhela.h"

#define COUNTS 6
#define ORDERS 7
#define LISTS 200000u
#define LIST_LENGTH 20u
#define SHOWN 5u

uint32_t oracle_tallied_check(botskhela_tally *tally, uint32_t product, uint32_t size,
                              uint32_t settlement, uint32_t amount, uint32_t spot,
                              uint32_t price);

/* One order for each answer: free, within, below, above, 5, 8, 13. */
static const uint32_t ORDER[ORDERS][6] = {
    {0, 0, 6000, 200, 1, 9000}, {0, 0, 6000, 200, 0, 6200}, {0, 0, 6000, 200, 0, 5798},
    {0, 0, 6000, 200, 0, 6202}, {8, 0, 6000, 200, 0, 6000}, {0, 0, 6000, 200, 0, 6001},
    {0, 0, 6000, 201, 0, 6000},
};

struct test {
    const char *name;
    uint64_t calls;
    uint64_t differences;
};

/* One check through each tally; they have to answer alike and to be left alike. */
static uint32_t compare(struct test *test, botskhela_tally *proved, botskhela_tally *oracle,
                        const uint32_t o[6])
{
    uint32_t p = botskhela_tallied_check(proved, o[0], o[1], o[2], o[3], o[4], o[5]);
    uint32_t q = oracle_tallied_check(oracle, o[0], o[1], o[2], o[3], o[4], o[5]);

    test->calls++;
    if (p != q || memcmp(proved, oracle, sizeof *proved) != 0) {
        test->differences++;
        if (test->differences <= SHOWN)
            printf("FAILED %s: the oracle says %" PRIu32 ", the proved check %" PRIu32 "\n",
                   test->name, q, p);
    }
    return p;
}

static void compare_from(struct test *test, const uint32_t counts[COUNTS], uint32_t expected)
{
    for (int i = 0; i < ORDERS; i++) {
        botskhela_tally proved = {counts[0], counts[1], counts[2], counts[3], counts[4],
                                  counts[5]};
        botskhela_tally before = proved, oracle = proved;
        uint32_t answer = compare(test, &proved, &oracle, ORDER[i]);

        if (expected != 0 &&
            (answer != expected || memcmp(&proved, &before, sizeof proved) != 0))
            test->differences++;
    }
}

/* Each count of a sound tally one too large and one too small: 1, and nothing changed. */
static void damaged(struct test *test)
{
    static const uint32_t sound[COUNTS] = {15, 1, 2, 3, 4, 5};

    for (int i = 0; i < COUNTS; i++) {
        for (int up = 0; up < 2; up++) {
            uint32_t counts[COUNTS];

            memcpy(counts, sound, sizeof counts);
            counts[i] = up ? counts[i] + 1 : counts[i] - 1;
            compare_from(test, counts, 1);
        }
    }
}

/* Full, full and unsound, sums that wrap in 32 bits, and one check before full. */
static void edges(struct test *test)
{
    static const struct {
        uint32_t counts[COUNTS], expected;
    } edge[] = {
        {{UINT32_MAX, UINT32_MAX, 0, 0, 0, 0}, 15},
        {{UINT32_MAX, 0, 0, 0, 0, UINT32_MAX}, 15},
        {{UINT32_MAX, UINT32_MAX - 4, 1, 1, 1, 1}, 15},
        {{UINT32_MAX, UINT32_MAX - 1, 0, 0, 0, 0}, 1},
        {{UINT32_MAX, 0, 0, 0, 0, 0}, 1},
        {{0, UINT32_MAX, 1, 0, 0, 0}, 1},
        {{1, UINT32_MAX, 0, 2, 0, 0}, 1},
        {{UINT32_MAX, UINT32_MAX, UINT32_MAX, 1, 0, 0}, 1},
        {{UINT32_MAX - 1, UINT32_MAX - 1, 0, 0, 0, 0}, 0},
        {{UINT32_MAX - 1, 0, 0, UINT32_MAX - 2, 0, 1}, 0},
    };

    for (size_t i = 0; i < sizeof edge / sizeof edge[0]; i++)
        compare_from(test, edge[i].counts, edge[i].expected);
}

/* splitmix64, seeded: the same lists in every run. */
static uint32_t draw(uint32_t bound)
{
    static uint64_t state = 20240627u;
    uint64_t mixed = state += UINT64_C(0x9E3779B97F4A7C15);

    mixed = (mixed ^ (mixed >> 30)) * UINT64_C(0xBF58476D1CE4E5B9);
    mixed = (mixed ^ (mixed >> 27)) * UINT64_C(0x94D049BB133111EB);
    return (uint32_t)((mixed ^ (mixed >> 31)) >> 32) % bound;
}

/* Lists of checks from six zeros, and from a few checks before full. */
static void lists(struct test *test)
{
    for (uint32_t i = 0; i < LISTS; i++) {
        uint32_t asked = i % 2 == 0 ? 0 : UINT32_MAX - draw(LIST_LENGTH);
        botskhela_tally proved = {asked, 0, asked, 0, 0, 0}, oracle = proved;

        for (uint32_t j = 0; j < LIST_LENGTH; j++)
            compare(test, &proved, &oracle, ORDER[draw(ORDERS)]);
    }
}

int main(void)
{
    struct test tests[] = {{"damaged", 0, 0}, {"edges", 0, 0}, {"lists", 0, 0}};
    int failed = 0;

    damaged(&tests[0]);
    edges(&tests[1]);
    lists(&tests[2]);
    for (int i = 0; i < 3; i++) {
        printf("%s: %" PRIu64 " checks, %" PRIu64 " differences\n", tests[i].name, tests[i].calls,
               tests[i].differences);
        failed += tests[i].differences != 0 || tests[i].calls == 0;
    }
    printf("%d passed, %d failed\n", 3 - failed, failed);
    return failed != 0;
}

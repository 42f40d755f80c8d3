/*
 * The archive beside the calls in plain C: beside_c [compare N]
 * Compares both on N drawn books and N / 100 drawn histories, and ends in 'N passed, M failed'. Without arguments it compares them
 * so and then measures each call.
 */
#include <stdio.h>
#include <stdlib.h>
#include <string.h>

#include "compare.h"
#include "draw.h"
#include "drawn.h"
#include "measure.h"
#include "products.h"

#define BOOKS_COMPARED 30000
#define BOOKS_A_HISTORY 100
#define DAYS 60
#define TRIES 60

static struct state states[STATES];
static struct call call;

static uint32_t make(struct comparison *comparison, enum kind kind)
{
    draw_call(&call, kind, &states[0].book);
    return compare_call(comparison, states, &call);
}

static void set_states(const struct state *state)
{
    for (size_t i = 0; i < STATES; i++)
        states[i] = *state;
}

/* Each call on a drawn book. */
static void compare_book(struct comparison *comparison)
{
    struct state state;

    draw_book(&state.book);
    draw_tally(&state.tally);
    for (int kind = 0; kind < KINDS; kind++) {
        set_states(&state);
        make(comparison, (enum kind)kind);
    }
}

static void found_all(struct comparison *comparison)
{
    struct state state;

    memset(&state, 0xaa, sizeof state);
    memset(&state.tally, 0, sizeof state.tally);
    set_states(&state);
    while (make(comparison, FOUND) != 0)
        continue;
}

static int is_filing(const botskhela_book *book)
{
    for (uint32_t product = 0; product < PRODUCTS; product++)
        if (book->today[product].count == 0)
            return book->is_open != 0;
    return 0;
}

/* A day, with orders on it. Any call may be refused, and the day may stay open. */
static void compare_day(struct comparison *comparison)
{
    make(comparison, OPEN);
    for (int tries = 0; tries < TRIES && is_filing(&states[0].book); tries++)
        make(comparison, SHEET);
    make(comparison, SHEET);
    make(comparison, CHECK);
    make(comparison, CHECK_SPAN);
    make(comparison, TALLIED_CHECK);
    make(comparison, END);
    if (draw(50) == 0)
        make(comparison, CONVERT);
}

static void compare_history(struct comparison *comparison)
{
    found_all(comparison);
    for (int day = 0; day < DAYS; day++)
        compare_day(comparison);
}

static int failed_comparisons(uint32_t count, int *total)
{
    struct comparison books = {"drawn books", 0, {0}}, histories = {"histories", 0, {0}};
    int failed;

    for (uint32_t i = 0; i < count; i++)
        compare_book(&books);
    for (uint32_t i = 0; i < count / BOOKS_A_HISTORY; i++)
        compare_history(&histories);
    failed = failed_comparison(&books) + failed_comparison(&histories) + is_some_unmet();
    *total = 2 * (int)IN_C_COUNT + 1;
    return failed;
}

int main(int argc, char **argv)
{
    const int compares = argc == 3 && strcmp(argv[1], "compare") == 0;
    const int count = compares ? atoi(argv[2]) : BOOKS_COMPARED;
    int total, failed;

    if ((argc != 1 && !compares) || count <= 0) {
        printf("usage: beside_c [compare N]\n");
        return 2;
    }
    failed = failed_comparisons((uint32_t)count, &total);
    if (failed == 0 && !compares)
        return measure();
    printf("%d passed, %d failed\n", total - failed, failed);
    return failed != 0;
}

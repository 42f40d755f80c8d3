#include "compare.h"

#include <inttypes.h>
#include <stdio.h>
#include <string.h>

#include "products.h"

#define LENGTH(array) (sizeof(array) / sizeof((array)[0]))
#define SHOWN 5u
#define ANSWERS 128
#define EVENTS 5
#define EDITIONS 2

static uint64_t met[KINDS][ANSWERS];
static uint64_t met_events[EDITIONS][BOTSKHELA_GROUPS][EVENTS];
static uint64_t met_renewed[PRODUCTS];

/* Places beyond a count mean nothing. */
static void clear_unused(botskhela_book *book)
{
    for (uint32_t product = 0; product < PRODUCTS; product++) {
        for (uint32_t i = book->windows.counts[product]; i < WINDOW; i++)
            book->windows.settlements[product][i] = 0;
        for (uint32_t i = book->today[product].count; i < CONTRACTS; i++)
            book->today[product].contracts[i] = (botskhela_contract){0, 0};
        for (uint32_t i = book->last[product].count; i < CONTRACTS; i++)
            book->last[product].contracts[i] = (botskhela_contract){0, 0};
    }
}

static int is_change(const struct call *call)
{
    return call->kind <= CONVERT;
}

/* What an accepted call leaves; refused ones and checks leave the very book. */
static int is_left_alike(const struct call *call, uint32_t answer, const struct state *before,
                         const struct state *proved, const struct state *in_c)
{
    struct state left = *proved, other = *in_c;

    if (memcmp(&proved->tally, &in_c->tally, sizeof in_c->tally) != 0)
        return 0;
    if (answer != 0 || !is_change(call))
        return memcmp(&before->book, &in_c->book, sizeof in_c->book) == 0;
    clear_unused(&left.book);
    clear_unused(&other.book);
    return memcmp(&left.book, &other.book, sizeof left.book) == 0;
}

static void compare_one(struct comparison *comparison, size_t i, const struct state *proved,
                        const botskhela_span *wanted, struct state *state, const struct call *call)
{
    const struct state before = *state;
    const botskhela_span span = make_call(IN_C[i], state, call);

    if (memcmp(wanted, &span, sizeof span) == 0 &&
        is_left_alike(call, span.answer, &before, proved, state))
        return;
    comparison->differences[i]++;
    if (comparison->differences[i] > SHOWN)
        return;
    printf("FAILED %s, call %" PRIu64 ", %s: %s answers %" PRIu32 " %" PRIu32 " %" PRIu32
           ", the archive %" PRIu32 " %" PRIu32 " %" PRIu32 "\n",
           comparison->name, comparison->calls, KIND_NAME[call->kind], IN_C[i]->name, span.answer,
           span.lowest, span.highest, wanted->answer, wanted->lowest, wanted->highest);
}

static void count_renewed(const botskhela_book *book)
{
    for (uint32_t product = 0; product < PRODUCTS; product++)
        met_renewed[product] += book->renewed[product];
}

static void count_events(const botskhela_book *book)
{
    for (uint32_t group = 0; group < BOTSKHELA_GROUPS; group++)
        met_events[book->edition == BOTSKHELA_EDITION_2023][group][book->events[group].kind]++;
}

uint32_t compare_call(struct comparison *comparison, struct state states[STATES],
                      const struct call *call)
{
    const botskhela_span wanted = make_call(&PROVED, &states[0], call);

    comparison->calls++;
    met[call->kind][wanted.answer % ANSWERS]++;
    if (call->kind == OPEN && wanted.answer == 0)
        count_renewed(&states[0].book);
    if (call->kind == END && wanted.answer == 0)
        count_events(&states[0].book);
    for (size_t i = 0; i < IN_C_COUNT; i++)
        compare_one(comparison, i, &states[0], &wanted, &states[i + 1], call);
    return wanted.answer;
}

int failed_comparison(const struct comparison *comparison)
{
    int failed = 0;

    for (size_t i = 0; i < IN_C_COUNT; i++) {
        printf("%s, %s: %" PRIu64 " calls, %" PRIu64 " differences\n", comparison->name,
               IN_C[i]->name, comparison->calls, comparison->differences[i]);
        failed += comparison->differences[i] != 0 || comparison->calls == 0;
    }
    return failed;
}

/* Every answer that a call can give. */
static const struct answer {
    enum kind kind;
    uint32_t answers[12];
    size_t count;
} ANSWERS_OF[] = {
    {FOUND, {0, 13, 17}, 3},
    {OPEN, {0, 1, 2, 3, 4, 16}, 6},
    {SHEET, {0, 1, 2, 5, 6, 7, 8, 9, 10, 11}, 10},
    {END, {0, 1, 2, 12}, 4},
    {CONVERT, {0, 1, 2, 18}, 4},
    {CHECK, {1, 2, 5, 8, 14, 100, 101, 102, 103}, 9},
    {CHECK_SPAN, {1, 2, 5, 8, 14, 100, 101, 102, 103}, 9},
    {TALLIED_CHECK, {1, 2, 5, 8, 14, 15, 100, 101, 102, 103}, 10},
    {BARE_CHECK, {5, 8, 13, 100, 101, 102, 103}, 7},
};

static int is_answer_unmet(void)
{
    int unmet = 0;

    for (size_t i = 0; i < LENGTH(ANSWERS_OF); i++) {
        const struct answer *of = &ANSWERS_OF[i];

        printf("%s:", KIND_NAME[of->kind]);
        for (size_t j = 0; j < of->count; j++) {
            const uint64_t times = met[of->kind][of->answers[j]];

            printf(" %" PRIu32 " %" PRIu64 " times%s", of->answers[j], times,
                   j + 1 < of->count ? "," : "\n");
            unmet |= times == 0;
        }
    }
    return unmet;
}

/* None is raised under 2014. */
static int is_event_unmet(void)
{
    int unmet = 0;

    for (uint32_t edition = 0; edition < EDITIONS; edition++) {
        for (uint32_t group = 0; group < BOTSKHELA_GROUPS; group++) {
            printf("events of group %" PRIu32 " under %s:", group, edition ? "2023" : "2014");
            for (uint32_t kind = 0; kind < EVENTS; kind++) {
                const uint64_t times = met_events[edition][group][kind];

                printf(" %" PRIu64, times);
                unmet |= (times == 0) != (kind == BOTSKHELA_RAISED && edition == 0);
            }
            printf("\n");
        }
    }
    return unmet;
}

static int is_renewal_unmet(void)
{
    int unmet = 0;

    printf("new limits:");
    for (uint32_t product = 0; product < PRODUCTS; product++) {
        printf(" %" PRIu64, met_renewed[product]);
        unmet |= met_renewed[product] == 0;
    }
    printf("\n");
    return unmet;
}

int is_some_unmet(void)
{
    const int is_answer = is_answer_unmet(), is_event = is_event_unmet();
    const int is_some = is_renewal_unmet() || is_event || is_answer;

    if (is_some)
        printf("FAILED: an answer, an event or a product's new limits were met in no comparison\n");
    return is_some;
}

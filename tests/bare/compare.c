#include "compare.h"

#include <inttypes.h>
#include <stdio.h>

#define LEAST_REACHED 1000u
#define SHOWN 5u

botskhela_span oracle_bare_span(uint32_t product, uint32_t size, uint32_t settlement,
                                uint32_t amount, uint32_t spot, uint32_t price);

const uint32_t STEPS[PRODUCTS] = {40, 40, 50, 50, 40, 40, 40, 10};
const uint32_t FLOORS[PRODUCTS] = {160, 400, 200, 200, 240, 240, 160, 100};

static const uint32_t ANSWER[ANSWERS] = {100, 101, 102, 103, 5, 8, 13};

/* One is added where the lowest is clamped, and two where the highest is. */
static const char *const CLAMP[CLAMPS] = {"neither", "lowest", "highest", "both"};

botskhela_span proved_span(const struct call *call)
{
    botskhela_span span;

    span.answer = botskhela_bare_check(call->product, call->size, call->settlement, call->amount,
                                       call->spot, call->price);
    span.lowest = botskhela_bare_lowest(call->product, call->size, call->settlement, call->amount,
                                        call->spot, call->price);
    span.highest = botskhela_bare_highest(call->product, call->size, call->settlement,
                                          call->amount, call->spot, call->price);
    return span;
}

int is_same_span(const botskhela_span *one, const botskhela_span *other)
{
    return one->answer == other->answer && one->lowest == other->lowest &&
           one->highest == other->highest;
}

void print_span(const char *who, const botskhela_span *span)
{
    printf(" %s %" PRIu32 " from %" PRIu32 " to %" PRIu32, who, span->answer, span->lowest,
           span->highest);
}

static void count_answer(struct run *run, uint32_t answer)
{
    for (int i = 0; i < ANSWERS; i++)
        if (ANSWER[i] == answer)
            run->reached[i]++;
}

static void count_clamps(struct run *run, const struct call *call, const botskhela_span *span)
{
    if (span->highest != 0)
        run->clamped[(call->settlement < call->amount + span->lowest) +
                     2 * (call->settlement + call->amount > span->highest)]++;
}

void compare(struct run *run, const struct call *call)
{
    botskhela_span proved = proved_span(call);
    botskhela_span oracle = oracle_bare_span(call->product, call->size, call->settlement,
                                             call->amount, call->spot, call->price);

    run->calls++;
    count_answer(run, oracle.answer);
    count_clamps(run, call, &oracle);
    if (is_same_span(&proved, &oracle))
        return;
    run->differences++;
    if (run->differences > SHOWN)
        return;
    printf("FAILED %s: %" PRIu32 " %" PRIu32 " %" PRIu32 " %" PRIu32 " %" PRIu32 " %" PRIu32 ":",
           run->name, call->product, call->size, call->settlement, call->amount, call->spot,
           call->price);
    print_span("the oracle says", &oracle);
    print_span("and the proved calls", &proved);
    printf("\n");
}

/* Prints how often a thing was reached; one that was hardly tested is a failure. */
static int is_rare(uint64_t times)
{
    printf(" %" PRIu64, times);
    return times < LEAST_REACHED;
}

static int answers_are_rare(const struct run *run)
{
    int rare = 0;

    printf("; reached");
    for (int i = 0; i < ANSWERS; i++) {
        printf(" %" PRIu32 ":", ANSWER[i]);
        rare |= is_rare(run->reached[i]);
    }
    return rare;
}

static int clamps_are_rare(const struct run *run)
{
    int rare = 0;

    printf("; clamped");
    for (int i = 0; i < CLAMPS; i++) {
        printf(" %s:", CLAMP[i]);
        rare |= is_rare(run->clamped[i]);
    }
    return rare;
}

static int run_failed(const struct run *run)
{
    int failed = run->differences != 0;

    printf("%s: %" PRIu64 " calls, %" PRIu64 " differences", run->name, run->calls,
           run->differences);
    failed |= answers_are_rare(run);
    failed |= clamps_are_rare(run);
    printf(failed ? " (FAILED)\n" : "\n");
    return failed;
}

int main(void)
{
    struct run grid = {"grid", 0, 0, {0}, {0}};
    struct run drawn = {"random", 0, 0, {0}, {0}};
    int total = 0;
    int failed = failed_constants(&total) + failed_vectors(&total);

    compare_grid(&grid);
    compare_random(&drawn);
    failed += run_failed(&grid) + run_failed(&drawn);
    total += 2;
    printf("%d passed, %d failed\n", total - failed, failed);
    return failed != 0;
}

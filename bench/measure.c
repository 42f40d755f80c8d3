#include "measure.h"

#include <stdio.h>

#include "book_in_c.h"
#include "steps.h"
#include "timing.h"

#define CALLS 64
#define ROUNDS 1000

/* The contracts and days of a smaller book. */
#define SMALL 9
#define SMALL_DAYS 30

/* The archive first, then each library in C, and then the cost that is not a call's. */
#define MEASURED (IN_C_COUNT + 2)
#define LOOP (IN_C_COUNT + 1)

#define ALL_STEPS (STEPS + FURTHER_STEPS)

static struct books full, small;
static botskhela_book book;
static double times[ALL_STEPS][MEASURED][ROUNDS];

static const struct step *step_of(int i)
{
    return i < STEPS ? &STEP_OF[i] : &FURTHER_STEP_OF[i - STEPS];
}

static const struct library *library_of(size_t i)
{
    return i == 0 || i == LOOP ? &PROVED : IN_C[i - 1];
}

static double nanoseconds(const struct step *step, const struct books *books,
                          const struct library *library)
{
    const botskhela_book *from = &books->at[step->book];
    double start;

    copy(&book, from, sizeof book);
    start = now();
    for (uint32_t turn = 0; turn < CALLS; turn++) {
        if (step->changes)
            copy(&book, from, sizeof book);
        step->make(library, books, &book, turn);
    }
    return (now() - start) / CALLS;
}

static void measure_step(int s, const struct books *books, int round)
{
    const struct step *step = step_of(s), *loop = step->changes ? &COPY : &NOTHING;

    for (size_t i = 0; i < MEASURED; i++)
        times[s][i][round] = nanoseconds(i == LOOP ? loop : step, books, library_of(i));
}

/* The copy of the book, where a call needs one, and the loop are taken off. */
static void report(int s, const struct books *books)
{
    double minima[MEASURED], proved, proved_median;
    size_t best = 1;

    for (size_t i = 0; i < MEASURED; i++)
        minima[i] = minimum(times[s][i], ROUNDS);
    for (size_t i = 2; i <= IN_C_COUNT; i++)
        if (minima[i] < minima[best])
            best = i;
    proved = minima[0] - minima[LOOP];
    proved_median = median(times[s][0], ROUNDS) - median(times[s][LOOP], ROUNDS);
    printf("%-18s  %8.1f ns a call, median %8.1f, best in C %8.1f by %-11s, ratio %5.2f; stack "
           "%6zu bytes\n",
           step_of(s)->name, proved, proved_median, minima[best] - minima[LOOP],
           library_of(best)->name, proved / (minima[best] - minima[LOOP]),
           stack_bytes(step_of(s), books, &PROVED));
}

/* All in turn in each round, so that what disturbs the machine for a while leaves each of them rounds enough. */
static void report_all(const struct books *books)
{
    for (int round = 0; round < ROUNDS; round++)
        for (int s = 0; s < ALL_STEPS; s++)
            measure_step(s, books, round);
    for (int s = 0; s < ALL_STEPS; s++)
        report(s, books);
}

int measure(void)
{
    if (make_books(&full, CONTRACTS, FULL_DAYS) || make_books(&small, SMALL, SMALL_DAYS)) {
        printf("a call that makes a book was refused\n");
        return 1;
    }
    printf("a book with full windows and sheets of %u\n", CONTRACTS);
    report_all(&full);
    printf("a book with windows of %d and sheets of %d\n", SMALL_DAYS, SMALL);
    report_all(&small);
    return 0;
}

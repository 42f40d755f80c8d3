/* Nanoseconds and stack of each call on a book, beside the second implementation, which has to agree. */
#include <inttypes.h>
#include <stdio.h>
#include <string.h>

#include "library.h"
#include "oracle.h"
#include "painted.h"
#include "steps.h"
#include "timing.h"

#define CALLS 4096
#define ROUNDS 21

static const struct library ORACLE = {
    .name = "second implementation",
    .found = oracle_found,
    .open = oracle_open,
    .sheet = oracle_sheet,
    .end = oracle_end,
    .convert = oracle_convert,
    .check = oracle_check,
    .check_span = oracle_check_span,
    .tallied_check = oracle_tallied_book_check,
};

static struct books books;

static double nanoseconds(const struct step *step, const struct library *library)
{
    botskhela_book book = books.at[step->book];
    double start = now();

    for (uint32_t turn = 0; turn < CALLS; turn++) {
        if (step->changes)
            copy(&book, &books.at[step->book], sizeof book);
        step->make(library, &books, &book, turn);
    }
    return (now() - start) / CALLS;
}

/* Both accept every call, with the same answers and spans; tests/archive compares what they leave in the book. */
static int differ(const struct step *step)
{
    for (uint32_t turn = 0; turn < CALLS; turn++) {
        botskhela_book proved = books.at[step->book], oracle = proved;
        uint32_t p = step->make(&PROVED, &books, &proved, turn);
        botskhela_span proved_span = span;
        uint32_t q = step->make(&ORACLE, &books, &oracle, turn);

        if (p != q || (p != 0 && p < BOTSKHELA_FREE)) {
            printf("%s: the proved call answers %" PRIu32 ", the second implementation %" PRIu32
                   "\n",
                   step->name, p, q);
            return 1;
        }
        if (memcmp(&proved_span, &span, sizeof span) != 0) {
            printf("%s: the spans of the two differ\n", step->name);
            return 1;
        }
    }
    return 0;
}

/* The copy is taken off where a call needs one. */
static void report(const struct step *step, double copy_ns)
{
    double proved[ROUNDS], oracle[ROUNDS];
    double taken_off = step->changes ? copy_ns : 0;
    double proved_ns, oracle_ns;

    for (int round = 0; round < ROUNDS; round++) {
        proved[round] = nanoseconds(step, &PROVED);
        oracle[round] = nanoseconds(step, &ORACLE);
    }
    proved_ns = median(proved, ROUNDS) - taken_off;
    oracle_ns = median(oracle, ROUNDS) - taken_off;
    printf("%-18s  %8.0f ns a call, second implementation %8.0f, ratio %5.2f; stack %6zu bytes, "
           "second implementation %6zu\n",
           step->name, proved_ns, oracle_ns, proved_ns / oracle_ns,
           stack_bytes(step, &books, &PROVED), stack_bytes(step, &books, &ORACLE));
}

int main(void)
{
    double copies[ROUNDS];
    double copy_ns;

    if (make_books(&books, CONTRACTS, FULL_DAYS)) {
        printf("a call that makes the book was refused\n");
        return 1;
    }
    for (int i = 0; i < STEPS; i++)
        if (differ(&STEP_OF[i]))
            return 1;
    for (int round = 0; round < ROUNDS; round++)
        copies[round] = nanoseconds(&COPY, &PROVED);
    copy_ns = median(copies, ROUNDS);
    printf("a book with full windows and sheets of %u, the answers of both the same\n", CONTRACTS);
    printf("a fresh copy of the book costs %.0f ns, and is taken off the calls that change it\n",
           copy_ns);
    printf("a call that does nothing uses %zu bytes of stack\n",
           stack_bytes(&NOTHING, &books, &PROVED));
    for (int i = 0; i < STEPS; i++)
        report(&STEP_OF[i], copy_ns);
    return 0;
}

/* Orders from standard input, each accepted or rejected in a line, and the tally at the end. */
#ifndef ORDERS_H
#define ORDERS_H

#include <inttypes.h>
#include <stdint.h>
#include <stdio.h>

#include "botskhela.h"
#include "lines.h"
#include "words.h"

#define LONGEST_ORDER 119

/* Judges the order in a line, and gives the ends of the span where it is beyond the limit; 0 where the line is no order. */
typedef int judge_function(void *gateway, const char *line, botskhela_span *span);

/* Only of such an order is it said what could have been sent. */
static inline int is_beyond_limit(uint32_t answer)
{
    return answer == BOTSKHELA_BELOW || answer == BOTSKHELA_ABOVE;
}

static inline void print_decision(const botskhela_span *span)
{
    int is_accepted = span->answer == BOTSKHELA_FREE || span->answer == BOTSKHELA_WITHIN;

    printf("%s %s", is_accepted ? "accept" : "reject", answer_name(span->answer));
    if (is_beyond_limit(span->answer))
        printf(", %" PRIu32 " to %" PRIu32 " allowed", span->lowest, span->highest);
    putchar('\n');
}

static inline void print_tally(const botskhela_tally *tally)
{
    printf("asked %" PRIu32 ": free %" PRIu32 ", within %" PRIu32 ", below %" PRIu32
           ", above %" PRIu32 ", refused %" PRIu32 "\n",
           tally->asked, tally->free, tally->within, tally->below, tally->above, tally->refused);
}

/* Answers every line but blank ones and comments. */
static inline void answer_orders(judge_function *judge, void *gateway)
{
    char line[LONGEST_ORDER + 1];
    enum line outcome;
    botskhela_span span;

    while ((outcome = read_line(stdin, line, sizeof line)) != LINE_NONE) {
        if (is_passed_over(outcome, line))
            continue;
        if (outcome == LINE_TOO_LONG || !judge(gateway, line, &span))
            puts("reject not an order");
        else
            print_decision(&span);
    }
}

/* The status of a program that has read its orders and written its answers. */
static inline int status_of_streams(void)
{
    return ferror(stdin) || fflush(stdout) != 0 || ferror(stdout);
}

#endif

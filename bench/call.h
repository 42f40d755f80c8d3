/* Any call of botskhela.h with its arguments, and what it is made on. */
#ifndef CALL_H
#define CALL_H

#include "library.h"

enum kind { FOUND, OPEN, SHEET, END, CONVERT, CHECK, CHECK_SPAN, TALLIED_CHECK, BARE_CHECK, KINDS };

#define NUMBERS 9
#define ARRAY 17

struct call {
    enum kind kind;
    uint32_t numbers[NUMBERS]; /* the arguments that are numbers, in their order */
    uint32_t months[ARRAY], settlements[ARRAY];
    size_t n_months, n_settlements;
};

struct state {
    botskhela_book book;
    botskhela_tally tally;
};

extern const char *const KIND_NAME[KINDS];

/* The answer, with two zeros where the call shows no span. */
botskhela_span make_call(const struct library *library, struct state *state,
                         const struct call *call);

#endif

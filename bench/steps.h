/* The calls that are measured, each on a book on which it is accepted. */
#ifndef STEPS_H
#define STEPS_H

#include "books.h"
#include "library.h"

/* The turn chooses the product, the contract, the price or the day, as a call has them. */
typedef uint32_t step_function(const struct library *library, const struct books *books,
                               botskhela_book *book, uint32_t turn);

/* A call that changes its book needs a fresh copy of it each time. */
struct step {
    const char *name;
    step_function *make;
    int book;
    int changes;
};

#define STEPS 9
extern const struct step STEP_OF[STEPS];

/* Calls on other books, and the bare check. */
#define FURTHER_STEPS 4
extern const struct step FURTHER_STEP_OF[FURTHER_STEPS];

/* What is taken off a step that changes its book, and off one that does not. */
extern const struct step COPY, NOTHING;

/* The stack that one call uses. */
size_t stack_bytes(const struct step *step, const struct books *books,
                   const struct library *library);

/* What the last check with its span answered. */
extern botskhela_span span;

/* Keeps the compiler from leaving a copy out. */
extern void *(*volatile copy)(void *, const void *, size_t);

#endif

/* The archive's calls compared with those of each library in C, on states that were the same before. */
#ifndef COMPARE_H
#define COMPARE_H

#include "book_in_c.h"
#include "call.h"

/* The archive's state first, then one for each library in C. */
#define STATES (IN_C_COUNT + 1)

/* What a run of comparisons came to. */
struct comparison {
    const char *name;
    uint64_t calls;
    uint64_t differences[IN_C_COUNT];
};

/* Makes a call on each state, and gives what the archive answers. */
uint32_t compare_call(struct comparison *comparison, struct state states[STATES],
                      const struct call *call);

/* Prints a comparison, and gives how many of its libraries differ. */
int failed_comparison(const struct comparison *comparison);

/* Whether an answer of a call, an event of a group or new limits of a product were met in no comparison. */
int is_some_unmet(void);

#endif

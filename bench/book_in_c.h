/* The calls in plain C, natural and in the best shape found, by the compilers that there are. */
#ifndef BOOK_IN_C_H
#define BOOK_IN_C_H

#include "library.h"

extern const struct library plain_gcc, best_gcc, plain_clang, best_clang;

static const struct library *const IN_C[] = {
    &plain_gcc,
    &best_gcc,
#ifdef WITH_CLANG
    &plain_clang,
    &best_clang,
#endif
};

#define IN_C_COUNT (sizeof IN_C / sizeof IN_C[0])

#endif

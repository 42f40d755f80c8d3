/* The calls of botskhela.h by several libraries, to compare and measure them. */
#ifndef LIBRARY_H
#define LIBRARY_H

#include <stddef.h>
#include <stdint.h>

#include "botskhela.h"

struct library {
    const char *name;
    uint32_t (*found)(botskhela_book *, uint32_t, uint32_t, uint32_t, uint32_t, uint32_t, uint32_t,
                      uint32_t, uint32_t, uint32_t);
    uint32_t (*open)(botskhela_book *, uint32_t, uint32_t, uint32_t, uint32_t);
    uint32_t (*sheet)(botskhela_book *, uint32_t, const uint32_t *, size_t, const uint32_t *,
                      size_t);
    uint32_t (*end)(botskhela_book *);
    uint32_t (*convert)(botskhela_book *);
    uint32_t (*check)(const botskhela_book *, uint32_t, uint32_t, uint32_t, uint32_t);
    botskhela_span (*check_span)(const botskhela_book *, uint32_t, uint32_t, uint32_t, uint32_t);
    uint32_t (*tallied_check)(botskhela_tally *, const botskhela_book *, uint32_t, uint32_t,
                              uint32_t, uint32_t);
    uint32_t (*bare_check)(uint32_t, uint32_t, uint32_t, uint32_t, uint32_t, uint32_t);
};

/* The archive's. */
extern const struct library PROVED;

#endif

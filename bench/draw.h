/* Drawn numbers, the same ones in every run. */
#ifndef DRAW_H
#define DRAW_H

#include <stdint.h>

/* Below the bound, which is not 0. */
uint32_t draw(uint32_t bound);

/* At the edge of some rule; or any. */
uint32_t draw_edge(void);
uint32_t draw_number(void);

#endif

/* The proved bare check and the ends of its span beside the second implementation, call by call. */
#ifndef COMPARE_H
#define COMPARE_H

#include <stdint.h>

#include "botskhela.h"

#define PRODUCTS 8
#define LARGEST_PRICE 1000000u
#define LARGEST_AMOUNT 2000000u
#define ANSWERS 7
#define CLAMPS 4

struct call {
    uint32_t product, size, settlement, amount, spot, price;
};

/* What a run of comparisons came to. */
struct run {
    const char *name;
    uint64_t calls;
    uint64_t differences;
    uint64_t reached[ANSWERS];
    uint64_t clamped[CLAMPS]; /* by the ends of the span that are not the amount away */
};

/* Each product's step and floor, for calls at the edges. */
extern const uint32_t STEPS[PRODUCTS];
extern const uint32_t FLOORS[PRODUCTS];

/* The answer, and the ends that the two calls beside it give. */
botskhela_span proved_span(const struct call *call);
int is_same_span(const botskhela_span *one, const botskhela_span *other);
void print_span(const char *who, const botskhela_span *span);

void compare(struct run *run, const struct call *call);

void compare_grid(struct run *run);
void compare_random(struct run *run);

/* Check literal numbers, without the second implementation; each gives how many failed. */
int failed_vectors(int *total);
int failed_constants(int *total);

#endif

/* The product table and the sizes of a book, for the C versions and for drawing calls that they accept. */
#ifndef PRODUCTS_H
#define PRODUCTS_H

#include <stdint.h>

#define PRODUCTS 8
#define SIZES 2

/* The most that a sheet and a window hold. */
#define CONTRACTS 16u
#define WINDOW 45u

static const uint32_t STEP[PRODUCTS] = {40, 40, 50, 50, 40, 40, 40, 10};
static const uint32_t FLOOR[PRODUCTS] = {160, 400, 200, 200, 240, 240, 160, 100};

/* A tick of 0 stands for a size that is not offered. */
static const uint32_t TICK[PRODUCTS][SIZES] = {
    {2, 1}, {2, 1}, {1, 0}, {1, 0}, {2, 1}, {2, 0}, {2, 0}, {1, 0},
};

/* A bit for each month that is traded, January's the lowest. */
static const uint32_t TRADED[PRODUCTS] = {0x954, 0x5d5, 0xbd5, 0xbd5, 0x954, 0x954, 0x954, 0x555};

/* How many of the first contracts can trigger, and the last month of the crop year, from 1 on. */
static const uint32_t FIRST[PRODUCTS] = {5, 7, 8, 8, 5, 5, 5, 6};
static const uint32_t LAST_CROP_MONTH[PRODUCTS] = {9, 8, 9, 9, 5, 5, 5, 7};

static const uint32_t GROUP[PRODUCTS] = {0, 1, 1, 1, 2, 2, 3, 4};

#endif

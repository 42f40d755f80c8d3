#include "draw.h"

/* xorshift64 */
uint32_t draw(uint32_t bound)
{
    static uint64_t state = 88172645463325252u;

    state ^= state << 13;
    state ^= state >> 7;
    state ^= state << 17;
    return (uint32_t)(state >> 32) % bound;
}

/* Numbers at the edges of some rule. */
static const uint32_t EDGES[] = {
    0,       1,       2,       3,          4,          5,          7,          8,
    10,      11,      12,      13,         15,         16,         17,         31,
    32,      33,      39,      40,         44,         45,         46,         47,
    99,      100,     160,     199,        200,        1999,       2000,       2014,
    2023,    2024,    2098,    2099,       2100,       24290,      24291,      999998,
    999999,  1000000, 1000001, 1000002,    1333320,    1333330,    1333340,    1999960,
    2000000, 2000010, 2000040, 0x7fffffff, 0x80000000, 0x80000001, 0xfffffffe, 0xffffffff,
};

uint32_t draw_edge(void)
{
    return EDGES[draw(sizeof EDGES / sizeof EDGES[0])];
}

uint32_t draw_number(void)
{
    return draw(3) == 0 ? draw(UINT32_MAX) : draw_edge();
}

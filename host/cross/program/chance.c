/* The same numbers on every target. */
#include "program.h"

static uint32_t state[4] = {88172645, 463325252, 521288629, 1};

/* Marsaglia's xorshift128. */
uint32_t any(void)
{
    uint32_t t = state[3];
    t ^= t << 11;
    t ^= t >> 8;
    state[3] = state[2];
    state[2] = state[1];
    state[1] = state[0];
    state[0] = t ^ state[1] ^ state[1] >> 19;
    return state[0];
}

/* From 0 to n - 1. */
uint32_t below(uint32_t n)
{
    return (any() >> 4) % n;
}

int one_in(uint32_t n)
{
    return below(n) == 0;
}

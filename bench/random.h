// Numbers for inputs, the same in every run.
#include <stdint.h>

static uint64_t seed;

static uint64_t next_number(void) // xorshift64*
{
    seed ^= seed >> 12;
    seed ^= seed << 25;
    seed ^= seed >> 27;
    return seed * 2685821657736338717u;
}

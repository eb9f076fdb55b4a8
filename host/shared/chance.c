#include "chance.h"

static uint64_t state;

void chance_seed(uint64_t seed)
{
    state = seed;
}

// splitmix64
uint64_t chance_bits(void)
{
    uint64_t z = state += UINT64_C(0x9e3779b97f4a7c15);
    z = (z ^ z >> 30) * UINT64_C(0xbf58476d1ce4e5b9);
    z = (z ^ z >> 27) * UINT64_C(0x94d049bb133111eb);
    return z ^ z >> 31;
}

unsigned chance_below(unsigned end)
{
    return (unsigned)((chance_bits() >> 32) * end >> 32);
}

unsigned chance_from(unsigned least, unsigned most)
{
    return least + chance_below(most - least + 1);
}

bool one_in(unsigned times)
{
    return chance_below(times) == 0;
}

// Chance that falls the same way on every machine for the same seed.
#ifndef CHANCE_H
#define CHANCE_H

#include <stdbool.h>
#include <stdint.h>

void chance_seed(uint64_t seed);
uint64_t chance_bits(void);

// A number from 0 to end - 1.
unsigned chance_below(unsigned end);

// A number from least to most.
unsigned chance_from(unsigned least, unsigned most);

bool one_in(unsigned times);

#endif

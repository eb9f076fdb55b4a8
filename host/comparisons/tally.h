// How many comparisons are made of each kind, and which answers and reasons they meet.
#ifndef TALLY_H
#define TALLY_H

#include <stdint.h>

// Makes the kinds one after another, and says how many comparisons each made. Fails where they met too few of the
// answers and reasons to mean much.
void compare_kinds(uint64_t seed);

// Says, to the end of a line, which kind is made and with which seed.
void say_kind(void);

void count_comparison(void);
void count_answer(unsigned number);
void count_reason(unsigned kind);

#endif

#include "press.h"

#include "read.h"

static const unsigned longest_side[] = {12, WIDEST};

enum { PRESSES = sizeof longest_side / sizeof *longest_side };

uint64_t independent_press_refused(size_t press)
{
    return press < PRESSES ? 0 : independent_answer(21, 0, 0);
}

unsigned independent_longest_side(size_t press)
{
    return longest_side[press];
}

size_t independent_most_entries(size_t press)
{
    size_t stretches = longest_side[press] * (longest_side[press] + 1) / 2;
    return stretches * stretches;
}

// The presses in the independent engine: 0 is the present one, and 1 the wide one.
#ifndef INDEPENDENT_PRESS_H
#define INDEPENDENT_PRESS_H

#include <stddef.h>
#include <stdint.h>

// The rows, and the columns, of the largest sheet of any press.
enum { WIDEST = 24 };

// The answer 21 where there is no such press, else 0.
uint64_t independent_press_refused(size_t press);

// The rows, and the columns, of the largest sheet of a press.
unsigned independent_longest_side(size_t press);

// The entries of that sheet's table.
size_t independent_most_entries(size_t press);

#endif

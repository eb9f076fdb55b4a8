// Small sheets of two colours, and what becomes of them where families are combined.
#ifndef SMALL_H
#define SMALL_H

#include "compare.h"

// A sheet of two colours: bit row * columns + column is the cell's.
struct small {
    unsigned rows, columns, cells;
};

// The first k columns, or rows, and the rest.
struct small first_part(struct small sheet, bool across, unsigned k);
struct small rest(struct small sheet, bool across, unsigned k);

// Its mirror image, upside down or transposed.
struct small turned(struct small sheet, enum combination combination);

#endif

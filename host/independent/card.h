// The sizes of a family in the independent engine.
#ifndef INDEPENDENT_CARD_H
#define INDEPENDENT_CARD_H

#include <stdbool.h>

#include "read.h"

// Whether the family has a sheet of this size, as its size card says.
bool independent_has_size(const struct book *book, unsigned rows, unsigned columns);

#endif

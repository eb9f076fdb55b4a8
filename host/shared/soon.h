// Whether the plain engine is soon done, which a test sees to before it asks: its time grows with the ways in which a
// sheet comes apart.
#ifndef SOON_H
#define SOON_H

#include <stdbool.h>

#include "spell.h"

// On a press. A refused pair and a sheet of more cells than it takes are soon answered, and any other where its rules
// leave few questions to ask.
bool soon_searched(size_t press, const struct bytes *book, const struct bytes *sheet);

#endif

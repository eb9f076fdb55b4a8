// Names of colours: in a text they stand in quotes, with \" for a quote and \\ for a backslash; every other byte that a
// name may have stands for itself.
#ifndef NAMES_H
#define NAMES_H

#include <stdio.h>

#include "contents.h"
#include "text.h"

bool name_is_next(struct text *text);
void read_name(struct text *text, struct name *name);
void print_name(FILE *out, const struct name *name);

// The number of a name, or how many there are where the list has not got it.
unsigned find_name(const struct colours *colours, const struct name *name);

// Adds a name that the list has not got.
void add_name(struct text *text, struct colours *colours, const struct name *name);

#endif

// The list of a run's sheets, as docs/TEXTS.md has it: the name of a file on each line.
#ifndef RUN_LIST_H
#define RUN_LIST_H

#include <stdbool.h>

#include "contents.h"
#include "text.h"

// A sheet that the library refuses is a fault, unless any sheet is taken: a run may have such.
void read_run_list(struct text *text, struct run *run, size_t press, bool any);

// How many sheets a run has. One that the library refuses ends the program.
unsigned count_sheets(const char *path, const struct run *run, size_t press);

#endif

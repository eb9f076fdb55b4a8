// The commands of the program. Each gives what it exits with.
#ifndef COMMANDS_H
#define COMMANDS_H

#include <druvelstek.h>
#include <stddef.h>

// What the options are kept as, a bit each.
enum { WIDE = 1, ANY = 2, AS_BOOK = 4, AS_SHEET = 8 };

static inline size_t press_of(unsigned options)
{
    return options & WIDE ? DV_WIDE_PRESS : DV_PRESS;
}

// From the text of the first file to the second.
int make_book(unsigned options, char **path, int count);
int make_sheet(unsigned options, char **path, int count);
int make_run(unsigned options, char **path, int count);

// A book or a sheet; or a book and then sheets.
int show_file(unsigned options, char **path, int count);
int show_sheets(unsigned options, char **path, int count);

#endif

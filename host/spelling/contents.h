// What books and sheets hold, within the limits of docs/RULES.md, and room for their bytes.
#ifndef CONTENTS_H
#define CONTENTS_H

#include <druvelstek.h>
#include <stddef.h>
#include <stdint.h>

struct name {
    size_t length;
    uint8_t at[DV_LONGEST_NAME];
};

struct colours {
    unsigned count;
    struct name name[DV_MOST_COLOURS];
};

// A colour rule has its colour as first.
struct rule {
    unsigned head, kind, first, second;
};

struct book {
    struct colours colours;
    unsigned motifs, start, rules;
    struct rule rule[DV_MOST_RULES];
};

// Cells row by row.
struct sheet {
    struct colours colours;
    unsigned ticket, rows, columns;
    uint8_t cell[DV_WIDE_MOST_ROWS * DV_WIDE_MOST_COLUMNS];
};

// Room for a book or a sheet, none of which is longer than the longest book. One byte more is enough to have a longer
// file refused.
struct bytes {
    size_t length;
    uint8_t at[DV_LONGEST_BOOK + 1];
};

struct run {
    size_t length;
    uint8_t at[DV_LONGEST_RUN];
};

#endif

// The table of pieces in the independent engine. A piece goes by its height, width, top row and left column.
#ifndef INDEPENDENT_TABLE_H
#define INDEPENDENT_TABLE_H

#include <stdbool.h>

#include "joins.h"

// The rules of a book, split once for every sheet under it: the heads of each colour's rules, none for the number of a
// colour that the book lacks, and the joins.
struct rules {
    uint32_t heads[65];
    struct joins across, down;
};

struct table {
    unsigned rows, columns;
    // The slot of the first piece of each height and width.
    unsigned slot[WIDEST + 1][WIDEST + 1];
    const uint32_t *entry;
};

// The entries of a sheet's table.
size_t independent_entries(const struct sheet *sheet);

void independent_split(struct rules *rules, const struct book *book);

// Fills the work slice with the table of the sheet under the book with these rules. Gives how many trials it took, each
// one piece, one cut and one rule of that direction.
uint64_t independent_fill(struct table *table, const struct rules *rules, const struct order *order, uint32_t *work);

// Writes the entries of the pieces that have the cell, smaller pieces first, the cell's by a colour of the sheet and the
// others' from the entries of their parts.
void independent_refill(struct table *table, const struct rules *rules, const struct order *order, uint32_t *work,
                        unsigned row, unsigned column, unsigned colour);

static inline uint32_t entry(const struct table *table, unsigned height, unsigned width, unsigned top, unsigned left)
{
    return table->entry[table->slot[height][width] + top * (table->columns - width + 1) + left];
}

// Whether a motif derives a piece.
static inline bool has(const struct table *table, unsigned motif, unsigned height, unsigned width, unsigned top,
                       unsigned left)
{
    return entry(table, height, width, top, left) >> motif & 1;
}

#endif

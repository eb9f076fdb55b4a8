// Families and grids grown by chance, and grids grown from a family's own rules, so that many are derived.
#ifndef GROW_H
#define GROW_H

#include <stdbool.h>

#include "spell.h"

bool same_ink(const struct ink *one, const struct ink *other);

// A colour list of so many names, many of them alike but for a letter or a blank inside.
void grow_palette(struct palette *palette, unsigned count);

// A family within these numbers, no two of its rules equal; so it may have fewer rules.
void grow_family(struct family *family, unsigned colours, unsigned motifs, unsigned rules);

// One of its rules once more at the end, where there is room.
void repeat_rule(struct family *family);

// A family of a size that is most often small, now and then as large as a book can be.
void grow_some_family(struct family *family);

size_t some_press(void);

// Most often this side of a sheet, and one time in so many the longest of the press: on the wide press half as often,
// since its largest sheets take so much longer.
unsigned some_side(size_t press, unsigned side, unsigned times);

// The ticket of a job, often one where the spelling grows longer.
unsigned some_ticket(void);

// A grid within these numbers that the family derives, coloured by the family's own list, with some ticket. False where
// it has none; the grid is then coloured by chance.
bool grow_grid(const struct family *family, struct grid *grid, unsigned most_rows, unsigned most_columns);

// Lists the grid's colours in another order, leaves out some that it does not use, and adds some that the family lacks.
void relist(struct grid *grid);

// Gives one cell another colour of the grid's list.
void spoil_cell(struct grid *grid);

#endif

// A sheet in letters with lines between some of its cells.
#ifndef DRAWING_H
#define DRAWING_H

#include <stdbool.h>

#include "contents.h"

// Which cells have a line above them, and which to their left; one row and one column more for the edges.
struct drawing {
    const struct sheet *sheet;
    bool above[DV_WIDE_MOST_ROWS + 1][DV_WIDE_MOST_COLUMNS];
    bool left[DV_WIDE_MOST_ROWS][DV_WIDE_MOST_COLUMNS + 1];
};

// With a line round the whole sheet.
void begin_drawing(struct drawing *drawing, const struct sheet *sheet);

// A line above so many cells of a row, and one to the left of so many cells of a column.
void draw_level(struct drawing *drawing, size_t row, size_t column, size_t cells);
void draw_upright(struct drawing *drawing, size_t row, size_t column, size_t cells);

// A line round a piece.
void draw_round(struct drawing *drawing, size_t top, size_t left, size_t height, size_t width);

void print_drawing(const struct drawing *drawing);

#endif

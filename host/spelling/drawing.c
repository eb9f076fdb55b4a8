#include "drawing.h"

#include <stdio.h>
#include <string.h>

#include "show.h"

void begin_drawing(struct drawing *drawing, const struct sheet *sheet)
{
    memset(drawing, 0, sizeof *drawing);
    drawing->sheet = sheet;
    draw_round(drawing, 0, 0, sheet->rows, sheet->columns);
}

void draw_level(struct drawing *drawing, size_t row, size_t column, size_t cells)
{
    for (size_t i = 0; i < cells; i++)
        drawing->above[row][column + i] = true;
}

void draw_upright(struct drawing *drawing, size_t row, size_t column, size_t cells)
{
    for (size_t i = 0; i < cells; i++)
        drawing->left[row + i][column] = true;
}

void draw_round(struct drawing *drawing, size_t top, size_t left, size_t height, size_t width)
{
    draw_level(drawing, top, left, width);
    draw_level(drawing, top + height, left, width);
    draw_upright(drawing, top, left, height);
    draw_upright(drawing, top, left + width, height);
}

// The sign at the upper left corner of a cell, where as many as four lines meet.
static char corner(const struct drawing *drawing, size_t row, size_t column)
{
    bool upright = (row > 0 && drawing->left[row - 1][column]) ||
                   (row < drawing->sheet->rows && drawing->left[row][column]);
    bool level = (column > 0 && drawing->above[row][column - 1]) ||
                 (column < drawing->sheet->columns && drawing->above[row][column]);
    return upright && level ? '+' : upright ? '|' : level ? '-' : ' ';
}

// The line above a row of cells; none where no cell has one.
static void print_line(const struct drawing *drawing, size_t row)
{
    size_t columns = drawing->sheet->columns, column = 0;
    while (column < columns && !drawing->above[row][column])
        column++;
    if (column == columns)
        return;
    for (column = 0; column < columns; column++)
        printf("%c%c", corner(drawing, row, column), drawing->above[row][column] ? '-' : ' ');
    printf("%c\n", corner(drawing, row, columns));
}

void print_drawing(const struct drawing *drawing)
{
    const struct sheet *sheet = drawing->sheet;
    for (unsigned row = 0; row < sheet->rows; row++) {
        print_line(drawing, row);
        for (unsigned column = 0; column < sheet->columns; column++)
            printf("%c%c", drawing->left[row][column] ? '|' : ' ', letter_of(sheet, row, column));
        printf("|\n");
    }
    print_line(drawing, sheet->rows);
}

#include "small.h"

static unsigned cell(struct small sheet, unsigned row, unsigned column)
{
    return sheet.cells >> (row * sheet.columns + column) & 1;
}

// The piece of a sheet from a row and a column on.
static struct small piece(struct small sheet, unsigned rows, unsigned columns, unsigned top, unsigned left)
{
    struct small part = {rows, columns, 0};
    for (unsigned row = 0; row < rows; row++)
        for (unsigned column = 0; column < columns; column++)
            part.cells |= cell(sheet, top + row, left + column) << (row * columns + column);
    return part;
}

struct small first_part(struct small sheet, bool across, unsigned k)
{
    if (across)
        return piece(sheet, sheet.rows, k, 0, 0);
    return piece(sheet, k, sheet.columns, 0, 0);
}

struct small rest(struct small sheet, bool across, unsigned k)
{
    if (across)
        return piece(sheet, sheet.rows, sheet.columns - k, 0, k);
    return piece(sheet, sheet.rows - k, sheet.columns, k, 0);
}

struct small turned(struct small sheet, enum combination combination)
{
    bool transposed = combination == TRANSPOSED;
    struct small image = {transposed ? sheet.columns : sheet.rows, transposed ? sheet.rows : sheet.columns, 0};
    for (unsigned row = 0; row < sheet.rows; row++)
        for (unsigned column = 0; column < sheet.columns; column++) {
            unsigned to_row = transposed ? column : combination == FLIPPED ? sheet.rows - 1 - row : row;
            unsigned to_column = transposed ? row : combination == MIRRORED ? sheet.columns - 1 - column : column;
            image.cells |= cell(sheet, row, column) << (to_row * image.columns + to_column);
        }
    return image;
}

// The column palindromes of source document 001, example 1. Whether a sheet belongs is plain to see, so the answer is
// held to that as well.
#include "../shared/chance.h"
#include "../shared/grow.h"
#include "compare.h"

static bool columns_are_palindromes(const struct grid *grid)
{
    for (unsigned row = 0; row < grid->rows / 2; row++)
        for (unsigned column = 0; column < grid->columns; column++)
            if (grid->cell[row * grid->columns + column] != grid->cell[(grid->rows - 1 - row) * grid->columns + column])
                return false;
    return true;
}

static void palindrome_family(struct family *family)
{
    enum { S, V, A2, B2, A1, B1, MOTIFS };
    enum { A, B };
    *family = (struct family){.motifs = MOTIFS, .start = S};
    add_ink(&family->palette, "a");
    add_ink(&family->palette, "b");
    add_rule(family, S, DV_KIND_ACROSS, V, S);
    static const unsigned columns[] = {S, V};
    for (int i = 0; i < 2; i++) {
        add_rule(family, columns[i], DV_KIND_DOWN, A1, A2);
        add_rule(family, columns[i], DV_KIND_DOWN, B1, B2);
        add_rule(family, columns[i], DV_KIND_COLOUR, A, 0);
        add_rule(family, columns[i], DV_KIND_COLOUR, B, 0);
    }
    add_rule(family, A2, DV_KIND_DOWN, V, A1);
    add_rule(family, A2, DV_KIND_COLOUR, A, 0);
    add_rule(family, B2, DV_KIND_DOWN, V, B1);
    add_rule(family, B2, DV_KIND_COLOUR, B, 0);
    add_rule(family, A1, DV_KIND_COLOUR, A, 0);
    add_rule(family, B1, DV_KIND_COLOUR, B, 0);
}

static void compare_grid(size_t press, const struct bytes *book, const struct grid *grid)
{
    struct bytes sheet;
    spell_sheet(grid, &sheet);
    uint64_t answer = compare_derive(press, book, &sheet, dv_work_entries(grid->rows, grid->columns),
                                     dv_tree_entries(grid->rows, grid->columns));
    if (answer != (columns_are_palindromes(grid) ? DV_ACCEPTED : DV_NOT_DERIVED))
        wrong("the answer does not say whether each column is a palindrome");
}

static void compare_all(const struct bytes *book, struct grid *grid)
{
    for (grid->rows = 1; grid->rows <= 4; grid->rows++)
        for (grid->columns = 1; grid->columns <= 4; grid->columns++)
            for (unsigned cells = 0; cells < 1u << grid->rows * grid->columns; cells++) {
                for (unsigned i = 0; i < grid->rows * grid->columns; i++)
                    grid->cell[i] = cells >> i & 1;
                compare_grid(some_press(), book, grid);
            }
}

static void compare_large(const struct bytes *book, struct grid *grid)
{
    size_t press = some_press();
    grid->ticket = some_ticket();
    grid->rows = chance_from(1, some_side(press, DV_MOST_ROWS, 1));
    grid->columns = chance_from(1, some_side(press, DV_MOST_COLUMNS, 1));
    for (unsigned row = 0; row < grid->rows; row++)
        for (unsigned column = 0; column < grid->columns; column++) {
            unsigned twin = grid->rows - 1 - row;
            grid->cell[row * grid->columns + column] =
                twin < row ? grid->cell[twin * grid->columns + column] : chance_below(2);
        }
    compare_grid(press, book, grid);
    grid->cell[chance_below(grid->rows * grid->columns)] ^= 1;
    compare_grid(press, book, grid);
}

KIND(palindromes)
{
    struct family family;
    struct grid grid = {.palette = {.count = 0}};
    struct bytes book;
    palindrome_family(&family);
    spell_book(&family, &book);
    // The sheet lists its colours the other way round; a palindrome stays one.
    add_ink(&grid.palette, "b");
    add_ink(&grid.palette, "a");
    compare_all(&book, &grid);
    for (unsigned i = 0; i < 1500; i++)
        compare_large(&book, &grid);
}

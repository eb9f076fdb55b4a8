// The plain engine against the table: small books by chance, with sheets of up to 16 cells and of more, some of which
// only the wide press takes; and damaged.
#include "../shared/chance.h"
#include "../shared/damage.h"
#include "../shared/grow.h"
#include "../shared/soon.h"
#include "compare.h"

static size_t press;
static struct bytes book, sheet;

static const struct {
    unsigned rows, columns;
} sizes[] = {{4, 4}, {1, 12}, {12, 1},  {2, 8},  {8, 2},  {3, 5},  {5, 3}, {3, 6},
             {2, 9}, {9, 2},  {12, 12}, {1, 16}, {16, 1}, {1, 17}, {17, 1}};

static size_t cells(void)
{
    uint64_t size = dv_sheet_size(press, sheet.at, sheet.length);
    return dv_size_rows(size) * dv_size_columns(size);
}

// A sheet of too many cells is refused for them, and to any other pair both engines give the same answer.
static void compare_pair(void)
{
    if (!soon_searched(press, &book, &sheet))
        return;
    uint64_t derived = compare_derive(press, &book, &sheet, roomy_work(press), roomy_tree(press));
    bool many = cells() > DV_MOST_PLAIN_CELLS && (derived == DV_ACCEPTED || derived == DV_NOT_DERIVED);
    if (compare_plain(press, &book, &sheet) != (many ? DV_TOO_MANY_CELLS : derived))
        wrong("the plain engine has another answer than the table");
}

// A grid of the family, or one of just this size, coloured by chance.
static void grow_some_grid(const struct family *family, struct grid *grid, unsigned rows, unsigned columns)
{
    grow_grid(family, grid, rows, columns);
    if (one_in(3)) {
        grid->rows = rows;
        grid->columns = columns;
        for (unsigned i = 0; i < rows * columns; i++)
            grid->cell[i] = one_in(6) ? chance_below(grid->palette.count) : 0;
    }
    if (one_in(4))
        spoil_cell(grid);
    if (one_in(4))
        relist(grid);
}

static void compare_family(const struct family *family)
{
    struct grid grid;
    press = some_press();
    spell_book(family, &book);
    for (size_t i = 0; i < sizeof sizes / sizeof *sizes; i++) {
        grow_some_grid(family, &grid, sizes[i].rows, sizes[i].columns);
        spell_sheet(&grid, &sheet);
        compare_pair();
    }
    damage(one_in(2) ? &book : &sheet);
    compare_pair();
}

// One motif for every sheet of one colour: each way in which the sheet comes apart is a derivation.
static void compare_all_of_one_colour(void)
{
    struct family family = {.motifs = 1, .start = 0};
    add_ink(&family.palette, "Slate C");
    add_rule(&family, 0, DV_KIND_ACROSS, 0, 0);
    add_rule(&family, 0, DV_KIND_DOWN, 0, 0);
    add_rule(&family, 0, DV_KIND_COLOUR, 0, 0);
    spell_book(&family, &book);
    for (unsigned rows = 1; rows <= dv_most_rows(press); rows++)
        for (unsigned columns = 1; columns <= dv_most_columns(press); columns++) {
            struct grid grid = {.palette = family.palette, .rows = rows, .columns = columns};
            spell_sheet(&grid, &sheet);
            if (compare_plain(press, &book, &sheet) != (rows * columns > DV_MOST_PLAIN_CELLS ? DV_TOO_MANY_CELLS : 0))
                wrong("a sheet of one colour is not taken up to 16 cells and refused with more");
        }
}

KIND(plain)
{
    struct family family;
    for (press = DV_PRESS; press <= DV_WIDE_PRESS; press++)
        compare_all_of_one_colour();
    for (unsigned i = 0; i < 1500; i++) {
        grow_family(&family, chance_from(1, 3), chance_from(1, 4), chance_from(1, 9));
        compare_family(&family);
    }
}

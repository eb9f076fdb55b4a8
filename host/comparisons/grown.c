// Books by chance, with sheets grown from their rules, spoiled in one cell, or by chance too.
#include "../shared/chance.h"
#include "../shared/grow.h"
#include "compare.h"

static size_t some_room(size_t exact, size_t roomy)
{
    switch (chance_below(20)) {
    case 0:
        return exact - 1;
    case 1:
        return chance_below((unsigned)exact);
    case 2:
        return roomy;
    default:
        return exact + chance_below(2);
    }
}

static void compare_grid(size_t press, const struct bytes *book, const struct grid *grid, bool derived)
{
    struct bytes sheet;
    spell_sheet(grid, &sheet);
    if (compare_read_sheet(press, &sheet) != (uint64_t)grid->ticket << 32)
        wrong("a sheet that keeps the rules is refused, or read with another ticket");
    size_t work = some_room(dv_work_entries(grid->rows, grid->columns), roomy_work(press));
    size_t tree = some_room(dv_tree_entries(grid->rows, grid->columns), roomy_tree(press));
    if (compare_derive(press, book, &sheet, work, tree) == DV_NOT_DERIVED && derived)
        wrong("a sheet grown from the rules is not derived");
}

static void compare_family(const struct family *family)
{
    struct grid grid;
    struct bytes book;
    spell_book(family, &book);
    if (compare_read_book(&book) != 0)
        wrong("a book that keeps the rules is refused");
    size_t press = some_press();
    unsigned most = some_side(press, 6, 8);
    for (unsigned i = 0; i < 3; i++) {
        bool derived = grow_grid(family, &grid, chance_from(1, most), chance_from(1, most));
        compare_grid(press, &book, &grid, derived);
        relist(&grid);
        compare_grid(press, &book, &grid, derived);
        spoil_cell(&grid);
        compare_grid(press, &book, &grid, false);
    }
}

KIND(grown)
{
    struct family family;
    for (unsigned i = 0; i < 4000; i++) {
        grow_some_family(&family);
        compare_family(&family);
    }
    for (unsigned i = 0; i < 12; i++) {
        grow_family(&family, DV_MOST_COLOURS, DV_MOST_MOTIFS, DV_MOST_RULES);
        compare_family(&family);
    }
}

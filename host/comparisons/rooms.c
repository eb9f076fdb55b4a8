// Slices with exactly the room needed, one entry less, one more, and none.
#include "../shared/chance.h"
#include "../shared/grow.h"
#include "compare.h"

static void compare_rooms_of_sheet(size_t press, const struct bytes *book, const struct bytes *sheet, unsigned rows,
                                   unsigned columns)
{
    size_t work = dv_work_entries(rows, columns), tree = dv_tree_entries(rows, columns);
    for (size_t more_work = 0; more_work < 3; more_work++)
        for (size_t more_tree = 0; more_tree < 3; more_tree++)
            compare_derive(press, book, sheet, work - 1 + more_work, tree - 1 + more_tree);
    compare_derive(press, book, sheet, 0, 0);
    compare_derive(press, book, sheet, work, 0);
    compare_derive(press, book, sheet, roomy_work(press), roomy_tree(press));
}

void compare_rooms_of_combination(enum combination combination, const struct bytes *first, const struct bytes *second)
{
    uint64_t answer = compare_combination(combination, first, second, ROOMY_OUT, NULL);
    compare_combination(combination, first, second, 0, NULL);
    if (dv_number(answer) == DV_ACCEPTED)
        for (size_t more = 0; more < 3; more++)
            compare_combination(combination, first, second, dv_count(answer) - 1 + more, NULL);
}

KIND(rooms)
{
    struct family family;
    struct grid grid;
    struct bytes book, sheet;
    for (unsigned i = 0; i < 400; i++) {
        grow_some_family(&family);
        grow_grid(&family, &grid, chance_from(1, 7), chance_from(1, 7));
        if (one_in(3))
            spoil_cell(&grid);
        spell_book(&family, &book);
        spell_sheet(&grid, &sheet);
        compare_rooms_of_sheet(some_press(), &book, &sheet, grid.rows, grid.columns);
        for (int combination = 0; combination < COMBINATIONS; combination++)
            compare_rooms_of_combination((enum combination)combination, &book, &book);
    }
}

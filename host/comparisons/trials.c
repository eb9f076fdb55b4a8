// The trials that a derivation reports, held to what the header computes from the rules of the book and the size of the
// sheet, and 0 with every answer but 0 and 11.
#include "../shared/chance.h"
#include "../shared/damage.h"
#include "../shared/grow.h"
#include "compare.h"

static size_t press;
static struct bytes book, sheet;

static uint64_t derive(size_t work_len, size_t tree_len)
{
    static uint32_t work[DV_WIDE_MOST_WORK];
    static uint16_t tree[DV_WIDE_MOST_TREE];
    compare_derive(press, &book, &sheet, work_len, tree_len);
    return dv_derive(press, book.at, book.length, sheet.at, sheet.length, work, work_len, tree, tree_len);
}

// The rules of one kind, by asking for one after another.
static size_t rules_of(unsigned kind)
{
    size_t count = 0;
    for (size_t i = 0; dv_rule_found(dv_rule(book.at, book.length, i)); i++)
        count += dv_rule_kind(dv_rule(book.at, book.length, i)) == kind;
    return count;
}

// With room enough, and one entry short in each slice.
static void compare_size(size_t across, size_t down)
{
    uint64_t size = dv_sheet_size(press, sheet.at, sheet.length);
    size_t rows = dv_size_rows(size), columns = dv_size_columns(size);
    size_t work = dv_work_entries(rows, columns), tree = dv_tree_entries(rows, columns);
    uint64_t answer = derive(work, tree);
    if (dv_number(answer) != DV_ACCEPTED && dv_number(answer) != DV_NOT_DERIVED)
        wrong("a sheet with room enough is refused");
    if (dv_count(answer) != dv_trials(across, down, rows, columns))
        wrong("the trials are not what the header computes");
    if (derive(work - 1, tree) != DV_WORK_SHORT || derive(work, tree - 1) != DV_TREE_SHORT)
        wrong("a slice that is too short is not refused, or with trials");
}

static void compare_book(const struct family *family, unsigned sizes)
{
    struct grid grid;
    press = some_press();
    spell_book(family, &book);
    size_t across = rules_of(DV_KIND_ACROSS), down = rules_of(DV_KIND_DOWN);
    for (unsigned i = 0; i < sizes; i++) {
        unsigned most = some_side(press, DV_MOST_ROWS, 8);
        grow_grid(family, &grid, chance_from(1, most), chance_from(1, most));
        if (one_in(2))
            spoil_cell(&grid);
        spell_sheet(&grid, &sheet);
        compare_size(across, down);
    }
    damage(one_in(2) ? &book : &sheet);
    uint64_t answer = derive(dv_most_work(press), dv_most_tree(press));
    if (dv_number(answer) != DV_ACCEPTED && dv_number(answer) != DV_NOT_DERIVED && dv_count(answer) != 0)
        wrong("a refusal has trials");
}

// Every size of press 0, and the largest of the wide one, of a sheet of one colour.
static void compare_sizes(const struct family *family)
{
    struct grid grid = {.palette = family->palette};
    press = DV_PRESS;
    spell_book(family, &book);
    size_t across = rules_of(DV_KIND_ACROSS), down = rules_of(DV_KIND_DOWN);
    for (grid.rows = 1; grid.rows <= DV_MOST_ROWS; grid.rows++)
        for (grid.columns = 1; grid.columns <= DV_MOST_COLUMNS; grid.columns++) {
            spell_sheet(&grid, &sheet);
            compare_size(across, down);
        }
    press = DV_WIDE_PRESS;
    grid.rows = DV_WIDE_MOST_ROWS;
    grid.columns = DV_WIDE_MOST_COLUMNS;
    spell_sheet(&grid, &sheet);
    compare_size(across, down);
}

KIND(trials)
{
    struct family family;
    for (unsigned i = 0; i < 400; i++) {
        grow_some_family(&family);
        compare_book(&family, 3);
    }
    for (unsigned i = 0; i < 4; i++) {
        grow_some_family(&family);
        compare_sizes(&family);
    }
    grow_family(&family, DV_MOST_COLOURS, DV_MOST_MOTIFS, DV_MOST_RULES);
    compare_book(&family, 3);
}

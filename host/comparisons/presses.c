// What goes by the press: numbers that no press has, in every call that takes one, whatever else is lent; sheets with
// the most rows and columns of each press, in the family and not, with slices that are just long enough and one short;
// and the same sheet on both presses.
#include <string.h>

#include "../shared/chance.h"
#include "../shared/damage.h"
#include "../shared/grow.h"
#include "../shared/nodes.h"
#include "call.h"

static struct bytes book, sheet;
static struct run run;
static uint32_t work[ROOMY_WORK];

static void spell(const struct family *family, const struct grid *grid)
{
    spell_book(family, &book);
    spell_sheet(grid, &sheet);
    run.length = 0;
    add_sheet(&run, sheet.at, sheet.length);
    add_sheet(&run, sheet.at, sheet.length / 2);
}

// The answer is 21 alone, and the slices, of so many bytes, are as they were.
static void expect_refused(uint64_t answer, size_t bytes, size_t other_bytes)
{
    if (answer != DV_NO_SUCH_PRESS)
        wrong("a press that there is not is not refused");
    if (memcmp(held_after(0), held_before(), bytes) != 0 || memcmp(held_after(1), held_before(), other_bytes) != 0)
        wrong("something is written for a press that there is not");
}

// A length from none to more than any press asks for.
static size_t some_length(size_t most)
{
    return one_in(3) ? 0 : one_in(2) ? most : chance_below((unsigned)most);
}

// Recolouring and the report of a run see to their slices by themselves.
static void compare_no_such_press(size_t press)
{
    static const struct dv_node nodes[4] = {{0, 1}, {1, 1}, {2, 0}, {3, 0}};
    size_t entries = some_length(ROOMY_WORK), tree = some_length(roomy_tree(DV_WIDE_PRESS));
    size_t card = some_length(DV_WIDE_CARD_ENTRIES + 1), figures = some_length(DV_REPORT_ENTRIES + 1);
    expect_refused(compare_read_sheet(press, &sheet), 0, 0);
    if (compare_sheet_size(press, &sheet) != 0 || compare_cell(press, &sheet, 0, 0) != 0 ||
        compare_sheet_colour(press, &sheet, 0) != 0)
        wrong("something is shown for a press that there is not");
    expect_refused(compare_derive(press, &book, &sheet, entries, tree), entries * sizeof(uint32_t),
                   tree * sizeof(uint16_t));
    expect_refused(compare_check_tree(press, &book, &sheet, nodes, chance_below(5)), 0, 0);
    expect_refused(compare_plain(press, &book, &sheet), 0, 0);
    expect_refused(compare_size_card(press, &book, card, NULL), card * sizeof(uint32_t), 0);
    expect_refused(compare_why_not(press, &book, &sheet, entries), entries * sizeof(uint32_t), 0);
    if (compare_recolour(press, &book, &sheet, work, entries, chance_below(3), chance_below(3), 0) !=
            DV_NO_SUCH_PRESS ||
        compare_run_report(press, &book, &run, entries, figures, NULL) != DV_NO_SUCH_PRESS)
        wrong("a press that there is not is not refused");
}

// Among the numbers are some that are a press in their lowest byte, or their lowest four; and among the books, sheets
// and runs some that are refused on every press.
static void compare_no_such_presses(void)
{
    static const size_t press[] = {2, 3, 24, 255, 256, 257, (size_t)1 << 32, ((size_t)1 << 32) + 1, SIZE_MAX};
    struct family family;
    struct grid grid;
    for (unsigned i = 0; i < 20; i++)
        for (size_t j = 0; j < sizeof press / sizeof *press; j++) {
            grow_some_family(&family);
            grow_grid(&family, &grid, 4, 4);
            spell(&family, &grid);
            if (one_in(4))
                damage(&book);
            if (one_in(4))
                damage(&sheet);
            if (one_in(4))
                run.length = chance_below(3);
            compare_no_such_press(press[j]);
        }
}

// A family that has every sheet of its first two colours, and so one of every size, with other rules by chance.
static void grow_wide_family(struct family *family)
{
    bool large = one_in(6);
    grow_family(family, 3, large ? DV_MOST_MOTIFS : 4, large ? DV_MOST_RULES - 4 : chance_from(1, 12));
    family->start = 0;
    add_new_rule(family, 0, DV_KIND_COLOUR, 0, 0);
    add_new_rule(family, 0, DV_KIND_COLOUR, 1, 0);
    add_new_rule(family, 0, DV_KIND_ACROSS, 0, 0);
    add_new_rule(family, 0, DV_KIND_DOWN, 0, 0);
}

// The tree that was derived, of so many nodes, with the last left out, and with one more.
static void compare_tree(size_t press, const uint16_t *tree, size_t count)
{
    static struct dv_node nodes[DV_WIDE_MOST_NODES + 1];
    nodes_of(tree, count, nodes);
    nodes[count] = nodes[count - 1];
    if (compare_check_tree(press, &book, &sheet, nodes, count) != DV_ACCEPTED ||
        compare_check_tree(press, &book, &sheet, nodes, count - 1) != (DV_NOT_A_TREE | (uint64_t)(count - 1) << 12) ||
        compare_check_tree(press, &book, &sheet, nodes, count + 1) != (DV_NOT_A_TREE | (uint64_t)count << 12))
        wrong("a tree is refused, or one that is cut or lengthened is not");
}

// Slices that are just long enough, and one short, for the sheet, which is not refused.
static void compare_rooms(size_t press, const struct grid *grid, bool derived)
{
    size_t entries = dv_work_entries(grid->rows, grid->columns), tree = dv_tree_entries(grid->rows, grid->columns);
    size_t card = dv_card_entries(press), colour = grid->cell[0];
    uint64_t due = derived ? DV_ACCEPTED : DV_NOT_DERIVED;
    if (compare_derive(press, &book, &sheet, entries, tree) != due)
        wrong("a sheet is not derived, or a spoilt one is");
    memcpy(work, held_after(0), entries * sizeof *work);
    if (derived)
        compare_tree(press, held_after(1), tree / 2);
    if (compare_derive(press, &book, &sheet, entries - 1, tree) != DV_WORK_SHORT ||
        compare_derive(press, &book, &sheet, entries, tree - 1) != DV_TREE_SHORT ||
        compare_why_not(press, &book, &sheet, entries - 1) != DV_WORK_SHORT ||
        compare_recolour(press, &book, &sheet, work, entries - 1, 0, 0, colour) != DV_WORK_SHORT ||
        compare_size_card(press, &book, card - 1, NULL) != DV_OUT_SHORT)
        wrong("a slice that is one short is not refused");
    if (compare_recolour(press, &book, &sheet, work, entries, 0, 0, colour) != due)
        wrong("a cell that gets its own colour changes the answer");
    if ((compare_why_not(press, &book, &sheet, entries) == DV_IN_FAMILY) != derived)
        wrong("there is a reason for a sheet in the family, or none for another");
    if (dv_number(compare_size_card(press, &book, card, NULL)) != DV_ACCEPTED)
        wrong("a card slice that is long enough is refused");
    compare_recolour(press, &book, &sheet, work, entries, chance_below(grid->rows), grid->columns - 1, colour);
}

// What is cleared is seen to with every report.
static void compare_reports(size_t press)
{
    size_t needed = dv_most_work(press);
    if (compare_run_report(press, &book, &run, needed, DV_REPORT_ENTRIES, NULL) != DV_ACCEPTED ||
        compare_run_report(press, &book, &run, needed + 1, DV_REPORT_ENTRIES, NULL) != DV_ACCEPTED ||
        compare_run_report(press, &book, &run, needed - 1, DV_REPORT_ENTRIES, NULL) != DV_WORK_SHORT ||
        compare_run_report(press, &book, &run, needed, DV_REPORT_ENTRIES - 1, NULL) != DV_OUT_SHORT)
        wrong("a report asks for another room than the press needs");
}

// A sheet of the family with so many rows and columns, and the same with a cell of a colour that the book lacks.
static void compare_size(size_t press, const struct family *family, unsigned rows, unsigned columns)
{
    struct grid grid = {.palette = family->palette, .rows = rows, .columns = columns};
    for (unsigned i = 0; i < rows * columns; i++)
        grid.cell[i] = chance_below(2);
    spell(family, &grid);
    compare_rooms(press, &grid, true);
    compare_reports(press);
    add_ink(&grid.palette, "no colour of the book");
    grid.cell[chance_below(rows * columns)] = grid.palette.count - 1;
    spell(family, &grid);
    compare_rooms(press, &grid, false);
    compare_reports(press);
}

// The largest sheet, the longest row and the longest column.
static void compare_largest(size_t press)
{
    unsigned rows = dv_most_rows(press), columns = dv_most_columns(press);
    struct family family;
    grow_wide_family(&family);
    compare_size(press, &family, rows, columns);
    compare_size(press, &family, rows, 1);
    compare_size(press, &family, 1, columns);
    compare_size(press, &family, rows, chance_from(1, columns));
    compare_size(press, &family, chance_from(1, rows), columns);
}

// On both presses a sheet that neither refuses has the same answer and the same table, and one that is too large for
// the present press is refused there alone.
static void compare_both(void)
{
    static uint32_t table[ROOMY_WORK];
    struct family family;
    struct grid grid;
    unsigned most = one_in(20) ? DV_WIDE_MOST_ROWS : 14;
    grow_some_family(&family);
    grow_grid(&family, &grid, chance_from(1, most), chance_from(1, most));
    if (one_in(3))
        spoil_cell(&grid);
    spell(&family, &grid);
    size_t entries = dv_work_entries(grid.rows, grid.columns), tree = dv_tree_entries(grid.rows, grid.columns);
    uint64_t wide = compare_derive(DV_WIDE_PRESS, &book, &sheet, entries, tree);
    memcpy(table, held_after(0), entries * sizeof *table);
    uint64_t answer = compare_derive(DV_PRESS, &book, &sheet, entries, tree);
    bool fits = grid.rows <= DV_MOST_ROWS && grid.columns <= DV_MOST_COLUMNS;
    if (dv_number(wide) != DV_ACCEPTED && dv_number(wide) != DV_NOT_DERIVED)
        wrong("the wide press refuses a sheet");
    if (fits ? answer != wide || memcmp(table, held_after(0), entries * sizeof *table) != 0
             : dv_number(answer) != DV_OUT_OF_RANGE || dv_blamed(answer) != 2)
        wrong("the presses differ in more than the sheets that they take");
}

KIND(presses)
{
    compare_no_such_presses();
    for (unsigned i = 0; i < 16; i++) {
        compare_largest(DV_PRESS);
        compare_largest(DV_WIDE_PRESS);
    }
    for (unsigned i = 0; i < 1500; i++)
        compare_both();
}

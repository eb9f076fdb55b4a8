// What a host looks up, on books, sheets and runs by chance, and held to the contents that were spelt: counts, every
// colour, rule, cell and sheet by its number, numbers at and past the count, and sizes; and nothing where the input
// ends early.
#include <string.h>

#include "../shared/chance.h"
#include "../shared/grow.h"
#include "compare.h"

static struct family family;
static struct grid grid;
static struct bytes book, sheet;
static struct run run;
static size_t press;

static uint64_t book_colour(size_t number) { return compare_colour(&book, number); }
static uint64_t book_rule(size_t number) { return compare_rule(&book, number); }
static uint64_t sheet_colour(size_t number) { return compare_sheet_colour(press, &sheet, number); }
static uint64_t cell_of_row(size_t row) { return compare_cell(press, &sheet, row, chance_below(grid.columns)); }
static uint64_t cell_of_column(size_t column) { return compare_cell(press, &sheet, chance_below(grid.rows), column); }
static uint64_t run_sheet(size_t number) { return compare_run_sheet(&run, number); }

// Numbers from a count on, which is not 0. Some are below it in their lowest byte, two or four.
static void compare_past(uint64_t (*compare_it)(size_t number), unsigned count)
{
    const size_t past[] = {count,
                           count + 1,
                           count + chance_below(300),
                           (count + 255) / 256 * 256 + chance_below(count),
                           ((size_t)1 << 16) + chance_below(count),
                           ((size_t)1 << 32) + chance_below(count),
                           (size_t)chance_bits() | (size_t)1 << 40,
                           SIZE_MAX};
    for (size_t i = 0; i < sizeof past / sizeof *past; i++)
        if (compare_it(past[i]) != 0)
            wrong("something is shown for a number that is not below the count");
}

static void compare_all_counts(void)
{
    uint64_t counts = compare_counts(&book);
    if (!dv_counts_found(counts) || dv_counts_colours(counts) != family.palette.count ||
        dv_counts_motifs(counts) != family.motifs || dv_counts_start(counts) != family.start ||
        dv_counts_rules(counts) != family.rules)
        wrong("the counts shown are not the book's");
}

// The names of a colour list, of the book or of the sheet.
static void compare_names(uint64_t (*compare_it)(size_t number), const struct bytes *bytes,
                          const struct palette *palette)
{
    for (unsigned i = 0; i < palette->count; i++) {
        const struct ink *ink = &palette->ink[i];
        uint64_t shown = compare_it(i);
        if (dv_shown_length(shown) != ink->length ||
            memcmp(bytes->at + dv_shown_place(shown), ink->name, ink->length) != 0)
            wrong("the name shown is not the colour's");
    }
    compare_past(compare_it, palette->count);
}

static void compare_rules(void)
{
    for (unsigned i = 0; i < family.rules; i++) {
        struct rule rule = family.rule[i];
        uint64_t shown = compare_rule(&book, i);
        if (!dv_rule_found(shown) || dv_rule_head(shown) != rule.head || dv_rule_kind(shown) != rule.kind ||
            dv_rule_first(shown) != rule.first ||
            dv_rule_second(shown) != (rule.kind == DV_KIND_COLOUR ? 0 : rule.second))
            wrong("the rule shown is not the one with that number");
    }
    compare_past(book_rule, family.rules);
}

static void compare_size(void)
{
    uint64_t size = compare_sheet_size(press, &sheet);
    if (dv_size_rows(size) != grid.rows || dv_size_columns(size) != grid.columns)
        wrong("the size shown is not the sheet's");
}

static void compare_cells(void)
{
    for (unsigned i = 0; i < grid.rows * grid.columns; i++) {
        uint64_t cell = compare_cell(press, &sheet, i / grid.columns, i % grid.columns);
        if (!dv_cell_found(cell) || dv_cell_colour(cell) != grid.cell[i])
            wrong("the colour shown is not the cell's");
    }
    compare_past(cell_of_row, grid.rows);
    compare_past(cell_of_column, grid.columns);
    // On the other press too, which may not take the sheet.
    compare_cell(DV_WIDE_PRESS - press, &sheet, grid.rows - 1, grid.columns - 1);
    compare_sheet_colour(DV_WIDE_PRESS - press, &sheet, grid.palette.count - 1);
}

// A run of the sheet whole, cut anywhere and longer than it is, so that some lengths take more than one byte; sheets
// are shown whatever they hold.
static void compare_run_sheets(void)
{
    enum { SHEETS = 12 };
    size_t place[SHEETS], length[SHEETS];
    unsigned sheets = chance_from(1, SHEETS);
    run.length = 0;
    for (unsigned i = 0; i < sheets; i++) {
        length[i] = one_in(3) ? 0 : one_in(2) ? sheet.length : chance_below(sizeof sheet.at);
        add_sheet(&run, sheet.at, length[i]);
        place[i] = run.length - length[i];
    }
    for (unsigned i = 0; i < sheets; i++) {
        uint64_t shown = compare_run_sheet(&run, i);
        if (!dv_shown_found(shown) || dv_shown_place(shown) != place[i] || dv_shown_length(shown) != length[i])
            wrong("the part shown is not the sheet of that number");
    }
    compare_past(run_sheet, sheets);
    // Cut inside the last sheet or its length, a run is refused.
    run.length -= length[sheets - 1] > 0 ? 1 + chance_below((unsigned)length[sheets - 1]) : 1;
    if (length[sheets - 1] > 0 && compare_run_sheet(&run, 0) != 0)
        wrong("something is shown of a run that ends early");
    compare_run_sheet(&run, chance_below(sheets));
    run.length = 0;
    if (compare_run_sheet(&run, 0) != 0 || compare_run_sheet(&run, chance_bits()) != 0)
        wrong("something is shown of an empty run");
}

// Every beginning is refused, so that nothing is shown of it.
static void compare_cut(void)
{
    while (book.length > 0) {
        book.length--;
        if (compare_counts(&book) != 0 || compare_colour(&book, 0) != 0 || compare_rule(&book, 0) != 0)
            wrong("something is shown of a book that ends early");
    }
    while (sheet.length > 0) {
        sheet.length--;
        if (compare_sheet_size(press, &sheet) != 0 || compare_cell(press, &sheet, 0, 0) != 0 ||
            compare_sheet_colour(press, &sheet, 0) != 0)
            wrong("something is shown of a sheet that ends early");
    }
}

KIND(lookups)
{
    for (unsigned i = 0; i < 1500; i++) {
        grow_some_family(&family);
        press = some_press();
        grow_grid(&family, &grid, dv_most_rows(press), dv_most_columns(press));
        relist(&grid);
        spell_book(&family, &book);
        spell_sheet(&grid, &sheet);
        compare_all_counts();
        compare_names(book_colour, &book, &family.palette);
        compare_rules();
        compare_size();
        compare_names(sheet_colour, &sheet, &grid.palette);
        compare_cells();
        compare_run_sheets();
        if (one_in(40))
            compare_cut();
    }
}

// Chains of cells recoloured by chance, each against the sheet derived anew; over slices that held the table of the
// sheet and over noise; with rooms exact, one short and one over; cells and colours that the sheet has not got; and
// damaged.
#include <string.h>

#include "../shared/chance.h"
#include "../shared/damage.h"
#include "../shared/grow.h"
#include "call.h"

static size_t press;
static uint32_t work[ROOMY_WORK];

// The table of the sheet, derived anew, and what is answered with it.
static uint64_t derive_anew(const struct bytes *book, const struct bytes *sheet, const uint32_t **table)
{
    uint64_t answer = compare_derive(press, book, sheet, roomy_work(press), roomy_tree(press));
    *table = held_after(0);
    return answer;
}

// What the sheet has not got, and rooms: nothing is written.
static void compare_refusals(const struct bytes *book, struct bytes *sheet, const struct grid *grid, size_t entries)
{
    const size_t far[] = {dv_most_rows(press), 255, 256, (size_t)1 << 32, SIZE_MAX};
    size_t past = far[chance_below(sizeof far / sizeof *far)];
    size_t row = chance_below(grid->rows), column = chance_below(grid->columns);
    size_t colour = chance_below(grid->palette.count);
    for (int which = 0; which < 6; which++) {
        bool next = which % 2 == 0;
        size_t r = which / 2 == 0 ? (next ? grid->rows : past) : row;
        size_t c = which / 2 == 1 ? (next ? grid->columns : past) : column;
        size_t v = which / 2 == 2 ? (next ? grid->palette.count : past < DV_MOST_COLOURS ? SIZE_MAX : past) : colour;
        if (compare_recolour(press, book, sheet, work, one_in(2) ? 0 : entries, r, c, v) != DV_NO_SUCH_CELL)
            wrong("a cell or colour that the sheet has not got is not refused");
    }
    if (compare_recolour(press, book, sheet, work, entries - 1, row, column, colour) != DV_WORK_SHORT ||
        compare_recolour(press, book, sheet, work, 0, row, column, colour) != DV_WORK_SHORT)
        wrong("a work slice that is too short is not refused");
}

// A chain over a slice that holds the table, with one entry more in every other link.
static void compare_chain(const struct bytes *book, struct bytes *sheet, const struct grid *grid, unsigned links)
{
    size_t entries = dv_work_entries(grid->rows, grid->columns);
    const uint32_t *table;
    derive_anew(book, sheet, &table);
    memcpy(work, table, roomy_work(press) * sizeof *work);
    for (unsigned i = 0; i < links; i++) {
        uint32_t beyond = work[entries];
        uint64_t answer = compare_recolour(press, book, sheet, work, entries + i % 2, chance_below(grid->rows),
                                           chance_below(grid->columns), chance_below(grid->palette.count));
        if (answer != derive_anew(book, sheet, &table) || memcmp(work, table, entries * sizeof *work) != 0)
            wrong("a sheet recoloured is not as derived anew");
        if (work[entries] != beyond)
            wrong("something beyond the table is written");
    }
}

// Over noise the same entries are made anew whatever colour the cell had: once more with the same colour changes
// nothing.
static void compare_noise(const struct bytes *book, struct bytes *sheet, const struct grid *grid)
{
    static uint32_t once[ROOMY_WORK];
    size_t entries = dv_work_entries(grid->rows, grid->columns);
    size_t row = chance_below(grid->rows), column = chance_below(grid->columns);
    size_t colour = chance_below(grid->palette.count);
    for (size_t i = 0; i < roomy_work(press); i++)
        work[i] = (uint32_t)chance_bits();
    uint64_t answer = compare_recolour(press, book, sheet, work, entries + chance_below(2), row, column, colour);
    memcpy(once, work, roomy_work(press) * sizeof *work);
    if (compare_recolour(press, book, sheet, work, entries, row, column, colour) != answer ||
        memcmp(once, work, roomy_work(press) * sizeof *work) != 0)
        wrong("a cell recoloured twice is not as recoloured once");
}

static void compare_order(size_t on, unsigned rows, unsigned columns, unsigned links)
{
    struct family family;
    struct grid grid;
    struct bytes book, sheet, spoilt;
    press = on;
    grow_some_family(&family);
    grow_grid(&family, &grid, rows, columns);
    if (one_in(3))
        spoil_cell(&grid);
    spell_book(&family, &book);
    spell_sheet(&grid, &sheet);
    compare_chain(&book, &sheet, &grid, links);
    compare_refusals(&book, &sheet, &grid, dv_work_entries(grid.rows, grid.columns));
    compare_noise(&book, &sheet, &grid);
    spoilt = sheet;
    damage(&spoilt);
    compare_recolour(press, &book, &spoilt, work, roomy_work(press), chance_below(rows), chance_below(columns),
                     chance_below(4));
    damage(&book);
    compare_recolour(press, &book, &sheet, work, roomy_work(press), chance_below(rows), chance_below(columns),
                     chance_below(4));
}

KIND(recolour)
{
    for (unsigned i = 0; i < 1500; i++)
        compare_order(some_press(), chance_from(1, 6), chance_from(1, 6), chance_from(1, 6));
    for (unsigned i = 0; i < 30; i++)
        compare_order(some_press(), DV_MOST_ROWS, DV_MOST_COLUMNS, 4);
    for (unsigned i = 0; i < 6; i++)
        compare_order(DV_WIDE_PRESS, DV_WIDE_MOST_ROWS, DV_WIDE_MOST_COLUMNS, 4);
}

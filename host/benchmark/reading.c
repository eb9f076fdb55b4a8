// Reading and looking up, and what follows from long lists of names that are much alike.
#include <stdio.h>

#include "measure.h"

static void read_book(const struct engine *timed, const struct task *task)
{
    timed->read_book(task->first.at, task->first.length);
}

static void read_sheet(const struct engine *timed, const struct task *task)
{
    timed->read_sheet(task->press, task->second.at, task->second.length);
}

// The last rule: a look-up reads the book whole whichever it is.
static void look_up(const struct engine *timed, const struct task *task)
{
    timed->rule(task->first.at, task->first.length, DV_MOST_RULES - 1);
}

// The last cell: the sheet is read whole whichever it is.
static void look_at_cell(const struct engine *timed, const struct task *task)
{
    timed->cell(task->press, task->second.at, task->second.length, DV_MOST_ROWS - 1, DV_MOST_COLUMNS - 1);
}

static void measure_longest_book(void)
{
    struct task task = {.call = read_book, .unit = "a call", .units = 1};
    heavy_book(&task.first, false, DV_MOST_RULES);
    measure_line("reading the longest book", &task);
    task.call = look_up;
    measure_line("looking up a rule of it", &task);
}

// Names of 40 bytes with the first 38 in common: ink makers number their shades.
static void stem_palette(struct palette *palette)
{
    char name[DV_LONGEST_NAME + 1];
    palette->count = 0;
    for (int i = 0; i < DV_MOST_COLOURS; i++) {
        snprintf(name, sizeof name, "Pressroom Standard Spot Ink Shade No. %02d", i);
        add_ink(palette, name);
    }
}

// A work slice one short, so that a derivation ends when it has read both and found the sheet's colours in the book.
static void measure_stems(void)
{
    struct family family = {.motifs = 1, .start = 0};
    struct grid grid = {.rows = DV_MOST_ROWS, .columns = DV_MOST_COLUMNS};
    struct task task = {.unit = "a call", .units = 1, .work = DV_MOST_WORK - 1};
    stem_palette(&family.palette);
    stem_palette(&grid.palette);
    add_rule(&family, 0, DV_KIND_COLOUR, 0, 0);
    for (unsigned i = 0; i < grid.rows * grid.columns; i++)
        grid.cell[i] = i * 37 % DV_MOST_COLOURS;
    spell_book(&family, &task.first);
    spell_sheet(&grid, &task.second);
    task.call = read_book;
    measure_line("reading a book, 64 names with a stem of 38", &task);
    task.call = read_sheet;
    measure_line("reading a sheet, 144 cells in 64 such colours", &task);
    task.call = look_at_cell;
    measure_line("looking up a cell of it", &task);
    task.call = derive;
    measure_line("reading both and numbering the cells by the book", &task);
    task.call = make;
    task.combination = BESIDE;
    task.second = task.first;
    measure_line("dv_beside of two such books", &task);
}

LINES(reading)
{
    measure_longest_book();
    measure_stems();
}

// One cell recoloured, over the table of the sheet: each call gives the cell the other of two colours. Under it stands
// what part that is of a derivation, which fills the whole table.
#include <stdio.h>

#include "measure.h"

static struct bytes sheet;
static uint32_t work[DV_MOST_WORK];
static size_t place, colour;

static void recolour(const struct engine *timed, const struct task *task)
{
    colour = 1 - colour;
    timed->recolour(task->press, task->first.at, task->first.length, sheet.at, sheet.length, work, DV_MOST_WORK, place,
                    place, colour);
}

// A cell as many rows down as columns to the right.
static void measure_cell(const char *name, const struct task *derivation, size_t at)
{
    struct task task = *derivation;
    struct figures whole = measure(derivation), figures;
    task.call = recolour;
    sheet = task.second;
    place = at;
    colour = 0;
    figures = measure(&task);
    print_figures(name, &task, figures);
    printf("%-58s %12.3f %12.3f\n", "  of a derivation", figures.of[0] / whole.of[0], figures.of[1] / whole.of[1]);
}

LINES(recolour)
{
    struct family family;
    struct grid grid;
    struct task task = {.call = derive, .unit = "a call", .units = 1, .work = DV_MOST_WORK};
    press_family(&family, DV_MOST_RULES);
    press_grid(&grid, DV_PRESS, &family);
    spell_book(&family, &task.first);
    spell_sheet(&grid, &task.second);
    measure_cell("recoloured, a corner, 12 by 12, 200 rules", &task, 0);
    measure_cell("recoloured, the middle, 12 by 12, 200 rules", &task, DV_MOST_ROWS / 2);
    press_family(&family, 4);
    grid.palette = family.palette;
    grid.rows = 2;
    grid.columns = 3;
    spell_book(&family, &task.first);
    spell_sheet(&grid, &task.second);
    measure_cell("recoloured, a corner, 2 by 3, 4 rules", &task, 0);
}

// A sheet under a book: the derivation, and why there is none.
#include <stdio.h>

#include "../shared/chance.h"
#include "measure.h"

void derive(const struct engine *timed, const struct task *task)
{
    static uint32_t work[DV_WIDE_MOST_WORK];
    static uint16_t tree[DV_WIDE_MOST_TREE];
    timed->derive(task->press, task->first.at, task->first.length, task->second.at, task->second.length, work,
                  task->work, tree, DV_WIDE_MOST_TREE);
}

static void why_not(const struct engine *timed, const struct task *task)
{
    static uint32_t work[DV_MOST_WORK];
    timed->why_not(task->press, task->first.at, task->first.length, task->second.at, task->second.length, work,
                   DV_MOST_WORK);
}

// One piece, one cut and one rule of that direction.
static double trials(const struct family *family, const struct grid *grid)
{
    size_t across = 0, down = 0;
    for (unsigned i = 0; i < family->rules; i++) {
        across += family->rule[i].kind == DV_KIND_ACROSS;
        down += family->rule[i].kind == DV_KIND_DOWN;
    }
    return (double)dv_trials(across, down, grid->rows, grid->columns);
}

static void measure_derivation(const char *name, size_t press, const struct family *family, const struct grid *grid,
                               double units)
{
    const char *unit = units == 1 ? "a call" : "a trial";
    struct task task = {.call = derive, .unit = unit, .units = units, .press = press, .work = dv_most_work(press)};
    measure_pair(name, &task, family, grid);
}

static void measure_reason(const char *name, const struct family *family, const struct grid *grid)
{
    struct task task = {.call = why_not, .unit = "a call", .units = 1};
    measure_pair(name, &task, family, grid);
}

static void measure_house(void)
{
    struct family family;
    struct grid grid;
    house_family(&family, &grid);
    measure_derivation("derivation, 2 by 3, house book", DV_PRESS, &family, &grid, 1);
    grid.cell[4] = 0;
    measure_reason("why not, 2 by 3, house book", &family, &grid);
}

static void measure_press(size_t press, unsigned rules)
{
    struct family family;
    struct grid grid;
    char name[60];
    press_family(&family, rules);
    press_grid(&grid, press, &family);
    snprintf(name, sizeof name, "derivation, %u by %u, %u rules", grid.rows, grid.columns, rules);
    measure_derivation(name, press, &family, &grid, trials(&family, &grid));
}

// The start has the sheets of one colour, and the sheet has a cell of another, so that every reason is looked for. The
// other rules are joins by chance with other heads.
static void measure_large_reason(void)
{
    struct family family = {.motifs = MOTIFS, .start = 0};
    struct grid grid = {.rows = DV_MOST_ROWS, .columns = DV_MOST_COLUMNS};
    add_ink(&family.palette, "Slate C");
    add_ink(&family.palette, "Slate U");
    grid.palette = family.palette;
    add_rule(&family, 0, DV_KIND_COLOUR, 0, 0);
    add_rule(&family, 1, DV_KIND_COLOUR, 1, 0);
    add_rule(&family, 0, DV_KIND_ACROSS, 0, 0);
    add_rule(&family, 0, DV_KIND_DOWN, 0, 0);
    while (family.rules < DV_MOST_RULES)
        add_new_rule(&family, chance_from(1, MOTIFS - 1), family.rules % 2 == 0 ? DV_KIND_ACROSS : DV_KIND_DOWN,
                     chance_below(MOTIFS), chance_below(MOTIFS));
    grid.cell[DV_MOST_ROWS / 2 * DV_MOST_COLUMNS + DV_MOST_COLUMNS / 2] = 1;
    measure_reason("why not, 12 by 12, 200 rules", &family, &grid);
}

LINES(derivations)
{
    measure_house();
    measure_press(DV_PRESS, 4);
    measure_press(DV_PRESS, 40);
    measure_press(DV_PRESS, 200);
    measure_large_reason();
    measure_press(DV_WIDE_PRESS, 4);
    measure_press(DV_WIDE_PRESS, 40);
    measure_press(DV_WIDE_PRESS, 200);
}

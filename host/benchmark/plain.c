// A small sheet by the plain engine: one that is in the family, and rows in which every way of coming apart is tried, a
// cell longer each.
#include "measure.h"

static void plain(const struct engine *timed, const struct task *task)
{
    timed->plain(task->press, task->first.at, task->first.length, task->second.at, task->second.length);
}

static void measure_plain(const char *name, const struct family *family, const struct grid *grid)
{
    struct task task = {.call = plain, .unit = "a call", .units = 1};
    measure_pair(name, &task, family, grid);
}

static void measure_house(void)
{
    struct family family;
    struct grid grid;
    house_family(&family, &grid);
    measure_plain("plain, 2 by 3, house book", &family, &grid);
}

// Motif 0 has every row of the colour, and motif 1 none, though its first part is always found. Both ask for both, so
// that each row takes more than three times as long as the one that is a cell shorter.
static void measure_row(const char *name, unsigned columns)
{
    struct family family = {.motifs = 2, .start = 1};
    struct grid grid = {.rows = 1, .columns = columns};
    add_ink(&family.palette, "Slate C");
    grid.palette = family.palette;
    add_rule(&family, 0, DV_KIND_ACROSS, 0, 1);
    add_rule(&family, 0, DV_KIND_ACROSS, 0, 0);
    add_rule(&family, 0, DV_KIND_COLOUR, 0, 0);
    add_rule(&family, 1, DV_KIND_ACROSS, 0, 1);
    measure_plain(name, &family, &grid);
}

LINES(plain)
{
    measure_house();
    measure_row("plain, 1 by 6, every way tried", 6);
    measure_row("plain, 1 by 7, every way tried", 7);
    measure_row("plain, 1 by 8, every way tried", 8);
}

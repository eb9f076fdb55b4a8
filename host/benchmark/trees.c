// A tree that others chose: that of the derivation, which is judged to its end.
#include "../shared/nodes.h"
#include "measure.h"

static struct dv_node nodes[DV_MOST_NODES];
static size_t count;

static void check_tree(const struct engine *timed, const struct task *task)
{
    timed->check_tree(task->press, task->first.at, task->first.length, task->second.at, task->second.length, nodes,
                      count);
}

static void measure_tree(const char *name, const struct family *family, const struct grid *grid)
{
    static uint32_t work[DV_MOST_WORK];
    static uint16_t tree[DV_MOST_TREE];
    struct task task = {.call = check_tree, .unit = "a call", .units = 1};
    spell_book(family, &task.first);
    spell_sheet(grid, &task.second);
    dv_derive(DV_PRESS, task.first.at, task.first.length, task.second.at, task.second.length, work, DV_MOST_WORK, tree,
              DV_MOST_TREE);
    count = dv_tree_nodes(grid->rows, grid->columns);
    nodes_of(tree, count, nodes);
    measure_line(name, &task);
}

static void measure_house(void)
{
    struct family family;
    struct grid grid;
    house_family(&family, &grid);
    measure_tree("tree checked, 2 by 3, house book", &family, &grid);
}

static void measure_press(const char *name, unsigned rules)
{
    struct family family;
    struct grid grid;
    press_family(&family, rules);
    press_grid(&grid, DV_PRESS, &family);
    measure_tree(name, &family, &grid);
}

LINES(trees)
{
    measure_house();
    measure_press("tree checked, 12 by 12, 4 rules", 4);
    measure_press("tree checked, 12 by 12, 200 rules", DV_MOST_RULES);
}

// Trees that others chose: those of derivations and others, with rules and cuts by chance; each spoilt in one node at
// every place, cut at every place, and lengthened; and nodes by chance.
#include <string.h>

#include "../shared/chance.h"
#include "../shared/damage.h"
#include "../shared/grow.h"
#include "../shared/nodes.h"
#include "compare.h"

// Nodes that are lent beyond a tree.
enum { MORE = 20, ROOMY_NODES = DV_WIDE_MOST_NODES + MORE };

static size_t press;
static struct bytes book, sheet;

static uint64_t not_a_tree(size_t place)
{
    return DV_NOT_A_TREE | (uint64_t)place << 12;
}

static struct dv_node some_node(const struct family *family)
{
    uint16_t rule = (uint16_t)(one_in(20) ? chance_bits() : chance_below(family->rules + 1));
    return (struct dv_node){rule, (uint16_t)(one_in(20) ? chance_bits() : chance_below(5))};
}

// One number of a node changed, by one or by chance.
static void spoil(const struct family *family, struct dv_node *node)
{
    struct dv_node other = some_node(family);
    switch (chance_below(4)) {
    case 0:
        node->rule = other.rule;
        break;
    case 1:
        node->cut = other.cut;
        break;
    case 2:
        node->cut = (uint16_t)(node->cut + (one_in(2) ? 1 : -1));
        break;
    default:
        node->rule = (uint16_t)(node->rule + (one_in(2) ? 1 : -1));
    }
}

// The nodes before the one that is spoilt are right, so that none of them fails.
static void compare_spoilt(const struct family *family, const struct dv_node *tree, size_t count)
{
    struct dv_node nodes[ROOMY_NODES];
    for (size_t at = 0; at < count; at++) {
        memcpy(nodes, tree, count * sizeof *tree);
        spoil(family, &nodes[at]);
        uint64_t answer = compare_check_tree(press, &book, &sheet, nodes, count);
        if (answer != DV_ACCEPTED && (answer != not_a_tree(dv_place(answer)) || dv_place(answer) < at))
            wrong("a node before the one that is spoilt fails");
    }
}

static void compare_cut(const struct dv_node *tree, size_t count)
{
    for (size_t left = 0; left < count; left++)
        if (compare_check_tree(press, &book, &sheet, tree, left) != not_a_tree(left))
            wrong("a tree that is cut is not refused at the node that is missing");
}

static void compare_lengthened(const struct family *family, const struct dv_node *tree, size_t count)
{
    struct dv_node nodes[ROOMY_NODES];
    memcpy(nodes, tree, count * sizeof *tree);
    for (size_t i = 0; i < MORE; i++)
        nodes[count + i] = some_node(family);
    for (size_t more = 1; more <= MORE; more += 1 + more)
        if (compare_check_tree(press, &book, &sheet, nodes, count + more) != not_a_tree(count))
            wrong("a tree that is lengthened is not refused at the number of its nodes");
}

static void compare_tree(const struct family *family, const struct dv_node *tree, size_t count)
{
    if (compare_check_tree(press, &book, &sheet, tree, count) != DV_ACCEPTED)
        wrong("a tree of the sheet is refused");
    compare_spoilt(family, tree, count);
    compare_cut(tree, count);
    compare_lengthened(family, tree, count);
}

static uint64_t derive(uint32_t *work, uint16_t *numbers)
{
    return dv_derive(press, book.at, book.length, sheet.at, sheet.length, work, DV_WIDE_MOST_WORK, numbers,
                     DV_WIDE_MOST_TREE);
}

// The tree of the derivation, and trees by chance.
static void compare_trees(const struct family *family, const struct grid *grid, unsigned drawn)
{
    static uint32_t work[DV_WIDE_MOST_WORK];
    static uint16_t numbers[DV_WIDE_MOST_TREE];
    struct dv_node tree[DV_WIDE_MOST_NODES];
    size_t count = dv_tree_nodes(grid->rows, grid->columns);
    if (dv_number(derive(work, numbers)) != DV_ACCEPTED)
        wrong("a sheet that was grown is not derived");
    nodes_of(numbers, count, tree);
    compare_tree(family, tree, count);
    for (unsigned i = 0; i < drawn; i++)
        compare_tree(family, tree, draw_tree(family, grid, work, tree));
}

// Nodes by chance, and a sheet that is not in the family with the tree of another.
static void compare_wild(const struct family *family, const struct grid *grid)
{
    struct dv_node nodes[ROOMY_NODES];
    for (size_t i = 0; i < ROOMY_NODES; i++)
        nodes[i] = some_node(family);
    compare_check_tree(press, &book, &sheet, nodes, chance_below(ROOMY_NODES));
    static uint32_t work[DV_WIDE_MOST_WORK];
    static uint16_t numbers[DV_WIDE_MOST_TREE];
    struct grid spoilt = *grid;
    size_t count = dv_tree_nodes(grid->rows, grid->columns);
    if (dv_number(derive(work, numbers)) == DV_ACCEPTED)
        nodes_of(numbers, count, nodes);
    spoil_cell(&spoilt);
    spell_sheet(&spoilt, &sheet);
    bool derived = compare_derive(press, &book, &sheet, roomy_work(press), roomy_tree(press)) == DV_ACCEPTED;
    if (compare_check_tree(press, &book, &sheet, nodes, count) == DV_ACCEPTED && !derived)
        wrong("a tree is taken for a sheet that is not in the family");
    damage(one_in(2) ? &book : &sheet);
    compare_check_tree(press, &book, &sheet, nodes, count);
}

static void compare_family(size_t on, const struct family *family, unsigned most, unsigned drawn)
{
    press = on;
    struct grid grid;
    bool derived = grow_grid(family, &grid, chance_from(1, most), chance_from(1, most));
    spell_book(family, &book);
    spell_sheet(&grid, &sheet);
    if (derived)
        compare_trees(family, &grid, drawn);
    compare_wild(family, &grid);
}

KIND(trees)
{
    struct family family;
    for (unsigned i = 0; i < 1500; i++) {
        grow_some_family(&family);
        size_t on = some_press();
        compare_family(on, &family, some_side(on, 4, 60), 3);
    }
    for (unsigned i = 0; i < 4; i++) {
        size_t on = i % 2 == 0 ? DV_PRESS : DV_WIDE_PRESS;
        grow_family(&family, DV_MOST_COLOURS, DV_MOST_MOTIFS, DV_MOST_RULES);
        compare_family(on, &family, dv_most_rows(on), 1);
    }
}

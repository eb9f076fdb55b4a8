// Trees that others chose: each node is judged by its motif and its piece, then each part in turn. A piece goes by its
// height, width, top row and left column.
#include <druvelstek.h>
#include <stdbool.h>

#include "independent.h"
#include "read.h"

struct row {
    struct order order;
    const struct dv_node *node;
    size_t count;
    // The node that is judged next. Where judging ends early it is the one that fails or is missing.
    size_t next;
};

static bool is_cell(const struct order *order, unsigned colour, unsigned height, unsigned width, unsigned top,
                    unsigned left)
{
    return height == 1 && width == 1 && order->colour[order->sheet.cell[top * order->sheet.columns + left]] == colour;
}

// Whether the nodes from the next on begin with a tree of the piece for the motif, which is then passed.
static bool is_tree(struct row *row, unsigned motif, unsigned height, unsigned width, unsigned top, unsigned left)
{
    if (row->next == row->count)
        return false;
    struct dv_node node = row->node[row->next];
    if (node.rule >= row->order.book.rules)
        return false;
    struct rule rule = row->order.book.rule[node.rule];
    unsigned k = node.cut;
    if (rule.head != motif)
        return false;
    if (rule.kind == KIND_COLOUR ? k != 0 || !is_cell(&row->order, rule.first, height, width, top, left)
                                 : k == 0 || k >= (rule.kind == KIND_ACROSS ? width : height))
        return false;
    row->next++;
    if (rule.kind == KIND_ACROSS)
        return is_tree(row, rule.first, height, k, top, left) &&
               is_tree(row, rule.second, height, width - k, top, left + k);
    if (rule.kind == KIND_DOWN)
        return is_tree(row, rule.first, k, width, top, left) &&
               is_tree(row, rule.second, height - k, width, top + k, left);
    return true;
}

uint64_t independent_check_tree(size_t press, const uint8_t *book, size_t book_len, const uint8_t *sheet,
                                size_t sheet_len, const struct dv_node *nodes, size_t nodes_len)
{
    struct row row = {.node = nodes, .count = nodes_len, .next = 0};
    uint64_t refusal = independent_order_of(press, &row.order, book, book_len, sheet, sheet_len);
    if (refusal != 0)
        return refusal;
    bool derives = is_tree(&row, row.order.book.start, row.order.sheet.rows, row.order.sheet.columns, 0, 0);
    return derives && row.next == nodes_len ? 0 : independent_answer(16, 0, row.next);
}

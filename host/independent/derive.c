// The derivation. A piece goes by its height, width, top row and left column.
#include "independent.h"

#include "table.h"

struct job {
    struct order order;
    struct table table;
    // Where the next node is written.
    uint16_t *tree;
};

// The smallest k at which a join derives the piece, or 0.
static unsigned smallest_cut(const struct table *table, struct rule rule, unsigned height, unsigned width, unsigned top,
                             unsigned left)
{
    if (rule.kind == KIND_ACROSS) {
        for (unsigned k = 1; k < width; k++)
            if (has(table, rule.first, height, k, top, left) &&
                has(table, rule.second, height, width - k, top, left + k))
                return k;
    } else {
        for (unsigned k = 1; k < height; k++)
            if (has(table, rule.first, k, width, top, left) &&
                has(table, rule.second, height - k, width, top + k, left))
                return k;
    }
    return 0;
}

static bool is_cell(const struct job *job, unsigned colour, unsigned height, unsigned width, unsigned top,
                    unsigned left)
{
    return height == 1 && width == 1 &&
           job->order.colour[job->order.sheet.cell[top * job->order.sheet.columns + left]] == colour;
}

// Writes the node of a piece and a motif that derives it, then its parts.
static void write_node(struct job *job, unsigned motif, unsigned height, unsigned width, unsigned top, unsigned left)
{
    for (unsigned i = 0; i < job->order.book.rules; i++) {
        struct rule rule = job->order.book.rule[i];
        if (rule.head != motif)
            continue;
        bool colour = rule.kind == KIND_COLOUR;
        unsigned k = colour ? 0 : smallest_cut(&job->table, rule, height, width, top, left);
        if (colour ? !is_cell(job, rule.first, height, width, top, left) : k == 0)
            continue;
        *job->tree++ = (uint16_t)i;
        *job->tree++ = (uint16_t)k;
        if (rule.kind == KIND_ACROSS) {
            write_node(job, rule.first, height, k, top, left);
            write_node(job, rule.second, height, width - k, top, left + k);
        } else if (rule.kind == KIND_DOWN) {
            write_node(job, rule.first, k, width, top, left);
            write_node(job, rule.second, height - k, width, top + k, left);
        }
        return;
    }
}

uint64_t independent_derive(size_t press, const uint8_t *book, size_t book_len, const uint8_t *sheet, size_t sheet_len,
                            uint32_t *work, size_t work_len, uint16_t *tree, size_t tree_len)
{
    struct job job;
    struct rules rules;
    uint64_t refusal = independent_order_of(press, &job.order, book, book_len, sheet, sheet_len);
    if (refusal != 0)
        return refusal;
    unsigned m = job.order.sheet.rows, n = job.order.sheet.columns;
    if (work_len < independent_entries(&job.order.sheet))
        return independent_answer(9, 0, 0);
    if (tree_len < 2 * (2 * m * n - 1))
        return independent_answer(10, 0, 0);
    independent_split(&rules, &job.order.book);
    uint64_t trials = independent_fill(&job.table, &rules, &job.order, work);
    if (!has(&job.table, job.order.book.start, m, n, 0, 0))
        return independent_answer(11, 0, 0) | trials << 32;
    job.tree = tree;
    write_node(&job, job.order.book.start, m, n, 0, 0);
    return trials << 32;
}

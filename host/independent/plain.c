// The plain engine by itself: a motif derives a piece where one of the three cases of docs/RULES.md is so, tried one
// after the other. A piece goes by its height, width, top row and left column.
#include <stdbool.h>

#include "independent.h"
#include "read.h"

enum { MOST_CELLS = 16 };

struct part {
    unsigned height, width, top, left;
};

static bool derives(const struct order *order, unsigned motif, struct part part);

static bool has_colour(const struct order *order, unsigned colour, struct part part)
{
    return part.height == 1 && part.width == 1 &&
           order->colour[order->sheet.cell[part.top * order->sheet.columns + part.left]] == colour;
}

static bool joined_across(const struct order *order, struct rule rule, struct part part)
{
    for (unsigned k = 1; k < part.width; k++)
        if (derives(order, rule.first, (struct part){part.height, k, part.top, part.left}) &&
            derives(order, rule.second, (struct part){part.height, part.width - k, part.top, part.left + k}))
            return true;
    return false;
}

static bool joined_down(const struct order *order, struct rule rule, struct part part)
{
    for (unsigned k = 1; k < part.height; k++)
        if (derives(order, rule.first, (struct part){k, part.width, part.top, part.left}) &&
            derives(order, rule.second, (struct part){part.height - k, part.width, part.top + k, part.left}))
            return true;
    return false;
}

static bool derives_by(const struct order *order, struct rule rule, struct part part)
{
    if (rule.kind == KIND_COLOUR)
        return has_colour(order, rule.first, part);
    return rule.kind == KIND_ACROSS ? joined_across(order, rule, part) : joined_down(order, rule, part);
}

static bool derives(const struct order *order, unsigned motif, struct part part)
{
    for (unsigned i = 0; i < order->book.rules; i++)
        if (order->book.rule[i].head == motif && derives_by(order, order->book.rule[i], part))
            return true;
    return false;
}

uint64_t independent_plain(size_t press, const uint8_t *book, size_t book_len, const uint8_t *sheet, size_t sheet_len)
{
    struct order order;
    uint64_t refusal = independent_order_of(press, &order, book, book_len, sheet, sheet_len);
    if (refusal != 0)
        return refusal;
    if (order.sheet.rows * order.sheet.columns > MOST_CELLS)
        return independent_answer(20, 0, 0);
    struct part whole = {order.sheet.rows, order.sheet.columns, 0, 0};
    return derives(&order, order.book.start, whole) ? 0 : independent_answer(11, 0, 0);
}

// Why a sheet is not in the family: the first of the four reasons that holds.
#include "card.h"
#include "independent.h"
#include "table.h"

enum { COLOUR_NOT_NAMED = 1, NO_SUCH_SIZE = 2, LARGEST_PIECE = 3, NO_PIECE = 4 };

static uint64_t reason(unsigned kind, unsigned row, unsigned column, unsigned height, unsigned width)
{
    return (uint64_t)(kind | row << 3 | column << 8 | height << 13 | width << 18) << 32;
}

// The first cell whose colour no rule of the book names, or the number of cells. A colour rule names its colour
// whatever its head is, and the book's list by itself names none.
static unsigned first_not_named(const struct order *order)
{
    bool named[65] = {false};
    unsigned cell = 0, cells = order->sheet.rows * order->sheet.columns;
    for (unsigned i = 0; i < order->book.rules; i++)
        if (order->book.rule[i].kind == KIND_COLOUR)
            named[order->book.rule[i].first] = true;
    while (cell < cells && named[order->colour[order->sheet.cell[cell]]])
        cell++;
    return cell;
}

// Of the pieces that the motif derives the one of the greatest area; pieces go by slot, so the first is the earliest.
static uint64_t largest_piece(const struct table *table, unsigned motif)
{
    uint64_t largest = reason(NO_PIECE, 0, 0, 0, 0);
    unsigned area = 0;
    const uint32_t *next = table->entry;
    for (unsigned height = 1; height <= table->rows; height++)
        for (unsigned width = 1; width <= table->columns; width++)
            for (unsigned top = 0; top + height <= table->rows; top++)
                for (unsigned left = 0; left + width <= table->columns; left++)
                    if ((*next++ >> motif & 1) != 0 && height * width > area) {
                        area = height * width;
                        largest = reason(LARGEST_PIECE, top, left, height, width);
                    }
    return largest;
}

uint64_t independent_why_not(size_t press, const uint8_t *book, size_t book_len, const uint8_t *sheet, size_t sheet_len,
                             uint32_t *work, size_t work_len)
{
    struct order order;
    struct rules rules;
    struct table table;
    uint64_t refusal = independent_order_of(press, &order, book, book_len, sheet, sheet_len);
    if (refusal != 0)
        return refusal;
    unsigned rows = order.sheet.rows, columns = order.sheet.columns;
    if (work_len < independent_entries(&order.sheet))
        return independent_answer(9, 0, 0);
    independent_split(&rules, &order.book);
    independent_fill(&table, &rules, &order, work);
    if (has(&table, order.book.start, rows, columns, 0, 0))
        return independent_answer(15, 0, 0);
    unsigned cell = first_not_named(&order);
    if (cell < rows * columns)
        return reason(COLOUR_NOT_NAMED, cell / columns, cell % columns, 0, 0);
    if (!independent_has_size(&order.book, rows, columns))
        return reason(NO_SUCH_SIZE, 0, 0, 0, 0);
    return largest_piece(&table, order.book.start);
}

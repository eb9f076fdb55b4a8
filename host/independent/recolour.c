// One cell of a sheet recoloured.
#include "independent.h"

#include "table.h"

uint64_t independent_recolour(size_t press, const uint8_t *book, size_t book_len, uint8_t *sheet, size_t sheet_len,
                              uint32_t *work, size_t work_len, size_t row, size_t column, size_t colour)
{
    struct order order;
    struct rules rules;
    struct table table;
    uint64_t refusal = independent_order_of(press, &order, book, book_len, sheet, sheet_len);
    if (refusal != 0)
        return refusal;
    unsigned m = order.sheet.rows, n = order.sheet.columns;
    if (row >= m || column >= n || colour >= order.sheet.colours.count)
        return independent_answer(19, 0, 0);
    if (work_len < independent_entries(&order.sheet))
        return independent_answer(9, 0, 0);
    // The cells are the last bytes, one each: a sheet has no more than 64 colours.
    sheet[sheet_len - m * n + row * n + column] = (uint8_t)colour;
    independent_split(&rules, &order.book);
    independent_refill(&table, &rules, &order, work, (unsigned)row, (unsigned)column, (unsigned)colour);
    return independent_answer(has(&table, order.book.start, m, n, 0, 0) ? 0 : 11, 0, 0);
}

// A sheet under a book: both read, and the sheet's colours found in the book by name.
#include "read.h"

uint64_t independent_sheet_under(size_t press, struct order *order, const uint8_t *sheet, size_t sheet_len)
{
    uint64_t refusal = independent_sheet_of(press, &order->sheet, sheet, sheet_len, 2);
    if (refusal != 0)
        return refusal;
    for (unsigned i = 0; i < order->sheet.colours.count; i++)
        order->colour[i] = (uint8_t)independent_colour_named(&order->book.colours, order->sheet.colours.name[i]);
    return 0;
}

uint64_t independent_order_of(size_t press, struct order *order, const uint8_t *book, size_t book_len,
                              const uint8_t *sheet, size_t sheet_len)
{
    uint64_t refusal = independent_press_refused(press);
    if (refusal == 0)
        refusal = independent_book_of(&order->book, book, book_len, 1);
    return refusal != 0 ? refusal : independent_sheet_under(press, order, sheet, sheet_len);
}

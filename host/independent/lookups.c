// Reading and the look-ups of books and sheets, as a host asks for them.
#include "independent.h"

#include "read.h"

// A part of what is lent.
static uint64_t shown(const uint8_t *lent, struct name name)
{
    return (uint64_t)(name.bytes - lent) | (uint64_t)name.length << 32;
}

uint64_t independent_read_book(const uint8_t *book, size_t book_len)
{
    struct book contents;
    return independent_book_of(&contents, book, book_len, 1);
}

uint64_t independent_read_sheet(size_t press, const uint8_t *sheet, size_t sheet_len)
{
    struct sheet contents;
    uint64_t refusal = independent_press_refused(press);
    if (refusal == 0)
        refusal = independent_sheet_of(press, &contents, sheet, sheet_len, 1);
    return refusal != 0 ? refusal : (uint64_t)contents.ticket << 32;
}

uint64_t independent_counts(const uint8_t *book, size_t book_len)
{
    struct book contents;
    if (independent_book_of(&contents, book, book_len, 1) != 0)
        return 0;
    return UINT64_C(1) << 32 | (uint64_t)contents.rules << 24 | (uint64_t)contents.start << 16 |
           (uint64_t)contents.motifs << 8 | contents.colours.count;
}

uint64_t independent_colour(const uint8_t *book, size_t book_len, size_t number)
{
    struct book contents;
    if (independent_book_of(&contents, book, book_len, 1) != 0 || number >= contents.colours.count)
        return 0;
    return shown(book, contents.colours.name[number]);
}

uint64_t independent_rule(const uint8_t *book, size_t book_len, size_t number)
{
    struct book contents;
    if (independent_book_of(&contents, book, book_len, 1) != 0 || number >= contents.rules)
        return 0;
    struct rule rule = contents.rule[number];
    return UINT64_C(1) << 32 | (uint64_t)rule.second << 24 | (uint64_t)rule.first << 16 | (uint64_t)rule.kind << 8 |
           rule.head;
}

// Whether there is something to show of a sheet.
static bool is_read(size_t press, struct sheet *contents, const uint8_t *sheet, size_t sheet_len)
{
    return independent_press_refused(press) == 0 && independent_sheet_of(press, contents, sheet, sheet_len, 1) == 0;
}

uint64_t independent_sheet_size(size_t press, const uint8_t *sheet, size_t sheet_len)
{
    struct sheet contents;
    if (!is_read(press, &contents, sheet, sheet_len))
        return 0;
    return contents.rows | (uint64_t)contents.columns << 32;
}

uint64_t independent_cell(size_t press, const uint8_t *sheet, size_t sheet_len, size_t row, size_t column)
{
    struct sheet contents;
    if (!is_read(press, &contents, sheet, sheet_len) || row >= contents.rows || column >= contents.columns)
        return 0;
    return UINT64_C(1) << 32 | contents.cell[row * contents.columns + column];
}

uint64_t independent_sheet_colour(size_t press, const uint8_t *sheet, size_t sheet_len, size_t number)
{
    struct sheet contents;
    if (!is_read(press, &contents, sheet, sheet_len) || number >= contents.colours.count)
        return 0;
    return shown(sheet, contents.colours.name[number]);
}

#include "spell.h"

#include <string.h>

size_t spell_number(unsigned number, uint8_t *bytes)
{
    size_t length = 0;
    for (; number > 127; number /= 128)
        bytes[length++] = (uint8_t)(number % 128 + 128);
    bytes[length++] = (uint8_t)number;
    return length;
}

static void add(struct bytes *bytes, unsigned number)
{
    bytes->length += spell_number(number, bytes->at + bytes->length);
}

static void add_colours(struct bytes *bytes, const struct colours *colours)
{
    add(bytes, colours->count);
    for (unsigned i = 0; i < colours->count; i++) {
        const struct name *name = &colours->name[i];
        add(bytes, (unsigned)name->length);
        memcpy(bytes->at + bytes->length, name->at, name->length);
        bytes->length += name->length;
    }
}

void spell_book(const struct book *book, struct bytes *bytes)
{
    bytes->length = 0;
    add_colours(bytes, &book->colours);
    add(bytes, book->motifs);
    add(bytes, book->start);
    add(bytes, book->rules);
    for (unsigned i = 0; i < book->rules; i++) {
        struct rule rule = book->rule[i];
        add(bytes, rule.head);
        add(bytes, rule.kind);
        add(bytes, rule.first);
        if (rule.kind != DV_KIND_COLOUR)
            add(bytes, rule.second);
    }
}

void spell_sheet(const struct sheet *sheet, struct bytes *bytes)
{
    bytes->length = 0;
    add_colours(bytes, &sheet->colours);
    add(bytes, sheet->ticket);
    add(bytes, sheet->rows);
    add(bytes, sheet->columns);
    for (unsigned i = 0; i < sheet->rows * sheet->columns; i++)
        add(bytes, sheet->cell[i]);
}

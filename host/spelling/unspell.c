#include <string.h>

#include "spell.h"

struct reader {
    const uint8_t *at;
    size_t place;
};

static unsigned number(struct reader *reader)
{
    unsigned value = 0, shift = 0;
    for (; reader->at[reader->place] > 127; shift += 7)
        value += (unsigned)(reader->at[reader->place++] - 128) << shift;
    return value + ((unsigned)reader->at[reader->place++] << shift);
}

static void read_colours(struct reader *reader, struct colours *colours)
{
    colours->count = number(reader);
    for (unsigned i = 0; i < colours->count; i++) {
        struct name *name = &colours->name[i];
        name->length = number(reader);
        memcpy(name->at, reader->at + reader->place, name->length);
        reader->place += name->length;
    }
}

void unspell_book(const uint8_t *bytes, struct book *book)
{
    struct reader reader = {bytes, 0};
    read_colours(&reader, &book->colours);
    book->motifs = number(&reader);
    book->start = number(&reader);
    book->rules = number(&reader);
    for (unsigned i = 0; i < book->rules; i++) {
        struct rule *rule = &book->rule[i];
        rule->head = number(&reader);
        rule->kind = number(&reader);
        rule->first = number(&reader);
        rule->second = rule->kind == DV_KIND_COLOUR ? 0 : number(&reader);
    }
}

void unspell_sheet(const uint8_t *bytes, struct sheet *sheet)
{
    struct reader reader = {bytes, 0};
    read_colours(&reader, &sheet->colours);
    sheet->ticket = number(&reader);
    sheet->rows = number(&reader);
    sheet->columns = number(&reader);
    for (unsigned i = 0; i < sheet->rows * sheet->columns; i++)
        sheet->cell[i] = (uint8_t)number(&reader);
}

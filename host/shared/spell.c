#include "spell.h"

#include <string.h>

void add_ink(struct palette *palette, const char *name)
{
    struct ink *ink = &palette->ink[palette->count++];
    ink->length = (unsigned)strlen(name);
    memcpy(ink->name, name, ink->length);
}

void add_rule(struct family *family, unsigned head, unsigned kind, unsigned first, unsigned second)
{
    family->rule[family->rules++] = (struct rule){head, kind, first, second};
}

void add_new_rule(struct family *family, unsigned head, unsigned kind, unsigned first, unsigned second)
{
    for (unsigned i = 0; i < family->rules; i++) {
        struct rule rule = family->rule[i];
        if (rule.head == head && rule.kind == kind && rule.first == first && rule.second == second)
            return;
    }
    add_rule(family, head, kind, first, second);
}

static void spell(struct bytes *out, unsigned number)
{
    for (; number > 127; number /= 128)
        out->at[out->length++] = (uint8_t)(number % 128 + 128);
    out->at[out->length++] = (uint8_t)number;
}

static void spell_palette(const struct palette *palette, struct bytes *out)
{
    spell(out, palette->count);
    for (unsigned i = 0; i < palette->count; i++) {
        const struct ink *ink = &palette->ink[i];
        spell(out, ink->length);
        memcpy(out->at + out->length, ink->name, ink->length);
        out->length += ink->length;
    }
}

void spell_book(const struct family *family, struct bytes *book)
{
    book->length = 0;
    spell_palette(&family->palette, book);
    spell(book, family->motifs);
    spell(book, family->start);
    spell(book, family->rules);
    for (unsigned i = 0; i < family->rules; i++) {
        struct rule rule = family->rule[i];
        spell(book, rule.head);
        spell(book, rule.kind);
        spell(book, rule.first);
        if (rule.kind != DV_KIND_COLOUR)
            spell(book, rule.second);
    }
}

void spell_sheet(const struct grid *grid, struct bytes *sheet)
{
    sheet->length = 0;
    spell_palette(&grid->palette, sheet);
    spell(sheet, grid->ticket);
    spell(sheet, grid->rows);
    spell(sheet, grid->columns);
    for (unsigned i = 0; i < grid->rows * grid->columns; i++)
        spell(sheet, grid->cell[i]);
}

void add_sheet(struct run *run, const uint8_t *sheet, size_t length)
{
    struct bytes spelt = {0, {0}};
    spell(&spelt, (unsigned)length);
    memcpy(run->at + run->length, spelt.at, spelt.length);
    run->length += spelt.length;
    memcpy(run->at + run->length, sheet, length);
    run->length += length;
}

// Contents of books and sheets, and their spelling. Nothing is held to the ranges of docs/RULES.md, so that one step
// past each limit can be spelt too.
#ifndef SPELL_H
#define SPELL_H

#include <druvelstek.h>
#include <stddef.h>
#include <stdint.h>

struct bytes {
    size_t length;
    uint8_t at[4096];
};

struct ink {
    unsigned length;
    char name[DV_LONGEST_NAME + 2];
};

struct palette {
    unsigned count;
    struct ink ink[DV_MOST_COLOURS + 1];
};

// A colour rule has its colour as first.
struct rule {
    unsigned head, kind, first, second;
};

struct family {
    struct palette palette;
    unsigned motifs, start, rules;
    struct rule rule[DV_MOST_RULES + 1];
};

struct grid {
    struct palette palette;
    unsigned ticket, rows, columns;
    unsigned cell[(DV_WIDE_MOST_ROWS + 1) * (DV_WIDE_MOST_COLUMNS + 1)];
};

// Room for a run that is too long.
struct run {
    size_t length;
    uint8_t at[DV_LONGEST_RUN + 64];
};

void add_ink(struct palette *palette, const char *name);
void add_rule(struct family *family, unsigned head, unsigned kind, unsigned first, unsigned second);

// The same, but nothing where the family has that rule already.
void add_new_rule(struct family *family, unsigned head, unsigned kind, unsigned first, unsigned second);

void spell_book(const struct family *family, struct bytes *book);
void spell_sheet(const struct grid *grid, struct bytes *sheet);

// Adds a sheet to a run, of so many bytes, after its length.
void add_sheet(struct run *run, const uint8_t *sheet, size_t length);

#endif

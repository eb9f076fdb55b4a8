// What the independent engine reads a book and a sheet into.
#ifndef INDEPENDENT_READ_H
#define INDEPENDENT_READ_H

#include <stdbool.h>
#include <stddef.h>
#include <stdint.h>

#include "press.h"

enum { KIND_COLOUR = 0, KIND_ACROSS = 1, KIND_DOWN = 2 };

// A name is the part of the lent bytes that holds it.
struct name {
    const uint8_t *bytes;
    unsigned length;
};

// Room for the lists of two books, so that a combination is made first and held to the limits after.
struct colours {
    unsigned count;
    struct name name[2 * 64];
};

// A colour rule has its colour as first.
struct rule {
    uint8_t head, kind, first, second;
};

// Room for two books' rules and a copy of each, for the same reason, and for the rule of a new start.
struct book {
    struct colours colours;
    unsigned motifs, start, rules;
    struct rule rule[2 * (200 + 200) + 1];
};

struct sheet {
    struct colours colours;
    unsigned ticket, rows, columns;
    uint8_t cell[WIDEST * WIDEST];
};

// A sheet under a book.
struct order {
    struct book book;
    struct sheet sheet;
    // The book's number of each colour of the sheet, or its count of colours where it has none of that name.
    uint8_t colour[64];
};

// An answer with no count.
uint64_t independent_answer(unsigned number, unsigned blamed, size_t place);

// The number of the colour with this name, or the list's count where it has none.
unsigned independent_colour_named(const struct colours *colours, struct name name);

// Whether an equal rule stands among the first so many of a book.
bool independent_stands(const struct book *book, unsigned rules, struct rule rule);

// Each reads its input whole and answers 0, or 1 to 8, for a book also 18, blaming the input of that number. There is
// the press that a sheet is of.
uint64_t independent_book_of(struct book *book, const uint8_t *bytes, size_t length, unsigned blamed);
uint64_t independent_sheet_of(size_t press, struct sheet *sheet, const uint8_t *bytes, size_t length, unsigned blamed);

// A book that is to be tidied, lent as the first input: equal rules are taken, and 18 is not given.
uint64_t independent_untidy_of(struct book *book, const uint8_t *bytes, size_t length);

// Reads the number at a place of an input, of any value, and moves the place past it. Answers 0, or 1 or 2 blaming the
// input of that number.
uint64_t independent_number_at(unsigned *number, const uint8_t *bytes, size_t length, size_t *at, unsigned blamed);

// Reads a sheet, as the second input, under the book that was read, and finds its colours there.
uint64_t independent_sheet_under(size_t press, struct order *order, const uint8_t *sheet, size_t sheet_len);

// Reads both, the book as the first input, where there is such a press.
uint64_t independent_order_of(size_t press, struct order *order, const uint8_t *book, size_t book_len,
                              const uint8_t *sheet, size_t sheet_len);

#endif

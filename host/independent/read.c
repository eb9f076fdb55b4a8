// Reading of books and sheets, from the left to the first fault.
#include "read.h"

#include <stdbool.h>
#include <string.h>

// The greatest number, and so the greatest ticket.
enum { GREATEST = 128 * 128 * 128 - 1 };

// The bytes, how far they are read, and the first fault.
struct reader {
    const uint8_t *bytes;
    size_t length, at;
    unsigned number;
    size_t place;
};

uint64_t independent_answer(unsigned number, unsigned blamed, size_t place)
{
    return number | (uint64_t)blamed << 8 | (uint64_t)place << 12;
}

static bool refuse(struct reader *in, unsigned number, size_t place)
{
    in->number = number;
    in->place = place;
    return false;
}

// The second group of a number and the third, after a first byte with 128 added. The last of them is not 0, and has no
// 128 added.
static bool read_groups(struct reader *in, unsigned *number)
{
    size_t place = in->at - 1;
    for (unsigned group = 1; group < 3; group++) {
        if (in->at == in->length)
            return refuse(in, 1, in->length);
        unsigned byte = in->bytes[in->at++];
        if (byte == 0)
            break;
        *number += byte % 128 << 7 * group;
        if (byte < 128)
            return true;
    }
    return refuse(in, 2, place);
}

// A number from least to most; outside these the refusal is the one given. It has one to three groups of seven bits,
// the lowest first, and as few as will do; almost all have one.
static inline bool read_number(struct reader *in, unsigned least, unsigned most, unsigned refusal, unsigned *number)
{
    size_t place = in->at;
    if (in->at == in->length)
        return refuse(in, 1, in->length);
    unsigned value = in->bytes[in->at++];
    if (value > 127) {
        value -= 128;
        if (!read_groups(in, &value))
            return false;
    }
    if (value < least || value > most)
        return refuse(in, refusal, place);
    *number = value;
    return true;
}

static bool read_range(struct reader *in, unsigned least, unsigned most, unsigned *number)
{
    return read_number(in, least, most, 3, number);
}

static bool read_below(struct reader *in, unsigned count, unsigned *number)
{
    return read_number(in, 0, count - 1, 6, number);
}

unsigned independent_colour_named(const struct colours *colours, struct name name)
{
    unsigned number = 0;
    while (number < colours->count && (colours->name[number].length != name.length ||
                                       memcmp(colours->name[number].bytes, name.bytes, name.length) != 0))
        number++;
    return number;
}

// Whether a byte may stand in a name: a blank only where it is neither the first nor the last.
static bool is_shown(uint8_t byte, bool at_end)
{
    return byte >= 32 && byte <= 126 && !(byte == 32 && at_end);
}

static bool read_name(struct reader *in, struct colours *colours)
{
    struct name name;
    if (!read_range(in, 1, 40, &name.length))
        return false;
    size_t place = in->at, last = place + name.length - 1;
    name.bytes = in->bytes + place;
    for (; in->at <= last; in->at++) {
        if (in->at == in->length)
            return refuse(in, 1, in->length);
        if (!is_shown(in->bytes[in->at], in->at == place || in->at == last))
            return refuse(in, 4, in->at);
    }
    if (independent_colour_named(colours, name) < colours->count)
        return refuse(in, 5, place);
    colours->name[colours->count++] = name;
    return true;
}

static bool read_colours(struct reader *in, struct colours *colours)
{
    unsigned count;
    colours->count = 0;
    if (!read_range(in, 1, 64, &count))
        return false;
    while (colours->count < count)
        if (!read_name(in, colours))
            return false;
    return true;
}

static bool read_rule(struct reader *in, const struct book *book, struct rule *rule)
{
    unsigned head, kind, first, second = 0;
    if (!read_below(in, book->motifs, &head) || !read_number(in, 0, 2, 7, &kind))
        return false;
    if (kind == KIND_COLOUR) {
        if (!read_below(in, book->colours.count, &first))
            return false;
    } else if (!read_below(in, book->motifs, &first) || !read_below(in, book->motifs, &second)) {
        return false;
    }
    *rule = (struct rule){(uint8_t)head, (uint8_t)kind, (uint8_t)first, (uint8_t)second};
    return true;
}

bool independent_stands(const struct book *book, unsigned rules, struct rule rule)
{
    for (unsigned i = 0; i < rules; i++)
        if (memcmp(&book->rule[i], &rule, sizeof rule) == 0)
            return true;
    return false;
}

static bool at_end(struct reader *in)
{
    return in->at == in->length || refuse(in, 8, in->at);
}

// With or without the test for equal rules.
static bool read_book(struct reader *in, struct book *book, bool copies_taken)
{
    if (!read_colours(in, &book->colours) || !read_range(in, 1, 32, &book->motifs) ||
        !read_below(in, book->motifs, &book->start) || !read_range(in, 1, 200, &book->rules))
        return false;
    for (unsigned i = 0; i < book->rules; i++) {
        size_t place = in->at;
        if (!read_rule(in, book, &book->rule[i]))
            return false;
        if (!copies_taken && independent_stands(book, i, book->rule[i]))
            return refuse(in, 18, place);
    }
    return at_end(in);
}

static bool read_sheet(struct reader *in, struct sheet *sheet, unsigned most)
{
    if (!read_colours(in, &sheet->colours) || !read_range(in, 0, GREATEST, &sheet->ticket) ||
        !read_range(in, 1, most, &sheet->rows) || !read_range(in, 1, most, &sheet->columns))
        return false;
    for (unsigned i = 0; i < sheet->rows * sheet->columns; i++) {
        unsigned colour;
        if (!read_below(in, sheet->colours.count, &colour))
            return false;
        sheet->cell[i] = (uint8_t)colour;
    }
    return at_end(in);
}

uint64_t independent_book_of(struct book *book, const uint8_t *bytes, size_t length, unsigned blamed)
{
    struct reader in = {bytes, length, 0, 0, 0};
    return read_book(&in, book, false) ? 0 : independent_answer(in.number, blamed, in.place);
}

uint64_t independent_untidy_of(struct book *book, const uint8_t *bytes, size_t length)
{
    struct reader in = {bytes, length, 0, 0, 0};
    return read_book(&in, book, true) ? 0 : independent_answer(in.number, 1, in.place);
}

uint64_t independent_sheet_of(size_t press, struct sheet *sheet, const uint8_t *bytes, size_t length, unsigned blamed)
{
    struct reader in = {bytes, length, 0, 0, 0};
    bool read = read_sheet(&in, sheet, independent_longest_side(press));
    return read ? 0 : independent_answer(in.number, blamed, in.place);
}

uint64_t independent_number_at(unsigned *number, const uint8_t *bytes, size_t length, size_t *at, unsigned blamed)
{
    struct reader in = {bytes, length, *at, 0, 0};
    bool read = read_range(&in, 0, GREATEST, number);
    *at = in.at;
    return read ? 0 : independent_answer(in.number, blamed, in.place);
}

// Names with blanks at either end and inside, in books and in sheets, with the input cut at every byte. Where a blank
// may stand is plain to see, so the answers are held to that as well.
#include <string.h>

#include "compare.h"

static size_t press;

static uint64_t read_sheet(const struct bytes *sheet)
{
    return compare_read_sheet(press, sheet);
}

// Where in a name its first or last byte is a blank, or its length where neither is.
static size_t blank_at_end(const struct ink *ink)
{
    unsigned last = ink->length - 1;
    return ink->name[0] == ' ' ? 0 : ink->name[last] == ' ' ? last : ink->length;
}

// The answer due for an input of this length, in which the name begins at a place and all else keeps the rules.
static uint64_t due(const struct ink *ink, size_t place, size_t length, size_t whole)
{
    size_t blank = blank_at_end(ink);
    if (blank < ink->length && place + blank < length)
        return DV_NAME_BYTE | 1 << 8 | (uint64_t)(place + blank) << 12;
    return length == whole ? DV_ACCEPTED : DV_ENDS_EARLY | 1 << 8 | (uint64_t)length << 12;
}

static void compare_cuts(struct bytes input, const struct ink *ink, size_t place,
                         uint64_t (*compare_it)(const struct bytes *cut))
{
    size_t whole = input.length;
    for (size_t length = 0; length <= whole; length++) {
        input.length = length;
        if (compare_it(&input) != due(ink, place, length, whole))
            wrong("a blank in a name is not answered as its place in it says");
    }
}

// The name first or last in a list of two, in a book and in a sheet.
static void compare_name(const struct ink *ink, bool last)
{
    struct family family = {.motifs = 1};
    struct grid grid = {.rows = 1, .columns = 2, .cell = {0, 1}};
    struct bytes book, sheet;
    add_ink(&family.palette, "Slate C");
    add_ink(&family.palette, "Slate C");
    family.palette.ink[last ? 1 : 0] = *ink;
    grid.palette = family.palette;
    add_rule(&family, 0, DV_KIND_COLOUR, 0, 0);
    add_rule(&family, 0, DV_KIND_ACROSS, 0, 0);
    spell_book(&family, &book);
    spell_sheet(&grid, &sheet);
    // The count, the first name with its length, and the length of the last.
    size_t place = last ? 1 + 1 + strlen("Slate C") + 1 : 1 + 1;
    compare_cuts(book, ink, place, compare_read_book);
    compare_cuts(sheet, ink, place, read_sheet);
    compare_colour(&book, last);
    compare_derive(press, &book, &sheet, roomy_work(press), roomy_tree(press));
    compare_combination(BESIDE, &book, &book, ROOMY_OUT, NULL);
}

// Blanks at each choice of the first two places, the middle and the last two.
static void compare_blanks_in(unsigned length)
{
    const unsigned place[] = {0, 1, length / 2, length - 2, length - 1};
    for (unsigned chosen = 0; chosen < 1u << 5; chosen++) {
        struct ink ink = {length, {0}};
        memset(ink.name, 'n', length);
        for (int i = 0; i < 5; i++)
            if (chosen >> i & 1 && place[i] < length)
                ink.name[place[i]] = ' ';
        compare_name(&ink, false);
        compare_name(&ink, true);
    }
}

// Every name of at most four bytes that are blanks, or letters beside and past what may stand in a name.
static void compare_short_names(void)
{
    static const char letters[] = {31, ' ', '!', '~', 127};
    for (unsigned length = 1, names = 5; length <= 4; length++, names *= 5)
        for (unsigned number = 0; number < names; number++) {
            struct family family = {.palette = {1, {{length, {0}}}}, .motifs = 1};
            struct bytes book;
            for (unsigned i = 0, left = number; i < length; i++, left /= 5)
                family.palette.ink[0].name[i] = letters[left % 5];
            add_rule(&family, 0, DV_KIND_COLOUR, 0, 0);
            spell_book(&family, &book);
            compare_read_book(&book);
        }
}

// Names that differ in their blanks alone are two.
static void compare_inner_blanks(void)
{
    struct family family = {.motifs = 1};
    struct bytes book;
    add_ink(&family.palette, "SlateC");
    add_ink(&family.palette, "Slate C");
    add_ink(&family.palette, "Slate  C");
    add_rule(&family, 0, DV_KIND_COLOUR, 0, 0);
    spell_book(&family, &book);
    if (compare_read_book(&book) != DV_ACCEPTED)
        wrong("names that differ in their blanks are taken for one");
}

KIND(blanks)
{
    static const unsigned lengths[] = {1, 2, 39, 40};
    for (press = DV_PRESS; press <= DV_WIDE_PRESS; press++)
        for (int i = 0; i < 4; i++)
            compare_blanks_in(lengths[i]);
    compare_short_names();
    compare_inner_blanks();
}

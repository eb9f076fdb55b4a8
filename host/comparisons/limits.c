// Books, sheets and combinations at every limit of docs/RULES.md and one step to each side.
#include <string.h>

#include "../shared/chance.h"
#include "../shared/grow.h"
#include "compare.h"

// So many names of one length that share all but the last letter, from a given one on.
static void plain_palette(struct palette *palette, unsigned count, unsigned length, unsigned from)
{
    palette->count = count;
    for (unsigned i = 0; i < count; i++) {
        struct ink *ink = &palette->ink[i];
        ink->length = length;
        memset(ink->name, 'n', sizeof ink->name);
        if (length > 0)
            ink->name[length - 1] = (char)('!' + (from + i) % 94);
    }
}

// A family whose numbers are each the greatest that may stand there, or as little less as makes its rules differ, as
// far as they can. With no motifs or colours they are 0.
static void plain_family(struct family *family, unsigned motifs, unsigned rules)
{
    unsigned motif = motifs == 0 ? 0 : motifs - 1, colours = family->palette.count;
    family->motifs = motifs;
    family->start = motif;
    family->rules = rules;
    for (unsigned i = 0; i < rules; i++) {
        unsigned kind = i % 3, less = i / 3;
        unsigned colour = colours == 0 ? 0 : colours - 1 - less % colours;
        unsigned first = motifs == 0 ? 0 : motif - less / motifs % motifs;
        unsigned second = motifs == 0 ? 0 : motif - less % motifs;
        family->rule[i] = (struct rule){motif, kind, kind == DV_KIND_COLOUR ? colour : first, second};
    }
}

static void compare_book(const struct family *family)
{
    struct bytes book, sheet;
    struct grid grid = {.palette = family->palette, .rows = 2, .columns = 2};
    size_t press = some_press();
    spell_book(family, &book);
    spell_sheet(&grid, &sheet);
    compare_read_book(&book);
    compare_read_sheet(press, &sheet);
    compare_colour(&book, family->palette.count);
    compare_colour(&book, family->palette.count - 1);
    compare_rule(&book, family->rules);
    compare_rule(&book, family->rules - 1);
    compare_sheet_size(press, &sheet);
    compare_derive(press, &book, &sheet, dv_work_entries(2, 2), dv_tree_entries(2, 2));
    compare_size_card(press, &book, dv_card_entries(press), NULL);
    compare_why_not(press, &book, &sheet, dv_work_entries(2, 2));
    compare_combination(RUN, &book, NULL, ROOMY_OUT, NULL);
    compare_combination(TRANSPOSED, &book, NULL, book.length, NULL);
}

static void compare_books_at_limits(void)
{
    static const unsigned colours[] = {0, 1, 63, 64, 65}, lengths[] = {0, 1, 39, 40, 41};
    static const unsigned motifs[] = {0, 1, 31, 32, 33}, rules[] = {0, 1, 127, 128, 199, 200, 201};
    struct family family;
    for (int a = 0; a < 5; a++)
        for (int b = 0; b < 5; b++)
            for (int c = 0; c < 5; c++)
                for (int d = 0; d < 7; d++) {
                    plain_palette(&family.palette, colours[a], lengths[b], 0);
                    plain_family(&family, motifs[c], rules[d]);
                    compare_book(&family);
                }
}

// One number of a book one too high, or far too high.
static void compare_numbers_past_counts(void)
{
    struct family good, family;
    plain_palette(&good.palette, 5, 3, 0);
    plain_family(&good, 7, 9);
    for (unsigned more = 1; more < 300; more += 1 + more / 3)
        for (unsigned i = 0; i < good.rules; i++) {
            unsigned *number[] = {&family.start, &family.rule[i].head, &family.rule[i].kind, &family.rule[i].first,
                                  &family.rule[i].second};
            for (int j = 0; j < 5; j++) {
                family = good;
                *number[j] += more;
                compare_book(&family);
            }
        }
}

static void compare_sheets_at_limits(size_t press)
{
    static const unsigned sides[] = {0, 1, 2, 11, 12, 13, 23, 24, 25}, colours[] = {1, 64, 65};
    struct family family;
    struct bytes book, sheet;
    plain_palette(&family.palette, 3, 40, 0);
    plain_family(&family, 1, 3);
    spell_book(&family, &book);
    for (int a = 0; a < 9; a++)
        for (int b = 0; b < 9; b++)
            for (int c = 0; c < 3; c++)
                for (unsigned more = 0; more < 3; more++) {
                    struct grid grid = {.ticket = more * 9000, .rows = sides[a], .columns = sides[b]};
                    plain_palette(&grid.palette, colours[c], 40, 0);
                    for (unsigned i = 0; i < grid.rows * grid.columns; i++)
                        grid.cell[i] = chance_below(3) % grid.palette.count;
                    if (grid.rows * grid.columns > 0)
                        grid.cell[grid.rows * grid.columns - 1] = grid.palette.count - 1 + more % 2 + more / 2 * 64;
                    spell_sheet(&grid, &sheet);
                    compare_read_sheet(press, &sheet);
                    compare_sheet_size(press, &sheet);
                    compare_derive(press, &book, &sheet, roomy_work(press), roomy_tree(press));
                    compare_derive(press, &book, &sheet, dv_most_work(press) - 1, dv_most_tree(press) - 1);
                    compare_why_not(press, &book, &sheet, dv_most_work(press));
                    compare_why_not(press, &book, &sheet, dv_most_work(press) - 1);
                }
}

// The longest sheet, and one byte more.
static void compare_longest_sheet(size_t press)
{
    struct grid grid = {.ticket = DV_GREATEST_TICKET, .rows = dv_most_rows(press), .columns = dv_most_columns(press)};
    struct bytes sheet;
    plain_palette(&grid.palette, DV_MOST_COLOURS, DV_LONGEST_NAME, 0);
    spell_sheet(&grid, &sheet);
    if (sheet.length != dv_longest_sheet(press) ||
        compare_read_sheet(press, &sheet) != (uint64_t)DV_GREATEST_TICKET << 32)
        wrong("the longest sheet has another length, or is refused");
    sheet.at[sheet.length++] = 0;
    if (compare_read_sheet(press, &sheet) != (DV_BYTES_FOLLOW | 1 << 8 | (uint64_t)dv_longest_sheet(press) << 12))
        wrong("a byte that follows the longest sheet is not refused");
}

// Two books whose colours, motifs and rules come to about the limits together, or in the first book alone.
static void families_at_limits(struct family *f, struct family *g)
{
    unsigned colours = chance_from(1, 62), fresh = chance_from(63, 65) - colours;
    unsigned shared = chance_below((colours < 64 - fresh ? colours : 64 - fresh) + 1);
    unsigned motifs = chance_from(30, 32), rules = one_in(2) ? chance_from(98, 101) : chance_from(198, 201);
    unsigned of_f = one_in(3) ? motifs - 1 : chance_from(1, motifs - 1);
    unsigned rules_of_f = one_in(3) ? rules - 1 : chance_from(1, rules - 1);
    plain_palette(&f->palette, colours, 40, 0);
    plain_palette(&g->palette, shared + fresh, 40, colours - shared);
    plain_family(f, of_f, rules_of_f);
    plain_family(g, motifs - of_f, rules - rules_of_f);
    if (one_in(6))
        f->motifs = DV_MOST_MOTIFS;
    // Where the start is the head of no rule, it is copied by none.
    if (one_in(2))
        f->start = g->start = 0;
}

static void compare_combinations_at_limits(void)
{
    struct family f, g;
    struct bytes first, second;
    for (unsigned i = 0; i < 600; i++) {
        families_at_limits(&f, &g);
        spell_book(&f, &first);
        spell_book(&g, &second);
        for (int combination = 0; combination < COMBINATIONS; combination++)
            compare_rooms_of_combination((enum combination)combination, &first, &second);
    }
}

// The rules that have the start for their head are copied, so that fewer than 200 come to about that many: all of them
// have it, or all but one in so many.
static void compare_copies_at_limits(void)
{
    struct family family;
    struct bytes book;
    plain_palette(&family.palette, 2, 3, 0);
    for (unsigned rules = 60; rules <= DV_MOST_RULES; rules++)
        for (unsigned in = 1; in <= 3; in++) {
            plain_family(&family, 2, rules);
            for (unsigned i = in - 1; i < rules && in > 1; i += in)
                family.rule[i].head = 0;
            spell_book(&family, &book);
            for (int combination = 0; combination < COMBINATIONS; combination++)
                compare_combination((enum combination)combination, &book, &book, ROOMY_OUT, NULL);
        }
}

KIND(limits)
{
    compare_books_at_limits();
    compare_numbers_past_counts();
    for (size_t press = DV_PRESS; press <= DV_WIDE_PRESS; press++) {
        compare_sheets_at_limits(press);
        compare_longest_sheet(press);
    }
    compare_combinations_at_limits();
    compare_copies_at_limits();
}

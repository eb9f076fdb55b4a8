// Books by chance tidied, most of them untidy, and combinations of them; what comes of it tidied again; with rooms
// exact, one short, one over and none; and damaged.
#include <string.h>

#include "../shared/chance.h"
#include "../shared/damage.h"
#include "../shared/grow.h"
#include "compare.h"

static void expect_same_sizes(const struct bytes *one, const struct bytes *other)
{
    uint32_t of_one[DV_WIDE_CARD_ENTRIES], of_other[DV_WIDE_CARD_ENTRIES];
    size_t press = some_press(), entries = dv_card_entries(press);
    if (compare_size_card(press, one, entries, of_one) != compare_size_card(press, other, entries, of_other) ||
        memcmp(of_one, of_other, entries * sizeof *of_one) != 0)
        wrong("the tidied book has other sizes");
}

static void compare_rooms(const struct bytes *book, size_t length)
{
    if (compare_tidy(book, length, NULL) != (uint64_t)length << 32 ||
        compare_tidy(book, length + 1, NULL) != (uint64_t)length << 32)
        wrong("a slice with room is refused");
    if (compare_tidy(book, length - 1, NULL) != DV_OUT_SHORT || compare_tidy(book, 0, NULL) != DV_OUT_SHORT)
        wrong("a slice that is too short is not refused");
}

// Tidies a book, and gives whether there is a tidied one.
static bool tidy(const struct bytes *book, struct bytes *tidied)
{
    struct bytes again;
    uint64_t answer = compare_tidy(book, ROOMY_OUT, tidied);
    if (answer == DV_NOT_REWRITTEN) {
        if (compare_tidy(book, 0, NULL) != DV_NOT_REWRITTEN)
            wrong("a start that cannot be rewritten is not told before a slice that is too short");
        return false;
    }
    if (dv_number(answer) != DV_ACCEPTED || compare_read_book(tidied) != DV_ACCEPTED)
        wrong("a book cannot be tidied");
    compare_rooms(book, tidied->length);
    if (compare_read_book(book) == DV_ACCEPTED)
        expect_same_sizes(book, tidied);
    if (compare_tidy(tidied, ROOMY_OUT, &again) != answer || memcmp(again.at, tidied->at, tidied->length) != 0)
        wrong("a tidied book is not left as it is");
    return true;
}

// A rule whose head is most often one of the motifs from a number on.
static void add_some_rule(struct family *family, unsigned from)
{
    unsigned head = chance_from(one_in(3) ? 0 : from, family->motifs - 1);
    if (one_in(3))
        add_rule(family, head, DV_KIND_COLOUR, chance_below(family->palette.count), 0);
    else
        add_rule(family, head, one_in(2) ? DV_KIND_ACROSS : DV_KIND_DOWN, chance_below(family->motifs),
                 chance_below(family->motifs));
}

static void shuffle_rules(struct family *family)
{
    for (unsigned i = family->rules; i-- > 1;) {
        unsigned at = chance_below(i + 1);
        struct rule rule = family->rule[i];
        family->rule[i] = family->rule[at];
        family->rule[at] = rule;
    }
}

// More motifs, of which many are reached by nothing, cannot be rewritten, or stand only beside one that cannot be; and
// rules that repeat.
static void litter(struct family *family)
{
    unsigned old = family->motifs, more = chance_below(DV_MOST_MOTIFS - old + 1);
    family->motifs += more;
    for (unsigned i = chance_below(2 * more + 2); i > 0 && family->rules < DV_MOST_RULES; i--)
        add_some_rule(family, old - 1);
    while (one_in(2))
        repeat_rule(family);
    shuffle_rules(family);
}

static void compare_book(const struct family *family, const struct bytes *book)
{
    struct bytes tidied, sheet;
    struct grid grid;
    if (!tidy(book, &tidied))
        return;
    for (unsigned i = 0; i < 3; i++) {
        size_t press = some_press();
        grow_grid(family, &grid, 4, 4);
        if (one_in(2))
            spoil_cell(&grid);
        spell_sheet(&grid, &sheet);
        uint64_t answer = compare_derive(press, book, &sheet, roomy_work(press), roomy_tree(press));
        uint64_t of_tidied = compare_derive(press, &tidied, &sheet, roomy_work(press), roomy_tree(press));
        if (dv_number(answer) != DV_RULE_TWICE && of_tidied != answer)
            wrong("a book and the tidied one differ on a sheet");
    }
}

static void compare_combined(const struct family *f, const struct family *g, const struct bytes *first,
                             const struct bytes *second)
{
    struct bytes made;
    enum combination combination = (enum combination)chance_below(COMBINATIONS);
    if (dv_number(compare_combination(combination, first, second, ROOMY_OUT, &made)) == DV_ACCEPTED)
        compare_book(one_in(2) ? f : g, &made);
}

KIND(tidy)
{
    struct family f, g;
    struct bytes first, second;
    for (unsigned i = 0; i < 3000; i++) {
        grow_some_family(&f);
        grow_some_family(&g);
        if (!one_in(8))
            litter(&f);
        spell_book(&f, &first);
        spell_book(&g, &second);
        compare_book(&f, &first);
        compare_combined(&f, &g, &first, &second);
        damage(&first);
        compare_tidy(&first, one_in(4) ? 0 : ROOMY_OUT, NULL);
    }
    for (unsigned i = 0; i < 12; i++) {
        grow_family(&f, DV_MOST_COLOURS, DV_MOST_MOTIFS, DV_MOST_RULES);
        spell_book(&f, &first);
        compare_book(&f, &first);
    }
}

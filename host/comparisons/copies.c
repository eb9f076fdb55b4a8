// Books in which a rule stands twice, in every call that reads a book: 18, and nothing written; tidied, they are read.
// And either-of at the limit of 200 rules, where both starts paint colours of the same name.
#include "../shared/chance.h"
#include "../shared/grow.h"
#include "compare.h"

// Whether an answer is 18, blames this input and stands at a place within the book.
static bool is_twice(uint64_t answer, unsigned blamed, const struct bytes *book)
{
    return dv_number(answer) == DV_RULE_TWICE && dv_blamed(answer) == blamed && dv_place(answer) < book->length &&
           dv_count(answer) == 0;
}

// The same answer of every call that reads it, whatever else is lent.
static void expect_refused(const struct bytes *book, const struct bytes *sheet)
{
    struct dv_node node = {0, 0};
    struct run run = {.length = 0};
    size_t press = some_press();
    uint64_t answer = compare_read_book(book);
    if (!is_twice(answer, 1, book))
        wrong("a book in which a rule stands twice is read");
    if (compare_derive(press, book, sheet, 0, 0) != answer || compare_why_not(press, book, sheet, 0) != answer ||
        compare_check_tree(press, book, sheet, &node, 1) != answer ||
        compare_size_card(press, book, 0, NULL) != answer ||
        compare_run_report(press, book, &run, 0, DV_REPORT_ENTRIES, NULL) != answer)
        wrong("a call does not tell first that a rule stands twice");
    if (compare_colour(book, 0) != 0 || compare_rule(book, 0) != 0)
        wrong("something is shown of a book in which a rule stands twice");
}

static void expect_not_combined(const struct bytes *book, const struct bytes *other)
{
    for (int combination = 0; combination < COMBINATIONS; combination++) {
        if (!is_twice(compare_combination((enum combination)combination, book, other, ROOMY_OUT, NULL), 1, book))
            wrong("a book in which a rule stands twice is combined");
        if (combination <= ABOVE &&
            !is_twice(compare_combination((enum combination)combination, other, book, ROOMY_OUT, NULL), 2, book))
            wrong("a second book in which a rule stands twice is combined");
    }
}

static void compare_copies(void)
{
    struct family family, another;
    struct grid grid;
    struct bytes book, other, sheet, tidied;
    for (unsigned i = 0; i < 2000; i++) {
        grow_some_family(&family);
        grow_some_family(&another);
        if (family.rules == DV_MOST_RULES)
            continue;
        grow_grid(&family, &grid, 3, 3);
        repeat_rule(&family);
        spell_book(&family, &book);
        spell_book(&another, &other);
        spell_sheet(&grid, &sheet);
        expect_refused(&book, &sheet);
        expect_not_combined(&book, &other);
        if (dv_number(compare_tidy(&book, ROOMY_OUT, &tidied)) == DV_ACCEPTED &&
            compare_read_book(&tidied) != DV_ACCEPTED)
            wrong("a tidied book is not read");
    }
}

// A start that paints so many colours of the list, from one on, and joins of another motif.
static void paint(struct family *family, unsigned motifs, unsigned from, unsigned colours, unsigned rules)
{
    family->motifs = motifs;
    family->start = 0;
    family->rules = 0;
    for (unsigned i = 0; i < colours; i++)
        add_rule(family, 0, DV_KIND_COLOUR, from + i, 0);
    while (family->rules < rules)
        add_new_rule(family, 1, one_in(2) ? DV_KIND_ACROSS : DV_KIND_DOWN, chance_below(motifs), chance_below(motifs));
}

// Of both lists some colours are the same, so that as many copies are left out.
static void compare_either_at_limit(void)
{
    struct family f, g;
    struct bytes first, second, made;
    for (unsigned i = 0; i < 400; i++) {
        unsigned own = chance_from(1, 8), others = chance_from(1, 8), rules = chance_from(198, 203);
        unsigned of_f = chance_from(60, 110), of_g = rules - of_f - own - others;
        grow_palette(&f.palette, 16);
        g.palette = f.palette;
        for (unsigned k = 0; k < 16; k++)
            g.palette.ink[k] = f.palette.ink[15 - k];
        paint(&f, 15, 0, own, of_f);
        paint(&g, 16, chance_from(8, 16 - others), others, of_g);
        spell_book(&f, &first);
        spell_book(&g, &second);
        if (dv_number(compare_combination(EITHER_OF, &first, &second, ROOMY_OUT, &made)) == DV_ACCEPTED &&
            compare_read_book(&made) != DV_ACCEPTED)
            wrong("either of two books is not read");
        compare_rooms_of_combination(EITHER_OF, &first, &second);
    }
}

KIND(copies)
{
    compare_copies();
    compare_either_at_limit();
}

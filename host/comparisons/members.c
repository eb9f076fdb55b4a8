// What each combination holds: for small families, all sheets up to 3 by 3 in two colours under the book that it
// writes, against their membership in the families that it is made of; and the size cards against all these sheets.
#include <string.h>

#include "../shared/chance.h"
#include "../shared/grow.h"
#include "small.h"

enum { SIDE = 3, FAMILIES = 20 };

struct members {
    bool has[SIDE + 1][SIDE + 1][1 << SIDE * SIDE];
};

static bool has(const struct members *members, struct small sheet)
{
    return members->has[sheet.rows][sheet.columns][sheet.cells];
}

static bool joins(const struct members *f, const struct members *g, struct small sheet, bool across)
{
    for (unsigned k = 1; k < (across ? sheet.columns : sheet.rows); k++)
        if (has(f, first_part(sheet, across, k)) && has(g, rest(sheet, across, k)))
            return true;
    return false;
}

static bool repeats(const struct members *f, struct small sheet, bool across)
{
    for (unsigned k = 1; k < (across ? sheet.columns : sheet.rows); k++)
        if (has(f, first_part(sheet, across, k)) && repeats(f, rest(sheet, across, k), across))
            return true;
    return has(f, sheet);
}

static bool holds(enum combination combination, const struct members *f, const struct members *g, struct small sheet)
{
    switch (combination) {
    case EITHER_OF:
        return has(f, sheet) || has(g, sheet);
    case BESIDE:
    case ABOVE:
        return joins(f, g, sheet, combination == BESIDE);
    case RUN:
    case STACK:
        return repeats(f, sheet, combination == RUN);
    default:
        return has(f, turned(sheet, combination));
    }
}

static bool derived(const struct bytes *book, struct small sheet)
{
    struct grid grid = {.rows = sheet.rows, .columns = sheet.columns};
    struct bytes bytes;
    size_t press = some_press();
    add_ink(&grid.palette, "a");
    add_ink(&grid.palette, "b");
    for (unsigned i = 0; i < sheet.rows * sheet.columns; i++)
        grid.cell[i] = sheet.cells >> i & 1;
    spell_sheet(&grid, &bytes);
    return compare_derive(press, book, &bytes, dv_work_entries(SIDE, SIDE), dv_tree_entries(SIDE, SIDE)) == DV_ACCEPTED;
}

// The sheets that a book derives, and how many they are.
static unsigned members_of(const struct bytes *book, struct members *members)
{
    unsigned count = 0;
    struct small sheet;
    for (sheet.rows = 1; sheet.rows <= SIDE; sheet.rows++)
        for (sheet.columns = 1; sheet.columns <= SIDE; sheet.columns++)
            for (sheet.cells = 0; sheet.cells < 1u << sheet.rows * sheet.columns; sheet.cells++) {
                bool in = derived(book, sheet);
                members->has[sheet.rows][sheet.columns][sheet.cells] = in;
                count += in;
            }
    return count;
}

// A size is on the card exactly when one of its sheets is a member.
static void expect_card(const struct bytes *book, const struct members *members)
{
    size_t press = some_press();
    uint32_t card[DV_WIDE_CARD_ENTRIES];
    struct small sheet;
    compare_size_card(press, book, dv_card_entries(press), card);
    for (sheet.rows = 1; sheet.rows <= SIDE; sheet.rows++)
        for (sheet.columns = 1; sheet.columns <= SIDE; sheet.columns++) {
            bool found = false;
            for (sheet.cells = 0; sheet.cells < 1u << sheet.rows * sheet.columns; sheet.cells++)
                found = found || has(members, sheet);
            if (dv_has_size(card, sheet.rows, sheet.columns) != found)
                wrong("the card has other sizes than the sheets");
        }
}

static void expect_members(enum combination combination, const struct bytes *made, const struct members *f,
                           const struct members *g)
{
    static struct members members;
    struct small sheet;
    for (sheet.rows = 1; sheet.rows <= SIDE; sheet.rows++)
        for (sheet.columns = 1; sheet.columns <= SIDE; sheet.columns++)
            for (sheet.cells = 0; sheet.cells < 1u << sheet.rows * sheet.columns; sheet.cells++) {
                bool in = derived(made, sheet);
                members.has[sheet.rows][sheet.columns][sheet.cells] = in;
                if (in != holds(combination, f, g, sheet))
                    wrong("the book that a combination wrote has other sheets than the combination");
            }
    expect_card(made, &members);
}

// A family of two colours, listed either way round, that has more than a few sheets and not all.
static void grow_small(struct bytes *book, struct members *members)
{
    struct family family;
    unsigned count;
    do {
        grow_family(&family, 2, chance_from(1, 4), chance_from(3, 12));
        family.palette.count = 0;
        bool turned_round = one_in(2);
        add_ink(&family.palette, turned_round ? "b" : "a");
        add_ink(&family.palette, turned_round ? "a" : "b");
        spell_book(&family, book);
        count = members_of(book, members);
        expect_card(book, members);
    } while (count < 6 || count > 650);
}

static void expect_back(enum combination combination, const struct bytes *book, const struct bytes *made)
{
    struct bytes back;
    if (compare_combination(combination, made, NULL, ROOMY_OUT, &back) >> 32 != book->length ||
        memcmp(back.at, book->at, book->length) != 0)
        wrong("twice does not give the book back");
}

KIND(members)
{
    static struct members f, g;
    struct bytes first, second, made;
    grow_small(&second, &g);
    for (unsigned i = 0; i < FAMILIES; i++) {
        grow_small(&first, &f);
        for (int number = 0; number < COMBINATIONS; number++) {
            enum combination combination = (enum combination)number;
            if (dv_number(compare_combination(combination, &first, &second, ROOMY_OUT, &made)) != DV_ACCEPTED)
                wrong("a combination of small families is refused");
            expect_members(combination, &made, &f, &g);
            if (combination >= MIRRORED)
                expect_back(combination, &first, &made);
        }
        second = first;
        g = f;
    }
}

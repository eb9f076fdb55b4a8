// Size cards of books by chance, with slices of exactly the entries needed, one less, one more and none.
#include "../shared/chance.h"
#include "../shared/grow.h"
#include "compare.h"

// The number of sizes is that of the set bits, and no bit stands beyond the columns.
static void expect_count(size_t press, uint64_t answer, const uint32_t *card)
{
    size_t count = 0;
    for (size_t rows = 1; rows <= dv_most_rows(press); rows++) {
        for (size_t columns = 1; columns <= dv_most_columns(press); columns++)
            count += (size_t)dv_has_size(card, rows, columns);
        if (card[rows - 1] >> dv_most_columns(press) != 0)
            wrong("the card has more columns than a sheet");
    }
    if (answer != (uint64_t)count << 32)
        wrong("the number of sizes is not that of the set bits");
}

static void compare_card(size_t press, const struct family *family)
{
    struct bytes book;
    struct grid grid;
    uint32_t card[DV_WIDE_CARD_ENTRIES];
    spell_book(family, &book);
    expect_count(press, compare_size_card(press, &book, dv_card_entries(press), card), card);
    compare_size_card(press, &book, dv_card_entries(press) + 1, NULL);
    if (compare_size_card(press, &book, dv_card_entries(press) - 1, NULL) != DV_OUT_SHORT ||
        compare_size_card(press, &book, 0, NULL) != DV_OUT_SHORT)
        wrong("a card slice that is too short is not refused");
    if (grow_grid(family, &grid, dv_most_rows(press), dv_most_columns(press)) &&
        !dv_has_size(card, grid.rows, grid.columns))
        wrong("the card lacks the size of a sheet grown from the rules");
}

KIND(cards)
{
    struct family family;
    for (unsigned i = 0; i < 4000; i++) {
        grow_some_family(&family);
        compare_card(some_press(), &family);
    }
    for (unsigned i = 0; i < 12; i++) {
        grow_family(&family, DV_MOST_COLOURS, DV_MOST_MOTIFS, DV_MOST_RULES);
        compare_card(some_press(), &family);
    }
}

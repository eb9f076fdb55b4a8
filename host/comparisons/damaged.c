// Books and sheets with damaged bytes.
#include "../shared/chance.h"
#include "../shared/damage.h"
#include "../shared/grow.h"
#include "../shared/soon.h"
#include "compare.h"

static void compare_some_tree(size_t press, const struct bytes *book, const struct bytes *sheet)
{
    struct dv_node nodes[8];
    for (size_t i = 0; i < 8; i++)
        nodes[i] = (struct dv_node){(uint16_t)chance_below(6), (uint16_t)chance_below(3)};
    compare_check_tree(press, book, sheet, nodes, chance_below(9));
}

static void compare_as_book(const struct bytes *book, const struct bytes *sheet, const struct bytes *other)
{
    size_t press = some_press();
    compare_read_book(book);
    compare_counts(book);
    compare_colour(book, chance_below(4));
    compare_rule(book, chance_below(8));
    compare_derive(press, book, sheet, one_in(4) ? 0 : roomy_work(press), one_in(4) ? 0 : roomy_tree(press));
    compare_size_card(press, book, one_in(4) ? 0 : dv_card_entries(press), NULL);
    compare_why_not(press, book, sheet, one_in(4) ? 0 : roomy_work(press));
    compare_some_tree(press, book, sheet);
    if (soon_searched(press, book, sheet))
        compare_plain(press, book, sheet);
    compare_tidy(book, one_in(4) ? 0 : ROOMY_OUT, NULL);
    enum combination combination = (enum combination)chance_below(COMBINATIONS);
    if (one_in(2))
        compare_combination(combination, book, other, one_in(4) ? 0 : ROOMY_OUT, NULL);
    else
        compare_combination(combination, other, book, one_in(4) ? 0 : ROOMY_OUT, NULL);
}

static void compare_as_sheet(size_t press, const struct bytes *book, const struct bytes *sheet)
{
    compare_read_sheet(press, sheet);
    compare_sheet_size(press, sheet);
    compare_cell(press, sheet, chance_below(4), chance_below(4));
    compare_sheet_colour(press, sheet, chance_below(4));
    compare_derive(press, book, sheet, one_in(4) ? 0 : roomy_work(press), one_in(4) ? 0 : roomy_tree(press));
    compare_why_not(press, book, sheet, one_in(4) ? 0 : roomy_work(press));
    compare_some_tree(press, book, sheet);
    if (soon_searched(press, book, sheet))
        compare_plain(press, book, sheet);
}

// Every byte as every other, every beginning, every byte dropped or doubled, and bytes that follow the end.
static void damage_throughout(const struct bytes *good, void (*compare_it)(const struct bytes *damaged))
{
    struct bytes bytes;
    for (size_t at = 0; at < good->length; at++) {
        bytes = *good;
        for (unsigned byte = 0; byte < 256; byte++) {
            bytes.at[at] = (uint8_t)byte;
            compare_it(&bytes);
        }
        bytes = *good;
        bytes.length = at;
        compare_it(&bytes);
        bytes = *good;
        drop_byte(&bytes, at);
        compare_it(&bytes);
        bytes = *good;
        insert_byte(&bytes, at, good->at[at]);
        compare_it(&bytes);
        for (unsigned high = 0; high < 256; high += 1 + high / 2) {
            bytes = *good;
            bytes.at[at] |= 128;
            insert_byte(&bytes, at + 1, (uint8_t)high);
            compare_it(&bytes);
            insert_byte(&bytes, at + 1, (uint8_t)(128 + chance_below(128)));
            compare_it(&bytes);
        }
    }
    for (unsigned byte = 0; byte < 256; byte += 5) {
        bytes = *good;
        insert_byte(&bytes, good->length, (uint8_t)byte);
        compare_it(&bytes);
    }
}

static struct bytes good_book, good_sheet;

static void compare_damaged_book(const struct bytes *book)
{
    compare_as_book(book, &good_sheet, &good_book);
}

static void compare_damaged_sheet(const struct bytes *sheet)
{
    for (size_t press = DV_PRESS; press <= DV_WIDE_PRESS; press++)
        compare_as_sheet(press, &good_book, sheet);
}

static void damage_by_chance(void)
{
    struct family family;
    struct grid grid;
    struct bytes book, sheet;
    grow_some_family(&family);
    grow_grid(&family, &grid, 4, 4);
    relist(&grid);
    spell_book(&family, &good_book);
    spell_sheet(&grid, &good_sheet);
    book = good_book;
    sheet = good_sheet;
    damage(&book);
    damage(&sheet);
    compare_as_book(&book, one_in(2) ? &sheet : &good_sheet, &good_book);
    compare_as_sheet(some_press(), &good_book, &sheet);
    if (book.length > 0)
        damage(&book);
    compare_as_book(&book, &good_sheet, &book);
}

// Bytes that are no book at all, and lists that name a colour twice.
static void compare_wild(void)
{
    struct bytes bytes = {chance_below(60), {0}};
    for (size_t i = 0; i < bytes.length; i++)
        bytes.at[i] = one_in(8) ? (uint8_t)chance_bits() : (uint8_t)chance_below(4);
    compare_as_book(&bytes, &bytes, &good_book);
    compare_as_sheet(some_press(), &good_book, &bytes);
    struct family family;
    grow_family(&family, chance_from(2, 20), 2, 3);
    unsigned count = family.palette.count;
    family.palette.ink[chance_from(1, count - 1)] = family.palette.ink[chance_below(count)];
    spell_book(&family, &bytes);
    compare_as_book(&bytes, &good_sheet, &good_book);
    compare_as_sheet(some_press(), &good_book, &bytes);
}

KIND(damaged)
{
    struct family family;
    struct grid grid;
    grow_family(&family, 2, 3, 5);
    grow_grid(&family, &grid, 3, 3);
    spell_book(&family, &good_book);
    spell_sheet(&grid, &good_sheet);
    damage_throughout(&good_book, compare_damaged_book);
    damage_throughout(&good_sheet, compare_damaged_sheet);
    for (unsigned i = 0; i < 4000; i++) {
        damage_by_chance();
        compare_wild();
    }
}

// The house example of docs/RULES.md, P1 to P12, on each engine by itself and on each press: here the outcomes are the
// page's own.
#include <stdio.h>
#include <stdlib.h>
#include <string.h>

#include "compare.h"

#define SLATES 2, 7, 'S', 'l', 'a', 't', 'e', ' ', 'C', 7, 'S', 'l', 'a', 't', 'e', ' ', 'U'
#define SLATES_TURNED 2, 7, 'S', 'l', 'a', 't', 'e', ' ', 'U', 7, 'S', 'l', 'a', 't', 'e', ' ', 'C'
#define SLATE_ALONE 2, 5, 'S', 'l', 'a', 't', 'e', 7, 'S', 'l', 'a', 't', 'e', ' ', 'U'
#define HOUSE_RULES 0, 1, 0, 0, 0, 2, 1, 2, 1, 0, 0, 2, 0, 1
#define HOUSE_RULES_RAISED 3, 1, 3, 3, 3, 2, 4, 5, 4, 0, 0, 5, 0, 1
#define BYTES(...) {sizeof((uint8_t[]){__VA_ARGS__}), {__VA_ARGS__}}

static const struct bytes house = BYTES(SLATES, 3, 0, 4, HOUSE_RULES);
static const struct bytes sheet_a = BYTES(SLATES, 0, 2, 3, 0, 0, 0, 1, 1, 1);
static const struct bytes sheet_a_turned = BYTES(SLATES_TURNED, 0, 2, 3, 1, 1, 1, 0, 0, 0);
static const struct bytes sheet_a_slate = BYTES(SLATE_ALONE, 0, 2, 3, 0, 0, 0, 1, 1, 1);
static const struct bytes one_cell = BYTES(SLATES, 0, 1, 1, 0);
static const struct bytes upright = BYTES(SLATES, 0, 2, 1, 0, 1);
static const struct bytes lying = BYTES(SLATES, 0, 1, 2, 0, 1);
static const struct bytes sheet_a_spoilt = BYTES(SLATES, 0, 2, 3, 0, 0, 0, 1, 0, 1);
static const struct bytes upside_down = BYTES(SLATES, 0, 2, 3, 1, 1, 1, 0, 0, 0);

static const uint32_t table_a[18] = {2, 2, 2, 4, 4, 4, 0, 0, 0, 0, 0, 0, 1, 1, 1, 1, 1, 1};
static const uint16_t tree_a[22] = {0, 1, 1, 1, 2, 0, 3, 0, 0, 1, 1, 1, 2, 0, 3, 0, 1, 1, 2, 0, 3, 0};
static const uint16_t tree_upright[6] = {1, 1, 2, 0, 3, 0};

static const struct bytes house_transposed = BYTES(SLATES, 3, 0, 4, 0, 2, 0, 0, 0, 1, 1, 2, 1, 0, 0, 2, 0, 1);
static const struct bytes house_beside = BYTES(SLATES, 7, 6, 9, HOUSE_RULES, HOUSE_RULES_RAISED, 6, 1, 0, 3);
static const struct bytes house_run = BYTES(SLATES, 4, 3, 7, HOUSE_RULES, 3, 1, 0, 0, 3, 2, 1, 2, 3, 1, 0, 3);
static const struct bytes house_either = BYTES(SLATES, 7, 6, 12, HOUSE_RULES, HOUSE_RULES_RAISED, 6, 1, 0, 0, 6, 2, 1,
                                               2, 6, 1, 3, 3, 6, 2, 4, 5);

// A book of four motifs and one rule, and a sheet of three rows and one column for job 4.
static const struct bytes book_and_sheet = BYTES(2, 1, 'a', 1, 'b', 4, 3, 1, 0, 0, 0);

static const struct engine *judged;
static size_t press;

static void expect(bool holds, const char *what)
{
    if (holds)
        return;
    fprintf(stderr, "compare: the %s engine does not keep the house example on press %zu: %s\n", judged->name, press,
            what);
    exit(1);
}

static uint64_t derive(const struct bytes *book, const struct bytes *sheet, uint32_t *work, uint16_t *tree)
{
    return judged->derive(press, book->at, book->length, sheet->at, sheet->length, work, DV_WIDE_MOST_WORK, tree,
                          DV_WIDE_MOST_TREE);
}

// Whether a combination of the house book, with itself where it takes two, is this book.
static bool makes(enum combination combination, const struct bytes *made)
{
    uint8_t out[DV_LONGEST_BOOK];
    uint64_t answer = combine(judged, combination, house.at, house.length, house.at, house.length, out, sizeof out);
    return answer == (uint64_t)made->length << 32 && memcmp(out, made->at, made->length) == 0;
}

// An answer that carries so many trials.
static uint64_t tried(unsigned number, uint64_t trials) { return number | trials << 32; }

// Sheet A takes 12 trials of the across rule and 6 of the down rule, and a sheet of two cells one of its direction's.
static void expect_sheets(void)
{
    static uint32_t work[DV_WIDE_MOST_WORK];
    static uint16_t tree[DV_WIDE_MOST_TREE];
    expect(house.length == 34 && judged->read_book(house.at, house.length) == 0, "the house book");
    expect(derive(&house, &sheet_a, work, tree) == tried(0, 18) && memcmp(tree, tree_a, sizeof tree_a) == 0, "P1");
    expect(memcmp(work, table_a, sizeof table_a) == 0, "P2");
    memset(tree, 0xff, sizeof tree);
    expect(derive(&house, &sheet_a_turned, work, tree) == tried(0, 18) && memcmp(tree, tree_a, sizeof tree_a) == 0,
           "P3");
    expect(derive(&house, &sheet_a_slate, work, tree) == tried(11, 18), "P4");
    expect(derive(&house, &one_cell, work, tree) == 11, "P5");
    expect(derive(&house, &upright, work, tree) == tried(0, 1) &&
               memcmp(tree, tree_upright, sizeof tree_upright) == 0,
           "P6");
    expect(derive(&house_transposed, &lying, work, tree) == tried(0, 1) &&
               derive(&house_transposed, &sheet_a, work, tree) == tried(11, 18),
           "P9, the sheets");
    expect(derive(&house_beside, &upright, work, tree) == tried(11, 2), "P10, the sheet");
}

static void expect_books(void)
{
    static const uint8_t misspelt[] = {128, 0};
    // Rules of motif 0, each with two other motifs.
    struct bytes rules_200 = BYTES(1, 1, 'a', 15, 0, 200, 1);
    for (uint8_t i = 0; i < 200; i++) {
        const uint8_t rule[] = {0, 1, i / 15, i % 15};
        memcpy(rules_200.at + rules_200.length, rule, sizeof rule);
        rules_200.length += sizeof rule;
    }
    expect(judged->read_book(misspelt, sizeof misspelt) == (2 | 1 << 8), "P7");
    expect(judged->read_book(rules_200.at, rules_200.length) == 0, "P8");
    expect(makes(TRANSPOSED, &house_transposed), "P9, the book");
    expect(house_beside.length == 52 && makes(BESIDE, &house_beside), "P10, the book");
    expect(makes(RUN, &house_run), "P11");
    expect(makes(EITHER_OF, &house_either), "P12");
}

// The rows of a sheet by turns of either colour, as a stack of the family's sheets has them.
static void striped(struct grid *grid, unsigned rows, unsigned columns)
{
    *grid = (struct grid){.rows = rows, .columns = columns};
    add_ink(&grid->palette, "Slate C");
    add_ink(&grid->palette, "Slate U");
    for (unsigned i = 0; i < rows * columns; i++)
        grid->cell[i] = i / columns % 2;
}

static uint64_t derive_grid(const struct bytes *book, const struct grid *grid)
{
    static uint32_t work[DV_WIDE_MOST_WORK];
    static uint16_t tree[DV_WIDE_MOST_TREE];
    struct bytes sheet;
    spell_sheet(grid, &sheet);
    return derive(book, &sheet, work, tree);
}

// The most columns of a press, and one more; the most rows, by a stack of sheets, and one more; and a wrong cell in the
// largest sheet.
static void expect_sides(void)
{
    unsigned rows = dv_most_rows(press), columns = dv_most_columns(press);
    struct bytes stacked;
    struct grid grid;
    stacked.length = judged->of_one[STACK - RUN](house.at, house.length, stacked.at, DV_LONGEST_BOOK) >> 32;
    striped(&grid, 2, columns);
    expect(derive_grid(&house, &grid) == tried(0, dv_trials(1, 1, 2, columns)), "the most columns");
    striped(&grid, 2, columns + 1);
    expect(derive_grid(&house, &grid) == (3 | 2 << 8 | 19 << 12), "one column more");
    striped(&grid, rows + 1, 1);
    expect(derive_grid(&stacked, &grid) == (3 | 2 << 8 | 18 << 12), "one row more");
    striped(&grid, rows, columns);
    expect(dv_number(derive_grid(&stacked, &grid)) == 0, "the largest sheet");
    grid.cell[rows / 2 * columns + columns / 2] ^= 1;
    expect(dv_number(derive_grid(&stacked, &grid)) == 11, "the largest sheet with a wrong cell");
}

// Whether the size card of a book is this one, with so many sizes.
static bool has_card(const struct bytes *book, const uint32_t *expected, uint64_t sizes)
{
    uint32_t card[DV_WIDE_CARD_ENTRIES];
    size_t entries = dv_card_entries(press);
    return judged->size_card(press, book->at, book->length, card, entries) == sizes << 32 &&
           memcmp(card, expected, entries * sizeof *card) == 0;
}

// The house book has two rows and any columns; two of it side by side have at least two.
static void expect_cards(void)
{
    const uint32_t all = press == DV_PRESS ? 0xfff : 0xffffff;
    const uint32_t of_house[DV_WIDE_CARD_ENTRIES] = {0, all}, of_two[DV_WIDE_CARD_ENTRIES] = {0, all - 1};
    static const uint32_t transposed[DV_WIDE_CARD_ENTRIES] = {2, 2, 2, 2, 2, 2, 2, 2, 2, 2, 2, 2,
                                                              2, 2, 2, 2, 2, 2, 2, 2, 2, 2, 2, 2};
    expect(has_card(&house, of_house, dv_most_columns(press)), "its size card");
    expect(has_card(&house_beside, of_two, dv_most_columns(press) - 1), "the size card of two side by side");
    expect(has_card(&house_transposed, transposed, dv_most_rows(press)), "the size card transposed");
}

static uint64_t why_not(const struct bytes *sheet, uint32_t *work)
{
    return judged->why_not(press, house.at, house.length, sheet->at, sheet->length, work, DV_WIDE_MOST_WORK);
}

// The upper left cell has a colour that the house book lacks; there is no sheet of one cell; a wrong cell in the middle
// leaves the first column whole; and upside down no piece is right.
static void expect_reasons(void)
{
    static uint32_t work[DV_WIDE_MOST_WORK];
    expect(why_not(&sheet_a, work) == 15 && memcmp(work, table_a, sizeof table_a) == 0, "sheet A in the family");
    expect(why_not(&sheet_a_slate, work) == UINT64_C(1) << 32, "the colour that no rule names");
    expect(why_not(&one_cell, work) == UINT64_C(2) << 32 && work[0] == 2, "the size that it has not");
    expect(why_not(&sheet_a_spoilt, work) == (3 | 2 << 13 | UINT64_C(1) << 18) << 32, "the largest piece");
    expect(why_not(&upside_down, work) == UINT64_C(4) << 32, "no piece");
}

// Sheet A for job 7, the sheet of P4, one with no bytes, and that of P6 for job 3.
static void expect_report(void)
{
    static const struct bytes run = BYTES(26, SLATES, 7, 2, 3, 0, 0, 0, 1, 1, 1, 24, SLATE_ALONE, 0, 2, 3, 0, 0, 0, 1,
                                          1, 1, 0, 22, SLATES, 3, 2, 1, 0, 1);
    static const uint32_t expected[DV_REPORT_ENTRIES] = {
        [DV_FIGURE_SHEETS] = 4,      [DV_FIGURE_ANSWERED] = 2, [DV_FIGURE_ANSWERED + 1] = 1,
        [DV_FIGURE_NOT_DERIVED] = 1, [DV_FIGURE_CELLS] = 4,    [DV_FIGURE_CELLS + 1] = 4,
        [DV_FIGURE_ACCEPTED] = 1,    [DV_FIGURE_LEAST] = 3,    [DV_FIGURE_GREATEST] = 7};
    static uint32_t work[DV_WIDE_MOST_WORK];
    uint32_t figures[DV_REPORT_ENTRIES];
    expect(judged->run_report(press, house.at, house.length, run.at, run.length, work, dv_most_work(press), figures,
                              DV_REPORT_ENTRIES) == 0 &&
               memcmp(figures, expected, sizeof figures) == 0,
           "the report of a run");
}

static uint64_t check_tree(const struct dv_node *nodes, size_t count)
{
    return judged->check_tree(press, house.at, house.length, sheet_a.at, sheet_a.length, nodes, count);
}

// Its own tree, one with another cut, a node that fails in the middle, one node short and one over, and none.
static void expect_trees(void)
{
    struct dv_node nodes[12] = {{0, 1}, {1, 1}, {2, 0}, {3, 0}, {0, 1}, {1, 1}, {2, 0}, {3, 0}, {1, 1}, {2, 0}, {3, 0}};
    static const struct dv_node other[] = {{0, 2}, {0, 1}, {1, 1}, {2, 0}, {3, 0}, {1, 1},
                                           {2, 0}, {3, 0}, {1, 1}, {2, 0}, {3, 0}};
    expect(check_tree(nodes, 11) == 0 && check_tree(other, 11) == 0, "two trees of sheet A");
    expect(check_tree(nodes, 10) == (16 | 10 << 12), "one node short");
    expect(check_tree(nodes, 12) == (16 | 11 << 12), "one node over");
    expect(check_tree(nodes, 0) == 16, "no nodes");
    nodes[4].cut = 2;
    expect(check_tree(nodes, 11) == (16 | 4 << 12), "a cut that leaves a part empty");
}

static uint64_t plain(const struct bytes *sheet)
{
    return judged->plain(press, house.at, house.length, sheet->at, sheet->length);
}

// 16 cells are taken, and more are not, but for a sheet that is refused: only the wide press takes 16 columns.
static void expect_plain(void)
{
    static const struct bytes sixteen = BYTES(SLATES, 0, 2, 8, 0, 0, 0, 0, 0, 0, 0, 0, 1, 1, 1, 1, 1, 1, 1, 1);
    static const struct bytes square = BYTES(SLATES, 0, 4, 4, 0, 0, 0, 0, 0, 0, 0, 0, 1, 1, 1, 1, 1, 1, 1, 1);
    static const struct bytes eighteen = BYTES(SLATES, 0, 2, 9, 0, 0, 0, 0, 0, 0, 0, 0, 0, 1, 1, 1, 1, 1, 1, 1, 1, 1);
    static const struct bytes row_of_16 = BYTES(SLATES, 0, 1, 16, 0, 0, 0, 0, 0, 0, 0, 0, 0, 0, 0, 0, 0, 0, 0, 0);
    static const struct bytes row_of_17 = BYTES(SLATES, 0, 1, 17, 0, 0, 0, 0, 0, 0, 0, 0, 0, 0, 0, 0, 0, 0, 0, 0, 0);
    const uint64_t refused = 3 | 2 << 8 | 19 << 12;
    expect(plain(&sheet_a) == 0 && plain(&sixteen) == 0, "sheet A and 2 by 8 are in the family");
    expect(plain(&square) == 11, "4 by 4 is not");
    expect(plain(&eighteen) == 20, "18 cells are too many");
    expect(plain(&row_of_16) == (press == DV_PRESS ? refused : 11), "16 columns");
    expect(plain(&row_of_17) == (press == DV_PRESS ? refused : 20), "17 columns");
}

// A book of 32 motifs, each of them two of the next, and the last a cell; its rules from the last to the first, so that
// the motifs are reached one by one.
static const struct bytes chain = BYTES(
    SLATES, 32, 0, 32, 31, 0, 0, 30, 1, 31, 31, 29, 1, 30, 30, 28, 1, 29, 29, 27, 1, 28, 28, 26, 1, 27, 27, 25, 1, 26,
    26, 24, 1, 25, 25, 23, 1, 24, 24, 22, 1, 23, 23, 21, 1, 22, 22, 20, 1, 21, 21, 19, 1, 20, 20, 18, 1, 19, 19, 17, 1,
    18, 18, 16, 1, 17, 17, 15, 1, 16, 16, 14, 1, 15, 15, 13, 1, 14, 14, 12, 1, 13, 13, 11, 1, 12, 12, 10, 1, 11, 11, 9,
    1, 10, 10, 8, 1, 9, 9, 7, 1, 8, 8, 6, 1, 7, 7, 5, 1, 6, 6, 4, 1, 5, 5, 3, 1, 4, 4, 2, 1, 3, 3, 1, 1, 2, 2, 0, 1, 1,
    1);

// Nothing reaches motif 1, motif 2 cannot be rewritten, motif 3 stands beside motif 2 only, and a rule stands twice.
static const struct bytes untidy = BYTES(SLATES, 6, 5, 9, 5, 1, 4, 0, 0, 0, 1, 1, 1, 4, 0, 5, 2, 2, 3, 3, 0, 0, 4, 0, 0,
                                         5, 1, 4, 0, 2, 1, 2, 0, 4, 0, 1);
static const struct bytes neat = BYTES(SLATES, 3, 2, 4, 2, 1, 1, 0, 0, 0, 1, 1, 0, 0, 1, 0, 1);
static const struct bytes endless = BYTES(SLATES, 2, 0, 2, 0, 1, 0, 1, 1, 0, 0);

// Whether a book is tidied to this one, in a slice that is just long enough.
static bool tidies(const struct bytes *book, const struct bytes *tidied)
{
    uint8_t out[DV_LONGEST_BOOK];
    return judged->tidy(book->at, book->length, out, tidied->length) == (uint64_t)tidied->length << 32 &&
           memcmp(out, tidied->at, tidied->length) == 0;
}

static void expect_tidy(void)
{
    uint8_t out[DV_LONGEST_BOOK];
    expect(tidies(&house, &house), "it is tidy");
    expect(judged->tidy(house.at, house.length, out, house.length - 1) == 13, "one byte short");
    expect(tidies(&house_beside, &house_beside) && tidies(&house_run, &house_run) &&
               tidies(&house_either, &house_either),
           "its combinations are tidy");
    expect(tidies(&chain, &chain), "motifs that are reached one by one");
    expect(tidies(&untidy, &neat) && tidies(&neat, &neat), "what is not kept");
    expect(judged->tidy(endless.at, endless.length, out, 0) == 17, "a start that cannot be rewritten");
}

static void expect_lookups(void)
{
    static const uint64_t rules[] = {UINT64_C(0x100000100), UINT64_C(0x102010200), UINT64_C(0x100000001),
                                     UINT64_C(0x100010002), 0};
    expect(judged->colour(house.at, house.length, 1) == (10 | UINT64_C(7) << 32), "the name Slate U");
    for (size_t i = 0; i < sizeof rules / sizeof *rules; i++)
        expect(judged->rule(house.at, house.length, i) == rules[i], "the four rules");
    expect(judged->sheet_size(press, sheet_a.at, sheet_a.length) == (2 | UINT64_C(3) << 32),
           "two rows and three columns");
}

// Bytes that are a book and a sheet alike, no bytes, and slices that are just long enough or one short.
static void compare_house(void)
{
    static const struct bytes empty = {0, {0}};
    size_t columns = dv_most_columns(press);
    if (compare_read_book(&book_and_sheet) != 0 || compare_read_sheet(press, &book_and_sheet) != UINT64_C(4) << 32)
        wrong("bytes that are a book and a sheet alike are refused");
    if (compare_read_book(&empty) != (1 | 1 << 8) || compare_read_sheet(press, &empty) != (1 | 1 << 8))
        wrong("empty input is not refused with 1 at 0");
    if (compare_derive(press, &house, &sheet_a, 18, 22) != 0 || compare_derive(press, &house, &sheet_a, 17, 22) != 9 ||
        compare_derive(press, &house, &sheet_a, 18, 21) != 10)
        wrong("sheet A wants a work slice of 18 and a tree slice of 22");
    if (compare_why_not(press, &house, &sheet_a, 18) != 15 || compare_why_not(press, &house, &sheet_a, 17) != 9)
        wrong("sheet A wants a work slice of 18");
    if (compare_size_card(press, &house, columns, NULL) != (uint64_t)columns << 32 ||
        compare_size_card(press, &house, columns - 1, NULL) != 13)
        wrong("a card wants a slice of as many entries as a sheet has rows");
}

KIND(house)
{
    static const struct engine *const engines[] = {&independent, &library};
    for (int i = 0; i < 2; i++) {
        judged = engines[i];
        expect_books();
        expect_tidy();
        for (press = DV_PRESS; press <= DV_WIDE_PRESS; press++) {
            expect_sheets();
            expect_sides();
            expect_cards();
            expect_reasons();
            expect_report();
            expect_trees();
            expect_plain();
            expect_lookups();
        }
    }
    for (press = DV_PRESS; press <= DV_WIDE_PRESS; press++)
        compare_house();
}

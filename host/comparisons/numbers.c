// Numbers of one to three groups in every place of a book and a sheet where a number stands, well spelt and misspelt,
// with the input cut after each byte. What is due is plain to see, so the answers are held to that as well.
#include "../shared/chance.h"
#include "../shared/damage.h"
#include "../shared/grow.h"
#include "compare.h"

// A spelling, and the number that it spells; 0 where it is misspelt.
struct spelling {
    unsigned length;
    uint8_t byte[3];
    unsigned number;
};

static const struct spelling spellings[] = {
    {1, {12}, 12},
    {1, {13}, 13},
    {1, {24}, 24},
    {1, {25}, 25},
    {1, {127}, 127},
    {2, {128, 1}, 128},
    {2, {200, 1}, 200},
    {2, {255, 127}, 16383},
    {3, {128, 128, 1}, 16384},
    {3, {255, 128, 1}, 16511},
    {3, {255, 255, 1}, 32767},
    {3, {128, 129, 1}, 16512},
    {3, {255, 255, 127}, DV_GREATEST_TICKET},
    {2, {128, 0}, 0},
    {2, {255, 0}, 0},
    {3, {128, 128, 0}, 0},
    {3, {255, 255, 0}, 0},
    {3, {128, 128, 128}, 0},
    {3, {255, 255, 255}, 0},
};

// Where a number stands, in one byte: the greatest that may, and what is answered to a greater one.
struct field {
    size_t place;
    unsigned most, refusal;
};

static const struct bytes book = {19, {2, 1, 'a', 1, 'b', 3, 0, 3, 0, 0, 0, 0, 1, 1, 2, 1, 2, 2, 2}};
static const struct field fields_of_book[] = {
    {0, DV_MOST_COLOURS, DV_OUT_OF_RANGE},
    {1, DV_LONGEST_NAME, DV_OUT_OF_RANGE},
    {3, DV_LONGEST_NAME, DV_OUT_OF_RANGE},
    {5, DV_MOST_MOTIFS, DV_OUT_OF_RANGE},
    {6, 2, DV_NOT_BELOW_COUNT}, // the start
    {7, DV_MOST_RULES, DV_OUT_OF_RANGE},
    {8, 2, DV_NOT_BELOW_COUNT}, // a head, its kind and its colour
    {9, DV_KIND_DOWN, DV_NO_SUCH_KIND},
    {10, 1, DV_NOT_BELOW_COUNT},
    {11, 2, DV_NOT_BELOW_COUNT}, // a head, its kind and two motifs
    {12, DV_KIND_DOWN, DV_NO_SUCH_KIND},
    {13, 2, DV_NOT_BELOW_COUNT},
    {14, 2, DV_NOT_BELOW_COUNT},
    {18, 2, DV_NOT_BELOW_COUNT}, // the last motif of a down rule
};

static size_t press;

static const struct bytes sheet = {12, {2, 1, 'a', 1, 'b', 0, 2, 2, 0, 1, 1, 0}};
enum { TICKET = 5 };
static uint64_t read_sheet(const struct bytes *cut)
{
    return compare_read_sheet(press, cut);
}

static uint64_t refusal(unsigned number, size_t place)
{
    return number | 1 << 8 | (uint64_t)place << 12;
}

// Whether this is the answer due to an input of some length with the spelling in the field. Where the number may stand
// there, what follows decides.
static bool is_due(uint64_t answer, struct field field, const struct spelling *spelling, size_t length)
{
    if (length < field.place + spelling->length)
        return answer == refusal(DV_ENDS_EARLY, length);
    if (spelling->number == 0)
        return answer == refusal(DV_MISSPELT, field.place);
    return spelling->number <= field.most || answer == refusal(field.refusal, field.place);
}

static void put(struct bytes *bytes, struct field field, const struct spelling *spelling)
{
    drop_byte(bytes, field.place);
    for (unsigned i = 0; i < spelling->length; i++)
        insert_byte(bytes, field.place + i, spelling->byte[i]);
}

// Cut at every place from the number on.
static void compare_cuts(struct bytes input, struct field field, const struct spelling *spelling,
                         uint64_t (*compare_it)(const struct bytes *cut))
{
    for (; input.length > field.place; input.length--)
        if (!is_due(compare_it(&input), field, spelling, input.length))
            wrong("a number is not answered as its spelling and its place say");
}

static void compare_in_book(struct field field, const struct spelling *spelling)
{
    struct bytes spelt = book;
    put(&spelt, field, spelling);
    compare_cuts(spelt, field, spelling, compare_read_book);
    compare_counts(&spelt);
    compare_colour(&spelt, 1);
    compare_rule(&spelt, 1);
    compare_derive(press, &spelt, &sheet, roomy_work(press), roomy_tree(press));
    compare_why_not(press, &spelt, &sheet, roomy_work(press));
    compare_size_card(press, &spelt, dv_card_entries(press), NULL);
    compare_combination(BESIDE, &book, &spelt, ROOMY_OUT, NULL);
    compare_combination(RUN, &spelt, NULL, ROOMY_OUT, NULL);
}

static void compare_in_sheet(struct field field, const struct spelling *spelling)
{
    struct bytes spelt = sheet;
    put(&spelt, field, spelling);
    compare_cuts(spelt, field, spelling, read_sheet);
    if (field.place == TICKET && spelling->number != 0 &&
        compare_read_sheet(press, &spelt) != (uint64_t)spelling->number << 32)
        wrong("the ticket is not the one spelt");
    compare_sheet_size(press, &spelt);
    compare_cell(press, &spelt, 1, 1);
    compare_sheet_colour(press, &spelt, 1);
    compare_derive(press, &book, &spelt, roomy_work(press), roomy_tree(press));
    compare_why_not(press, &book, &spelt, roomy_work(press));
}

// The ticket has no part in what is derived.
static void compare_tickets(void)
{
    struct family family;
    struct grid grid;
    struct bytes spelt, ticketed;
    grow_some_family(&family);
    grow_grid(&family, &grid, 5, 5);
    if (one_in(3))
        spoil_cell(&grid);
    spell_book(&family, &spelt);
    spell_sheet(&grid, &ticketed);
    press = some_press();
    uint64_t answer = compare_derive(press, &spelt, &ticketed, roomy_work(press), roomy_tree(press));
    uint64_t reason = compare_why_not(press, &spelt, &ticketed, roomy_work(press));
    grid.ticket = some_ticket();
    spell_sheet(&grid, &ticketed);
    if (compare_read_sheet(press, &ticketed) != (uint64_t)grid.ticket << 32)
        wrong("the ticket is not the sheet's");
    if (compare_derive(press, &spelt, &ticketed, roomy_work(press), roomy_tree(press)) != answer ||
        compare_why_not(press, &spelt, &ticketed, roomy_work(press)) != reason)
        wrong("another ticket changes the answer");
}

static void compare_fields(void)
{
    const struct field fields_of_sheet[] = {
        {0, DV_MOST_COLOURS, DV_OUT_OF_RANGE},
        {1, DV_LONGEST_NAME, DV_OUT_OF_RANGE},
        {3, DV_LONGEST_NAME, DV_OUT_OF_RANGE},
        {TICKET, DV_GREATEST_TICKET, DV_OUT_OF_RANGE},
        {6, (unsigned)dv_most_rows(press), DV_OUT_OF_RANGE},
        {7, (unsigned)dv_most_columns(press), DV_OUT_OF_RANGE},
        {8, 1, DV_NOT_BELOW_COUNT}, // the first cell and the last
        {11, 1, DV_NOT_BELOW_COUNT},
    };
    for (size_t i = 0; i < sizeof spellings / sizeof *spellings; i++) {
        for (size_t j = 0; j < sizeof fields_of_book / sizeof *fields_of_book; j++)
            compare_in_book(fields_of_book[j], &spellings[i]);
        for (size_t j = 0; j < sizeof fields_of_sheet / sizeof *fields_of_sheet; j++)
            compare_in_sheet(fields_of_sheet[j], &spellings[i]);
    }
}

KIND(numbers)
{
    for (press = DV_PRESS; press <= DV_WIDE_PRESS; press++)
        compare_fields();
    for (unsigned i = 0; i < 1500; i++)
        compare_tickets();
}

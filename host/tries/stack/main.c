// Measures the stack that each call takes, on each press: makes it on a painted stack, with the inputs that take most,
// and looks how far the paint is gone. Fails where the most is not well below what the header says is enough.
#define _XOPEN_SOURCE 600 // makecontext
#include <stdio.h>
#include <stdlib.h>
#include <string.h>
#include <ucontext.h>

#include "../../shared/chance.h"
#include "../../shared/engine.h"
#include "../../shared/grow.h"
#include "../../shared/nodes.h"
#include "../../shared/soon.h"

enum { ROOM = 1 << 18, PAINT = 0xa5, MARGIN = 8192, BY_CHANCE = 60, PRESSES = DV_WIDE_PRESS + 1 };

static size_t press;
static struct bytes book, second, sheet;
static struct run run;
static enum combination combination;
static uint32_t work[DV_WIDE_MOST_WORK];
static uint16_t tree[DV_WIDE_MOST_TREE];
static struct dv_node nodes[DV_WIDE_MOST_NODES];
static uint32_t card[DV_WIDE_CARD_ENTRIES], figures[DV_REPORT_ENTRIES];
static uint8_t out[DV_LONGEST_BOOK];
static bool soon;
static uint64_t answer;

static void nothing(void) { answer = 0; }
static void read_book(void) { answer = dv_read_book(book.at, book.length); }
static void read_sheet(void) { answer = dv_read_sheet(press, sheet.at, sheet.length); }
static void counts(void) { answer = dv_counts(book.at, book.length); }
static void colour(void) { answer = dv_colour(book.at, book.length, 0); }
static void rule(void) { answer = dv_rule(book.at, book.length, 0); }
static void sheet_size(void) { answer = dv_sheet_size(press, sheet.at, sheet.length); }
static void cell(void) { answer = dv_cell(press, sheet.at, sheet.length, 0, 0); }
static void sheet_colour(void) { answer = dv_sheet_colour(press, sheet.at, sheet.length, 0); }
static void run_sheet(void) { answer = dv_run_sheet(run.at, run.length, 0); }
static void derive(void)
{
    answer = dv_derive(press, book.at, book.length, sheet.at, sheet.length, work, dv_most_work(press), tree,
                       dv_most_tree(press));
}
static void check_tree(void)
{
    answer = dv_check_tree(press, book.at, book.length, sheet.at, sheet.length, nodes, dv_most_nodes(press));
}
static void plain(void) { answer = soon ? dv_plain(press, book.at, book.length, sheet.at, sheet.length) : 0; }
static void size_card(void) { answer = dv_size_card(press, book.at, book.length, card, dv_card_entries(press)); }
static void why_not(void)
{
    answer = dv_why_not(press, book.at, book.length, sheet.at, sheet.length, work, dv_most_work(press));
}
static void recolour(void)
{
    answer = dv_recolour(press, book.at, book.length, sheet.at, sheet.length, work, dv_most_work(press), 0, 0, 0);
}
static void run_report(void)
{
    answer = dv_run_report(press, book.at, book.length, run.at, run.length, work, dv_most_work(press), figures,
                           DV_REPORT_ENTRIES);
}
static void tidy(void) { answer = dv_tidy(book.at, book.length, out, sizeof out); }
static void make(void)
{
    answer = combine(&library, combination, book.at, book.length, second.at, second.length, out, sizeof out);
}

static size_t used(void (*call)(void))
{
    static uint8_t stack[ROOM];
    static ucontext_t here, there;
    memset(stack, PAINT, sizeof stack);
    getcontext(&there);
    there.uc_stack.ss_sp = stack;
    there.uc_stack.ss_size = sizeof stack;
    there.uc_link = &here;
    makecontext(&there, call, 0);
    swapcontext(&here, &there);
    size_t painted = 0;
    while (stack[painted] == PAINT)
        painted++;
    return sizeof stack - painted;
}

static size_t most;

struct kind {
    const char *name;
    void (*call)(void);
    size_t most[PRESSES];
};

static struct kind kinds[] = {
    {"dv_read_book", read_book, {0}},
    {"dv_read_sheet", read_sheet, {0}},
    {"dv_counts", counts, {0}},
    {"dv_colour", colour, {0}},
    {"dv_rule", rule, {0}},
    {"dv_sheet_size", sheet_size, {0}},
    {"dv_cell", cell, {0}},
    {"dv_sheet_colour", sheet_colour, {0}},
    {"dv_run_sheet", run_sheet, {0}},
    {"dv_derive", derive, {0}},
    {"dv_check_tree", check_tree, {0}},
    {"dv_plain", plain, {0}},
    {"dv_size_card", size_card, {0}},
    {"dv_why_not", why_not, {0}},
    {"dv_recolour", recolour, {0}},
    {"dv_run_report", run_report, {0}},
    {"dv_tidy", tidy, {0}},
};
static size_t most_of[COMBINATIONS];

static void note(size_t *noted, size_t bytes)
{
    *noted = bytes > *noted ? bytes : *noted;
    most = bytes > most ? bytes : most;
}

// Every call on the book, the second book, the sheet and the tree of its derivation.
static void measure(void)
{
    size_t before = used(nothing);
    soon = soon_searched(press, &book, &sheet);
    derive();
    nodes_of(tree, dv_most_nodes(press), nodes);
    for (size_t i = 0; i < sizeof kinds / sizeof *kinds; i++)
        note(&kinds[i].most[press], used(kinds[i].call) - before);
    for (int i = 0; i < COMBINATIONS; i++) {
        combination = (enum combination)i;
        note(&most_of[i], used(make) - before);
    }
}

static void spell_all(const struct family *f, const struct family *g, const struct grid *grid)
{
    spell_book(f, &book);
    spell_book(g, &second);
    spell_sheet(grid, &sheet);
    run.length = 0;
    add_sheet(&run, sheet.at, sheet.length);
}

// A sheet of one colour, as large as can be, whose derivation takes off one column and then one row at a time, the long
// part second or first: 23 levels, 47 on the wide press. The joins stand before the colour rules, so that the cells try
// them too.
static void measure_deepest(bool long_first)
{
    enum { ALL, COLUMN, CELL, NONE, MOTIFS };
    struct family family = {.motifs = MOTIFS, .start = ALL};
    struct grid grid = {.rows = (unsigned)dv_most_rows(press), .columns = (unsigned)dv_most_columns(press)};
    add_ink(&family.palette, "Slate C");
    grid.palette = family.palette;
    add_rule(&family, ALL, DV_KIND_ACROSS, long_first ? ALL : COLUMN, long_first ? COLUMN : ALL);
    for (unsigned head = ALL; head <= COLUMN; head++)
        add_rule(&family, head, DV_KIND_DOWN, long_first ? COLUMN : CELL, long_first ? CELL : COLUMN);
    add_rule(&family, CELL, DV_KIND_DOWN, NONE, NONE);
    for (unsigned head = ALL; head <= CELL; head++)
        add_rule(&family, head, DV_KIND_COLOUR, 0, 0);
    spell_all(&family, &family, &grid);
    measure();
    derive();
    if (dv_number(answer) != DV_ACCEPTED || tree[1] != (long_first ? grid.columns - 1 : 1)) {
        fprintf(stderr, "stack: the deepest derivation is not the one meant\n");
        exit(1);
    }
}

// A sheet of one row that the plain engine takes apart cell by cell, as many as the press has columns and it takes: as
// deep as it goes.
static void measure_deepest_plain(void)
{
    struct family family = {.motifs = 1, .start = 0};
    struct grid grid = {.rows = 1, .columns = press == DV_PRESS ? DV_MOST_COLUMNS : DV_MOST_PLAIN_CELLS};
    add_ink(&family.palette, "Slate C");
    grid.palette = family.palette;
    add_rule(&family, 0, DV_KIND_ACROSS, 0, 0);
    add_rule(&family, 0, DV_KIND_COLOUR, 0, 0);
    spell_all(&family, &family, &grid);
    measure();
    plain();
    if (answer != 0) {
        fprintf(stderr, "stack: the plain engine has not gone through the row\n");
        exit(1);
    }
}

// The most colours, motifs and rules, and one that all combinations take.
static void measure_largest(void)
{
    struct family f, g;
    struct grid grid;
    for (unsigned i = 0; i < 2; i++) {
        unsigned part = i + 1;
        grow_family(&f, DV_MOST_COLOURS, DV_MOST_MOTIFS / part - 1, DV_MOST_RULES / part / part);
        grow_family(&g, 1, DV_MOST_MOTIFS / part - 1, DV_MOST_RULES / part / part);
        g.palette.ink[0] = f.palette.ink[DV_MOST_COLOURS - 1];
        grow_grid(&f, &grid, (unsigned)dv_most_rows(press), (unsigned)dv_most_columns(press));
        spell_all(&f, &g, &grid);
        measure();
    }
}

static void measure_by_chance(void)
{
    struct family f, g;
    struct grid grid;
    for (unsigned i = 0; i < BY_CHANCE; i++) {
        grow_some_family(&f);
        grow_some_family(&g);
        grow_grid(&f, &grid, (unsigned)dv_most_rows(press), (unsigned)dv_most_columns(press));
        if (one_in(2))
            spoil_cell(&grid);
        spell_all(&f, &g, &grid);
        measure();
    }
}

int main(void)
{
    chance_seed(1);
    for (press = DV_PRESS; press < PRESSES; press++) {
        measure_deepest(false);
        measure_deepest(true);
        measure_deepest_plain();
        measure_largest();
        measure_by_chance();
    }
    for (size_t i = 0; i < sizeof kinds / sizeof *kinds; i++)
        printf("stack: %-15s %6zu bytes, on the wide press %6zu\n", kinds[i].name, kinds[i].most[DV_PRESS],
               kinds[i].most[DV_WIDE_PRESS]);
    for (int i = 0; i < COMBINATIONS; i++)
        printf("stack: %-15s %6zu bytes\n", combination_name[i], most_of[i]);
    printf("stack: at most %zu bytes; the header says that %d are enough\n", most, DV_ENOUGH_STACK);
    if (most + MARGIN > DV_ENOUGH_STACK) {
        fprintf(stderr, "stack: that leaves less than %d\n", MARGIN);
        return 1;
    }
    return 0;
}

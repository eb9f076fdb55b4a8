// What the header computes by itself: the greatest sizes of a press, entries for a sheet, and a text for each answer.
#include <druvelstek.h>
#include <stdbool.h>
#include <stdio.h>
#include <stdlib.h>
#include <string.h>

// A node is two numbers of 16 bits with nothing between, as the library reads it.
extern char layout_of_a_node[sizeof(struct dv_node) == 4 && offsetof(struct dv_node, rule) == 0 &&
                                     offsetof(struct dv_node, cut) == 2
                                 ? 1
                                 : -1];

static void expect(bool holds, const char *what)
{
    if (holds)
        return;
    fprintf(stderr, "helpers: %s\n", what);
    exit(1);
}

// The greatest sizes of a press follow from its rows and columns.
static void try_press(size_t press)
{
    size_t rows = dv_most_rows(press), columns = dv_most_columns(press);
    size_t colours = 1 + DV_MOST_COLOURS * (1 + DV_LONGEST_NAME);
    expect(dv_work_entries(rows, columns) == dv_most_work(press) &&
               dv_tree_entries(rows, columns) == dv_most_tree(press),
           "the most entries are not those of the largest sheet");
    expect(dv_tree_nodes(rows, columns) == dv_most_nodes(press), "the most nodes are not those of that sheet");
    expect(dv_card_entries(press) == rows && columns <= 32, "a card has no entry for a row, or no bit for a column");
    expect(dv_longest_sheet(press) == colours + 3 + 1 + 1 + rows * columns, "the longest sheet is of another length");
    expect(dv_longest_sheet(press) <= DV_LONGEST_RUN, "the longest sheet is in no run");
}

// The names of the header are those of the two presses, and there is no third.
static void try_names(void)
{
    expect(dv_most_rows(DV_PRESS) == DV_MOST_ROWS && dv_most_rows(DV_WIDE_PRESS) == DV_WIDE_MOST_ROWS, "most rows");
    expect(dv_most_columns(DV_PRESS) == DV_MOST_COLUMNS && dv_most_columns(DV_WIDE_PRESS) == DV_WIDE_MOST_COLUMNS,
           "most columns");
    for (size_t press = DV_WIDE_PRESS + 1; press != 0; press *= 2)
        expect(dv_most_rows(press) == 0 && dv_most_columns(press) == 0 && dv_longest_sheet(press) == 0 &&
                   dv_most_work(press) == 0 && dv_most_tree(press) == 0 && dv_most_nodes(press) == 0 &&
                   dv_card_entries(press) == 0,
               "a press that there is not has sizes");
}

int main(void)
{
    expect(dv_version() == DV_VERSION, "the archive is of another version than the header");
    try_press(DV_PRESS);
    try_press(DV_WIDE_PRESS);
    try_names();
    for (size_t side = 0; side <= DV_WIDE_MOST_ROWS; side++)
        expect(dv_work_entries(0, side) == 0 && dv_work_entries(side, 0) == 0 && dv_tree_entries(0, side) == 0 &&
                   dv_tree_entries(side, 0) == 0,
               "a sheet with no cell has entries");
    for (size_t side = 0; side <= DV_WIDE_MOST_ROWS; side++)
        expect(dv_trials(1, 1, 0, side) == 0 && dv_trials(1, 1, side, 0) == 0, "a sheet with no cell takes trials");
    expect(dv_trials(1, 1, 1, 1) == 0 && dv_trials(1, 0, 2, 3) == 12 && dv_trials(0, 1, 2, 3) == 6, "trials of sheet A");
    expect(dv_trials(DV_MOST_RULES, 0, DV_MOST_ROWS, DV_MOST_COLUMNS) == 4461600 &&
               dv_trials(DV_MOST_RULES, 0, DV_WIDE_MOST_ROWS, DV_WIDE_MOST_COLUMNS) == 138000000,
           "the most trials");
    for (unsigned one = DV_ACCEPTED; one <= DV_NO_SUCH_PRESS; one++)
        for (unsigned other = DV_ACCEPTED; other < one; other++)
            expect(strcmp(dv_text(one), dv_text(other)) != 0 || strcmp(dv_text(one), dv_text(255)) == 0,
                   "two answers have one text");
    expect(strcmp(dv_text(14), dv_text(255)) == 0, "14 has the text of an answer");
    printf("helpers: the greatest sizes of each press, no cell, trials, the layout of a node, a text for each answer\n");
    return 0;
}

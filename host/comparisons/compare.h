// The comparison of the library with the independent engine. Each call below is made on both, with the same inputs and
// with slices that hold the same bytes before; the answers, every lent slice and the canaries are compared after. The
// first difference ends the program with the inputs shown.
#ifndef COMPARE_H
#define COMPARE_H

#include "../shared/engine.h"
#include "../shared/entries.h"
#include "../shared/spell.h"

// More than every result on any press, and than every room that is asked for.
enum { ROOMY_WORK = DV_WIDE_MOST_WORK + 8, ROOMY_OUT = DV_LONGEST_BOOK + 8 };

// More than every result on a press.
static inline size_t roomy_work(size_t press)
{
    return dv_most_work(press) + 8;
}

static inline size_t roomy_tree(size_t press)
{
    return dv_most_tree(press) + 8;
}

// A kind of comparisons, KIND(name) { .. }, stands in a file of this room that is named for it.
#define KIND(name) ENTRY(name)

// Ends the program: something is wrong with the call last made.
void wrong(const char *what);

// Each gives the answer that both engines gave. The same bytes as first and second are lent as one slice.
uint64_t compare_read_book(const struct bytes *book);
uint64_t compare_read_sheet(size_t press, const struct bytes *sheet);
uint64_t compare_counts(const struct bytes *book);
uint64_t compare_colour(const struct bytes *book, size_t number);
uint64_t compare_rule(const struct bytes *book, size_t number);
uint64_t compare_sheet_size(size_t press, const struct bytes *sheet);
uint64_t compare_cell(size_t press, const struct bytes *sheet, size_t row, size_t column);
uint64_t compare_sheet_colour(size_t press, const struct bytes *sheet, size_t number);
uint64_t compare_run_sheet(const struct run *run, size_t number);
// The answer without its count, which has the trials: these are the book's.
uint64_t compare_derive(size_t press, const struct bytes *book, const struct bytes *sheet, size_t work_len,
                        size_t tree_len);
uint64_t compare_check_tree(size_t press, const struct bytes *book, const struct bytes *sheet,
                            const struct dv_node *nodes, size_t count);
uint64_t compare_plain(size_t press, const struct bytes *book, const struct bytes *sheet);
// The card is put into card, of as many entries as a card of the press has, where that is not null and the answer is 0.
uint64_t compare_size_card(size_t press, const struct bytes *book, size_t card_len, uint32_t *card);
// The sheet and the work slice hold before the call what they are given with, and after it what both engines left.
uint64_t compare_recolour(size_t press, const struct bytes *book, struct bytes *sheet, uint32_t *work, size_t work_len,
                          size_t row, size_t column, size_t colour);
uint64_t compare_why_not(size_t press, const struct bytes *book, const struct bytes *sheet, size_t work_len);
// The figures are put into figures, where that is not null and the answer is 0.
uint64_t compare_run_report(size_t press, const struct bytes *book, const struct run *run, size_t work_len,
                            size_t figures_len, uint32_t figures[DV_REPORT_ENTRIES]);
// The new book is put into made, where that is not null and the answer is 0.
uint64_t compare_combination(enum combination combination, const struct bytes *first, const struct bytes *second,
                             size_t out_len, struct bytes *made);

// The tidied book is put into tidied, where that is not null and the answer is 0.
uint64_t compare_tidy(const struct bytes *book, size_t out_len, struct bytes *tidied);

// A combination with rooms exact, one short, one over and none.
void compare_rooms_of_combination(enum combination combination, const struct bytes *first, const struct bytes *second);

#endif

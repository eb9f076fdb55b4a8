// Druvelstek: the C face of the verified library. C99 or later, or C++11 or later.
//
// A book is one family of layouts and a sheet is a grid of colours with its job ticket, both spelt byte by byte as
// docs/RULES.md says. The library tells whether the family derives the sheet, and why not where it does not, gives the
// table of pieces, how many trials it takes, and one derivation, judges derivations that others chose, decides small
// sheets by a second engine for the bench, tells which sizes the family has, reports on a whole run of sheets, looks up
// what stands in a book, a sheet or a run, and makes new books of lent ones. Each call is proved to keep what its
// comment says, on every input.
//
// A call that reads a sheet or makes a size card is told first which press it is for, since the presses differ in how
// many rows and columns they print. A book is of no press.
//
// Nothing in the bytes tells a book from a sheet, and some are both: 2, 1 "a", 1 "b", 4, 3, 1, 0, 0, 0 is a book of
// four motifs with one rule, and a sheet of three rows and one column for job 4. A caller keeps apart which file is
// which.
//
// What a caller sees to, for every call:
// - A slice is a pointer and then its length, in elements. The pointer is valid for that many elements, and aligned for
//   their type, until the call returns. With length 0 it may be null, as that of an empty std::vector may be.
// - A slice that the call may write (work, tree, card, figures, out, and the sheet of dv_recolour) overlaps no other
//   slice of the same call. Nothing tells when it does. dv_beside(f, f_len, g, g_len, g, room) reads names of g that it
//   has written over: with the one colour "Navy" in f and "Red" in g it answers 0, and the new book has the inks "Navy"
//   and "Nav". Slices that are only read may overlap: the same book may be given twice.
// - Of the calling thread's stack DV_ENOUGH_STACK bytes are free at the call.
// With DV_CHECKED defined before this header is included, each call tests by assert, which NDEBUG takes out again, what
// can be told from pointers and lengths: null, alignment, overlap, and a length that no memory has. Whether a pointer
// is valid for its length, and how much stack is free, it cannot tell.
//
// Nothing is asked of what the slices hold. A call keeps no pointer and no state, takes no memory but stack, and writes
// nothing but what its comment names; so any number of threads may make calls at once, on slices of their own to write.
#ifndef DRUVELSTEK_H
#define DRUVELSTEK_H

#include <stddef.h>
#include <stdint.h>
#ifdef DV_CHECKED
#include <assert.h>
#endif

#ifdef __cplusplus
extern "C" {
#endif

// The version of rules and calls that this header describes, and the call that tells the archive's. A host compares the
// two before any other call, so that a header and an archive of two versions are noticed. No call before version 13
// takes a press: of a host that was compiled for one of those, the first slice would be taken for it.
#define DV_VERSION 15
uint64_t dv_version(void);

// The presses, for the first parameter of a call that has one. Any other number is answered 21, before all else.
enum dv_press { DV_PRESS = 0, DV_WIDE_PRESS = 1 };

// The greatest sizes on every press.
#define DV_MOST_COLOURS 64
#define DV_LONGEST_NAME 40
#define DV_MOST_MOTIFS 32
#define DV_MOST_RULES 200
#define DV_LONGEST_BOOK 3429
#define DV_GREATEST_TICKET 2097151
#define DV_LONGEST_RUN 65536

// The greatest sizes on DV_PRESS: rows and columns of a sheet; its bytes, which are 2,625 of colours, 3 of the ticket,
// 1 each of rows and columns, and 1 for each cell; entries of the work slice and of the tree slice that are enough for
// every sheet; nodes of its tree; entries of a size card. More nodes may be lent than a sheet's tree has, but none is
// looked at past one more.
#define DV_MOST_ROWS 12
#define DV_MOST_COLUMNS 12
#define DV_LONGEST_SHEET 2774
#define DV_MOST_WORK 6084
#define DV_MOST_TREE 574
#define DV_MOST_NODES 287
#define DV_CARD_ENTRIES 12

// The same on DV_WIDE_PRESS.
#define DV_WIDE_MOST_ROWS 24
#define DV_WIDE_MOST_COLUMNS 24
#define DV_WIDE_LONGEST_SHEET 3206
#define DV_WIDE_MOST_WORK 90000
#define DV_WIDE_MOST_TREE 2302
#define DV_WIDE_MOST_NODES 1151
#define DV_WIDE_CARD_ENTRIES 24

// The same by the press, for a host that is told it as a number. All are 0 where there is no such press.
static inline size_t dv_by_press(size_t press, size_t usual, size_t wide)
{
    return press == DV_PRESS ? usual : press == DV_WIDE_PRESS ? wide : 0;
}
static inline size_t dv_most_rows(size_t press) { return dv_by_press(press, DV_MOST_ROWS, DV_WIDE_MOST_ROWS); }
static inline size_t dv_most_columns(size_t press) { return dv_by_press(press, DV_MOST_COLUMNS, DV_WIDE_MOST_COLUMNS); }
static inline size_t dv_longest_sheet(size_t press)
{
    return dv_by_press(press, DV_LONGEST_SHEET, DV_WIDE_LONGEST_SHEET);
}
static inline size_t dv_most_work(size_t press) { return dv_by_press(press, DV_MOST_WORK, DV_WIDE_MOST_WORK); }
static inline size_t dv_most_tree(size_t press) { return dv_by_press(press, DV_MOST_TREE, DV_WIDE_MOST_TREE); }
static inline size_t dv_most_nodes(size_t press) { return dv_by_press(press, DV_MOST_NODES, DV_WIDE_MOST_NODES); }
static inline size_t dv_card_entries(size_t press) { return dv_by_press(press, DV_CARD_ENTRIES, DV_WIDE_CARD_ENTRIES); }

// Stack that is enough for every call on either press, free when it is made. No theorem says so: host/header measures
// it on the x86-64 code, with the deepest inputs, derivations of 23 levels and of 47 on the wide press, and fails where
// less than 8 kilobytes would be left.
#define DV_ENOUGH_STACK 65536

// A node of a lent tree: the number of its rule, and its k, the columns or rows of its first part, 0 for a colour rule.
struct dv_node {
    uint16_t rule, cut;
};

// The most cells of a sheet that dv_plain takes, on either press.
#define DV_MOST_PLAIN_CELLS 16

// Entries of a run report, on either press, and where each figure stands among them.
#define DV_REPORT_ENTRIES 78
enum dv_figure {
    DV_FIGURE_SHEETS = 0,       // the sheets of the run
    DV_FIGURE_ANSWERED = 1,     // the sheets that got answer 0; those that got 1 to 8 stand after it
    DV_FIGURE_NOT_DERIVED = 10, // the sheets that got answer 11
    DV_FIGURE_CELLS = 11,       // the cells of book colour 0 in accepted sheets; those of 1 to 63 stand after it
    DV_FIGURE_ACCEPTED = 75,    // 1 where some sheet was accepted, else 0
    DV_FIGURE_LEAST = 76,       // the least ticket among accepted sheets; 0 where none was
    DV_FIGURE_GREATEST = 77     // the greatest; likewise
};

// Entries of the work slice for a sheet of so many rows and columns: one for each of its pieces. Where there is no
// cell, as in the size that dv_sheet_size shows for a refused sheet, there are none.
static inline size_t dv_work_entries(size_t rows, size_t columns)
{
    return rows * (rows + 1) / 2 * (columns * (columns + 1) / 2);
}

// Entries of the tree slice: rule and k for each of its nodes; none where there is no cell.
static inline size_t dv_tree_entries(size_t rows, size_t columns)
{
    return rows == 0 || columns == 0 ? 0 : 2 * (2 * rows * columns - 1);
}

// The nodes of a tree of such a sheet; none where there is no cell.
static inline size_t dv_tree_nodes(size_t rows, size_t columns) { return dv_tree_entries(rows, columns) / 2; }

// The trials that the table of such a sheet takes under a book with so many across and so many down rules. A trial is
// one piece, one cut and one rule of that direction, and each is made exactly once: so a host can tell the work of
// dv_derive before the job. None where there is no cell, and none for colour rules.
static inline size_t dv_trials(size_t across, size_t down, size_t rows, size_t columns)
{
    return across * (rows * (rows + 1) / 2) * ((columns - 1) * columns * (columns + 1) / 6) +
           down * (columns * (columns + 1) / 2) * ((rows - 1) * rows * (rows + 1) / 6);
}

// The kinds of rules: a cell of one colour; a left and a right part; an upper and a lower part.
enum dv_kind { DV_KIND_COLOUR = 0, DV_KIND_ACROSS = 1, DV_KIND_DOWN = 2 };

// The reasons why a sheet is not in the family, in the order in which they are looked for: a cell has a colour that no
// rule names; the family has no sheet of this size; it has, and this is the largest piece that the start motif derives;
// it has, and the start motif derives no piece.
enum dv_reason { DV_REASON_COLOUR = 1, DV_REASON_SIZE = 2, DV_REASON_PIECE = 3, DV_REASON_NO_PIECE = 4 };

// The answer numbers. 1 to 8 and 18 blame the input in which the fault stands, 1 the first and 2 the second, and have a
// place in it, counted from 0. All others blame 0, and have place 0 but for 16. 14 is no answer, and that number is not
// used again. A book's faults are 1 to 8 and 18, whichever comes first from the left; dv_tidy alone takes equal rules.
enum dv_answer_number {
    DV_ACCEPTED = 0,
    DV_ENDS_EARLY = 1,      // input ends inside or before something due; place: its length
    DV_MISSPELT = 2,        // last group of a longer number is 0, or third byte above 127; place: its first byte
    DV_OUT_OF_RANGE = 3,    // a count, length, rows or columns outside its range, which for rows and columns goes by
                            // the press; place: number's first byte. Of dv_run_report, blaming 2: the run is longer
                            // than DV_LONGEST_RUN; place: 0
    DV_NAME_BYTE = 4,       // name byte below 32 or above 126, or 32 as the name's first or last; place: that byte
    DV_NAME_TWICE = 5,      // name already in this list; place: first byte of the later name
    DV_NOT_BELOW_COUNT = 6, // motif or colour number not below its count; place: number's first byte
    DV_NO_SUCH_KIND = 7,    // kind above 2; place: number's first byte
    DV_BYTES_FOLLOW = 8,    // bytes follow the end; place: first such byte
    DV_WORK_SHORT = 9,      // work slice shorter than needed
    DV_TREE_SHORT = 10,     // tree slice shorter than needed
    DV_NOT_DERIVED = 11,    // the start motif does not derive the sheet
    DV_TOO_MANY = 12,       // a combination exceeds 64 colours, 32 motifs or 200 rules
    DV_OUT_SHORT = 13,      // output, card or figures slice shorter than the result
    DV_IN_FAMILY = 15,      // the sheet is in the family, so that there is no reason why not
    DV_NOT_A_TREE = 16,     // the lent nodes are no derivation of the sheet; place: the first node that fails, from 0
    DV_NOT_REWRITTEN = 17,  // the start motif of a book to be tidied cannot be rewritten to colours, sizes forgotten
    DV_RULE_TWICE = 18,     // an equal rule stood earlier in the book; place: first byte of the later rule
    DV_NO_SUCH_CELL = 19,   // the sheet has no such row, no such column or no colour of this number
    DV_TOO_MANY_CELLS = 20, // the sheet has more cells than the plain engine takes
    DV_NO_SUCH_PRESS = 21   // no press has this number; answered before all else, and nothing is written
};

// A fixed text for each answer number, in English, to stand after what it is said of, as in "the sheet: not in the
// family".
static inline const char *dv_text(unsigned number)
{
    switch (number) {
    case DV_ACCEPTED:
        return "accepted";
    case DV_ENDS_EARLY:
        return "ends too early";
    case DV_MISSPELT:
        return "a number is misspelt";
    case DV_OUT_OF_RANGE:
        return "a count, a length, rows or columns out of range";
    case DV_NAME_BYTE:
        return "a byte that may not stand in a name, or a blank at either end of one";
    case DV_NAME_TWICE:
        return "a name stands twice";
    case DV_NOT_BELOW_COUNT:
        return "no motif or colour has this number";
    case DV_NO_SUCH_KIND:
        return "no such kind of rule";
    case DV_BYTES_FOLLOW:
        return "bytes follow the end";
    case DV_WORK_SHORT:
        return "the work slice is too short";
    case DV_TREE_SHORT:
        return "the tree slice is too short";
    case DV_NOT_DERIVED:
        return "not in the family";
    case DV_TOO_MANY:
        return "too many colours, motifs or rules";
    case DV_OUT_SHORT:
        return "the output, card or figures slice is too short";
    case DV_IN_FAMILY:
        return "in the family";
    case DV_NOT_A_TREE:
        return "not a derivation of the sheet";
    case DV_NOT_REWRITTEN:
        return "its start motif cannot be rewritten to colours";
    case DV_RULE_TWICE:
        return "a rule stands twice: dv_tidy makes a book without it";
    case DV_NO_SUCH_CELL:
        return "it has no such row, column or colour";
    case DV_TOO_MANY_CELLS:
        return "more cells than the plain engine takes";
    case DV_NO_SUCH_PRESS:
        return "no such press";
    default:
        return "no answer has this number";
    }
}

// An answer is number + 2^8 * blamed + 2^12 * place + 2^32 * count; here it is taken apart. The count is the number of
// bytes that a combination or dv_tidy wrote, or of sizes on a card, or a sheet's ticket, or a reason, on 0 alone; or of
// trials of dv_derive, on 0 and 11; with every other answer, and for every other call, it is 0.
static inline unsigned dv_number(uint64_t answer) { return (unsigned)(answer & 0xff); }
static inline unsigned dv_blamed(uint64_t answer) { return (unsigned)(answer >> 8 & 0xf); }
static inline size_t dv_place(uint64_t answer) { return (size_t)(answer >> 12 & 0xfffff); }
static inline size_t dv_count(uint64_t answer) { return (size_t)(answer >> 32); }

// Reads a book. Answers 0 when it is the spelling of a family's contents, and else 1 to 8 or 18, blaming 1, for the
// first fault from the left. A rule that stands twice is told once the later one is read in full.
uint64_t dv_read_book(const uint8_t *book, size_t book_len);

// Reads a sheet of a press. Answers 21 where there is no such press, and else like dv_read_book. On 0 the count is the
// number of its job ticket, which has no part in whether a family derives the sheet.
uint64_t dv_read_sheet(size_t press, const uint8_t *sheet, size_t sheet_len);

// The ticket in an answer of dv_read_sheet.
static inline uint32_t dv_ticket(uint64_t answer) { return (uint32_t)(answer >> 32); }

// The look-ups show all that stands in a book, a sheet or a run; a sheet's ticket is told by dv_read_sheet. So a host
// never parses: of the bytes that it lends it reads none but those of names, where a look-up says that they stand.
// Look-ups have no answer number: 0 says that there is nothing to show. Each reads the whole of its input anew.

// Shows how much a book has, and its start motif: colours + 2^8 * motifs + 2^16 * start + 2^24 * rules + 2^32, taken
// apart below. Colours, motifs and rules are numbered from 0 to one below their count. A refused book shows 0.
uint64_t dv_counts(const uint8_t *book, size_t book_len);

static inline int dv_counts_found(uint64_t counts) { return counts != 0; }
static inline unsigned dv_counts_colours(uint64_t counts) { return (unsigned)(counts & 0xff); }
static inline unsigned dv_counts_motifs(uint64_t counts) { return (unsigned)(counts >> 8 & 0xff); }
static inline unsigned dv_counts_start(uint64_t counts) { return (unsigned)(counts >> 16 & 0xff); }
static inline unsigned dv_counts_rules(uint64_t counts) { return (unsigned)(counts >> 24 & 0xff); }

// Shows the name of a colour, numbered from 0, as the part of the lent book that holds it: place + 2^32 * length, which
// dv_shown_place and dv_shown_length take apart. A refused book, or a number not below the count of colours, shows an
// empty part, 0. No name is empty.
uint64_t dv_colour(const uint8_t *book, size_t book_len, size_t number);

static inline int dv_shown_found(uint64_t shown) { return shown != 0; }
static inline size_t dv_shown_place(uint64_t shown) { return (size_t)(shown & 0xffffffff); }
static inline size_t dv_shown_length(uint64_t shown) { return (size_t)(shown >> 32); }

// Shows a rule, numbered from 0 as in a tree: head + 2^8 * kind + 2^16 * first + 2^24 * second + 2^32, taken apart
// below. Of a colour rule first is the colour's number, and second is 0; of a join they are the left and right, or the
// upper and lower, motif. A refused book, or a number not below the count of rules, shows 0.
uint64_t dv_rule(const uint8_t *book, size_t book_len, size_t number);

static inline int dv_rule_found(uint64_t rule) { return rule != 0; }
static inline unsigned dv_rule_head(uint64_t rule) { return (unsigned)(rule & 0xff); }
static inline unsigned dv_rule_kind(uint64_t rule) { return (unsigned)(rule >> 8 & 0xff); }
static inline unsigned dv_rule_first(uint64_t rule) { return (unsigned)(rule >> 16 & 0xff); }
static inline unsigned dv_rule_second(uint64_t rule) { return (unsigned)(rule >> 24 & 0xff); }

// Shows the size of a sheet of a press: rows + 2^32 * columns, taken apart below. A refused sheet shows 0, and so does
// every sheet where there is no such press.
uint64_t dv_sheet_size(size_t press, const uint8_t *sheet, size_t sheet_len);

static inline size_t dv_size_rows(uint64_t size) { return (size_t)(size & 0xffffffff); }
static inline size_t dv_size_columns(uint64_t size) { return (size_t)(size >> 32); }

// Shows a cell of a sheet of a press, row and column from 0: the number of its colour in the sheet's own list + 2^32,
// taken apart below. A refused sheet shows 0, and so does one with no such row or column, and every sheet where there
// is no such press.
uint64_t dv_cell(size_t press, const uint8_t *sheet, size_t sheet_len, size_t row, size_t column);

static inline int dv_cell_found(uint64_t cell) { return cell != 0; }
static inline unsigned dv_cell_colour(uint64_t cell) { return (unsigned)(cell & 0xff); }

// Shows the name of a colour of a sheet's list as dv_colour does that of a book's: the part of the lent sheet that
// holds it. A refused sheet shows 0, and so does a number not below the count of its colours, and every sheet where
// there is no such press. The lists of a book and a sheet are numbered each by itself: an ink of both is one by its
// name alone.
uint64_t dv_sheet_colour(size_t press, const uint8_t *sheet, size_t sheet_len, size_t number);

// Shows a sheet of a run, numbered from 0, as the part of the lent run that holds it, whatever it holds: place + 2^32 *
// length, which dv_shown_place and dv_shown_length take apart. A sheet may be empty, but its length stands before it,
// so that its place is never 0. A run that dv_run_report refuses for its length or for those of its sheets shows 0, and
// so does a number not below the count of its sheets. A run is of no press.
uint64_t dv_run_sheet(const uint8_t *run, size_t run_len, size_t number);

// Decides whether the family derives the sheet of m rows and n columns. Answers, in this order: 21; 1 to 8 or 18
// blaming 1, the book; 1 to 8 blaming 2, the sheet; 9; 10; 11; 0. With 0 and 11 the count is the number of trials that
// the table took, dv_trials of the book's across and down rules, m and n.
//
// On 0 and 11 the first dv_work_entries(m, n) entries of work hold the table of pieces: by height, then width, then
// top row, then left column, each rising; bit A is set exactly when motif A derives that piece, other bits are clear.
//
// On 0 the first dv_tree_entries(m, n) entries of tree hold the derivation: node first, then left or upper part, then
// right or lower part, each node as its rule number and its k, the columns or rows of its first part (0 for a colour
// rule). At each node stands the lowest-numbered rule that can derive the piece, for a join with the smallest k that
// works. Everything else in work and tree is unchanged.
uint64_t dv_derive(size_t press, const uint8_t *book, size_t book_len, const uint8_t *sheet, size_t sheet_len,
                   uint32_t *work, size_t work_len, uint16_t *tree, size_t tree_len);

// Tells whether nodes that another program chose are a tree that derives the sheet from the start motif, with nothing
// left over: each node, then the nodes of its left or upper part, then those of its right or lower part. Every rule and
// every k that derive the sheet are taken, not only those of dv_derive, whose tree is one of them. Answers, in this
// order: 21; 1 to 8 or 18 blaming 1, the book; 1 to 8 blaming 2, the sheet; 16; 0. No slice is written, and any number
// of nodes may be lent.
//
// A node is judged by the motif and the piece that it is due for, before the nodes of its parts. It fails where no rule
// has its number, or its rule's head is another motif; where its colour rule stands on a piece of more than one cell,
// on a cell of another colour, or with a k that is not 0; and where its join's k leaves a part with no columns or rows.
// The place of 16 is the first node that fails, from 0. Where a node is missing it is the number that the node would
// have, and where nodes are left over the number of those that were read.
uint64_t dv_check_tree(size_t press, const uint8_t *book, size_t book_len, const uint8_t *sheet, size_t sheet_len,
                       const struct dv_node *nodes, size_t nodes_len);

// Decides whether the family derives the sheet by a second engine, to test a RIP build on the bench: with no table and
// no slice to work in, it tries every rule that has the motif for its head and every cut, and asks the same of the two
// parts. It shares no code with dv_derive beyond the reading. Answers, in this order: 21; 1 to 8 or 18 blaming 1, the
// book; 1 to 8 blaming 2, the sheet; 20 where the sheet has more than DV_MOST_PLAIN_CELLS cells; 11; 0. Where it does
// not answer 20, its whole answer but the count, which is 0, is that of dv_derive with slices long enough. No slice is
// written.
//
// Every call ends, but nothing is kept of what was asked before, and the time grows with the ways in which the sheet
// comes apart: with many rules under one head 16 cells can take longer than anyone waits. docs/SPEED.md has how it
// grows. It asks at most rows + columns - 1 deep, so that DV_ENOUGH_STACK is enough for it too. Not for the press.
uint64_t dv_plain(size_t press, const uint8_t *book, size_t book_len, const uint8_t *sheet, size_t sheet_len);

// Writes the family's size card, for order entry: an entry for each number of rows that the press takes. Bit c-1 of
// entry r-1 is set exactly when the family has some sheet of r rows and c columns, in any of its colours; other bits
// are clear. Answers, in this order: 21; 1 to 8 or 18 blaming 1; 13 where the card slice has fewer than
// dv_card_entries(press) entries; 0, with the number of sizes as the count, which is that of the set bits. A refusal
// writes nothing. Everything else in card is unchanged.
uint64_t dv_size_card(size_t press, const uint8_t *book, size_t book_len, uint32_t *card, size_t card_len);

// Whether a card has a size: from 1 row and 1 column up to the most that the press of the card takes.
static inline int dv_has_size(const uint32_t *card, size_t rows, size_t columns)
{
    return (int)(card[rows - 1] >> (columns - 1) & 1);
}

// Says why a sheet of m rows and n columns is not in the family, for the desk that got 11. Answers, in this order: 21;
// 1 to 8 or 18 blaming 1, the book; 1 to 8 blaming 2, the sheet; 9; 15 where the sheet is in the family; 0, with a
// reason as the count, taken apart below. It is the first of these that is true:
// - DV_REASON_COLOUR, with row and column: a cell whose colour no rule of the book names, the first such cell, row by
//   row. Each colour rule names its colour, whether the start motif leads to it or not; the book's list names none.
// - DV_REASON_SIZE: the family has no sheet of m rows and n columns, as its size card of the same press says.
// - DV_REASON_PIECE, with row and column, height and width: the start motif derives this piece of the sheet, none of
//   greater area, and none of the same area that stands earlier in the table. Row and column are its top and left.
// - DV_REASON_NO_PIECE: it derives no piece of the sheet.
//
// On 0 and 15 the first dv_work_entries(m, n) entries of work hold the table of pieces, as after dv_derive; every other
// answer writes nothing. Everything else in work is unchanged.
uint64_t dv_why_not(size_t press, const uint8_t *book, size_t book_len, const uint8_t *sheet, size_t sheet_len,
                    uint32_t *work, size_t work_len);

// The kind of the reason in an answer of dv_why_not, or 0 where it has none, and what goes with it, rows and columns
// counted from 0. What the kind does not name is 0.
static inline unsigned dv_reason_kind(uint64_t answer) { return (unsigned)(answer >> 32 & 0x7); }
static inline size_t dv_reason_row(uint64_t answer) { return (size_t)(answer >> 35 & 0x1f); }
static inline size_t dv_reason_column(uint64_t answer) { return (size_t)(answer >> 40 & 0x1f); }
static inline size_t dv_reason_height(uint64_t answer) { return (size_t)(answer >> 45 & 0x1f); }
static inline size_t dv_reason_width(uint64_t answer) { return (size_t)(answer >> 50 & 0x1f); }

// Recolours one cell of a sheet of m rows and n columns, for the proofing desk: row and column from 0, and colour a
// number of the sheet's own list. Answers, in this order: 21; 1 to 8 or 18 blaming 1, the book; 1 to 8 blaming 2, the
// sheet; 19 where the sheet has no such row, column or colour; 9; 11; 0. On all but 11 and 0 nothing is written.
//
// On 0 and 11 the byte of that cell in sheet is the colour, and the entries of the pieces that contain the cell are
// made anew, smaller pieces first, each from the entries of its parts as they stand in work: so a call takes time by
// those pieces alone. Everything else in sheet and work is unchanged. Where the first dv_work_entries(m, n) entries of
// work held the table of the sheet, as dv_derive, dv_why_not or this call leaves them with the same book, they hold
// that of the sheet as it now is, and 0 and 11 say what dv_derive says of it. Elsewhere 0 and 11 say only whether the
// start motif's bit is set in the entry of the whole sheet as it then stands.
uint64_t dv_recolour(size_t press, const uint8_t *book, size_t book_len, uint8_t *sheet, size_t sheet_len,
                     uint32_t *work, size_t work_len, size_t row, size_t column, size_t colour);

// Reports on a run of sheets against one book, for planning. A run is at most DV_LONGEST_RUN bytes, on either press:
// sheets one after another, each preceded by its length, a number spelt as in a book. A length of 0 is a sheet that
// answers 1; an empty run has no sheets. What a sheet answers is what dv_derive does on the same press with room
// enough: 0 to 8 or 11. The figures are those of enum dv_figure; what they say of cells and tickets is of accepted
// sheets alone.
//
// Answers, in this order: 21; 13 where the figures slice has fewer than DV_REPORT_ENTRIES entries; 1 to 8 or 18
// blaming 1, the book; then, blaming 2, with a place in the run: 3 at 0 for a longer run; 1 or 2 for the first length
// that ends early or is misspelt, and 1, at the run's length, for one that passes the end; 9 where work has fewer than
// dv_most_work(press) entries; 0. The lengths of the whole run are judged before its first sheet.
//
// On 21 and 13 nothing is written. On 0 the first DV_REPORT_ENTRIES entries of figures are the figures and the first
// dv_most_work(press) entries of work are 0. On every other answer all these figures are 0, and work is unchanged.
// Everything else in figures and work is unchanged.
uint64_t dv_run_report(size_t press, const uint8_t *book, size_t book_len, const uint8_t *run, size_t run_len,
                       uint32_t *work, size_t work_len, uint32_t *figures, size_t figures_len);

// The eight combinations. Each answers, in this order: 1 to 8 or 18 blaming 1, the first book; 1 to 8 or 18 blaming 2,
// the second; 12; 13; 0. On 0 the first dv_count bytes of out are the new book. Everything else in out is unchanged.
//
// F, the first book, has f motifs and start s; G, the second, has g motifs and start t. F's colours come first, then
// those of G not in F by name, in G's order; G's colour numbers follow their names. G's motifs are raised by f.

// The sheets of either family. New start f+g: F's rules, G's rules, copies of F's rules with head s, then of G's with
// head t, copies taking the new head. A later rule equal to an earlier one is left out, and 12 counts what remains.
uint64_t dv_either_of(const uint8_t *first, size_t first_len, const uint8_t *second, size_t second_len, uint8_t *out,
                      size_t out_len);

// A sheet of the first family with one of the second to its right. New start f+g: F's rules, G's rules, then new start
// to s across raised t.
uint64_t dv_beside(const uint8_t *first, size_t first_len, const uint8_t *second, size_t second_len, uint8_t *out,
                   size_t out_len);

// A sheet of the first family with one of the second below it. As dv_beside, with the last rule down.
uint64_t dv_above(const uint8_t *first, size_t first_len, const uint8_t *second, size_t second_len, uint8_t *out,
                  size_t out_len);

// One or more sheets of the family, each to the right of the one before. New start f: F's rules, copies of those with
// head s under the new head, then new start to s across new start.
uint64_t dv_run(const uint8_t *book, size_t book_len, uint8_t *out, size_t out_len);

// One or more sheets of the family, each below the one before. As dv_run, with the last rule down.
uint64_t dv_stack(const uint8_t *book, size_t book_len, uint8_t *out, size_t out_len);

// The family's sheets with left and right exchanged: exchanges the motifs of across rules. Nothing else changes.
uint64_t dv_mirrored(const uint8_t *book, size_t book_len, uint8_t *out, size_t out_len);

// The family's sheets with top and bottom exchanged: exchanges the motifs of down rules. Nothing else changes.
uint64_t dv_flipped(const uint8_t *book, size_t book_len, uint8_t *out, size_t out_len);

// The family's sheets with rows and columns exchanged: exchanges kinds 1 and 2. Nothing else changes.
uint64_t dv_transposed(const uint8_t *book, size_t book_len, uint8_t *out, size_t out_len);

// The same family in a book without what nothing uses, which leaves room for combinations, and without later copies of
// equal rules, so that every call reads it: this call alone takes a book in which a rule stands twice. A motif is kept
// when it can be rewritten to colours with sizes forgotten and can be reached from the start by rules whose motifs all
// can. Rules that use only kept motifs are kept, but for later copies of an equal rule. The colour list stays, and what
// is left is renumbered in its old order. The tidied book derives the same sheets, of every size, and tidying it again
// gives the same bytes.
//
// Answers, in this order: 1 to 8 blaming 1; 17 exactly when the start motif cannot be rewritten to colours with sizes
// forgotten, so that the family has no sheet at all; 13; 0. On 0 the first dv_count bytes of out are the tidied book.
// Everything else in out is unchanged.
uint64_t dv_tidy(const uint8_t *book, size_t book_len, uint8_t *out, size_t out_len);

#ifdef DV_CHECKED

// Whether a slice of entries of so many bytes is null only where it is empty, is aligned, and ends where addresses do
// at the latest: so its length in bytes is a size_t too.
static inline int dv_is_lent(const void *slice, size_t length, size_t size)
{
    uintptr_t at = (uintptr_t)slice;
    return (slice != NULL || length == 0) && at % size == 0 && length <= (SIZE_MAX - at) / size;
}

// Whether two slices, of so many bytes, have no byte in common.
static inline int dv_are_apart(const void *one, size_t bytes, const void *other, size_t other_bytes)
{
    uintptr_t a = (uintptr_t)one, b = (uintptr_t)other;
    return bytes == 0 || other_bytes == 0 || (a < b ? b - a >= bytes : a - b >= other_bytes);
}

static inline uint64_t dv_checked_read_book(const uint8_t *book, size_t book_len)
{
    assert(dv_is_lent(book, book_len, 1));
    return dv_read_book(book, book_len);
}

static inline uint64_t dv_checked_read_sheet(size_t press, const uint8_t *sheet, size_t sheet_len)
{
    assert(dv_is_lent(sheet, sheet_len, 1));
    return dv_read_sheet(press, sheet, sheet_len);
}

static inline uint64_t dv_checked_counts(const uint8_t *book, size_t book_len)
{
    assert(dv_is_lent(book, book_len, 1));
    return dv_counts(book, book_len);
}

static inline uint64_t dv_checked_colour(const uint8_t *book, size_t book_len, size_t number)
{
    assert(dv_is_lent(book, book_len, 1));
    return dv_colour(book, book_len, number);
}

static inline uint64_t dv_checked_rule(const uint8_t *book, size_t book_len, size_t number)
{
    assert(dv_is_lent(book, book_len, 1));
    return dv_rule(book, book_len, number);
}

static inline uint64_t dv_checked_sheet_size(size_t press, const uint8_t *sheet, size_t sheet_len)
{
    assert(dv_is_lent(sheet, sheet_len, 1));
    return dv_sheet_size(press, sheet, sheet_len);
}

static inline uint64_t dv_checked_cell(size_t press, const uint8_t *sheet, size_t sheet_len, size_t row, size_t column)
{
    assert(dv_is_lent(sheet, sheet_len, 1));
    return dv_cell(press, sheet, sheet_len, row, column);
}

static inline uint64_t dv_checked_sheet_colour(size_t press, const uint8_t *sheet, size_t sheet_len, size_t number)
{
    assert(dv_is_lent(sheet, sheet_len, 1));
    return dv_sheet_colour(press, sheet, sheet_len, number);
}

static inline uint64_t dv_checked_run_sheet(const uint8_t *run, size_t run_len, size_t number)
{
    assert(dv_is_lent(run, run_len, 1));
    return dv_run_sheet(run, run_len, number);
}

static inline uint64_t dv_checked_derive(size_t press, const uint8_t *book, size_t book_len, const uint8_t *sheet,
                                         size_t sheet_len, uint32_t *work, size_t work_len, uint16_t *tree,
                                         size_t tree_len)
{
    assert(dv_is_lent(book, book_len, 1) && dv_is_lent(sheet, sheet_len, 1));
    assert(dv_is_lent(work, work_len, sizeof *work) && dv_is_lent(tree, tree_len, sizeof *tree));
    assert(dv_are_apart(work, work_len * sizeof *work, book, book_len));
    assert(dv_are_apart(work, work_len * sizeof *work, sheet, sheet_len));
    assert(dv_are_apart(work, work_len * sizeof *work, tree, tree_len * sizeof *tree));
    assert(dv_are_apart(tree, tree_len * sizeof *tree, book, book_len));
    assert(dv_are_apart(tree, tree_len * sizeof *tree, sheet, sheet_len));
    return dv_derive(press, book, book_len, sheet, sheet_len, work, work_len, tree, tree_len);
}

static inline uint64_t dv_checked_check_tree(size_t press, const uint8_t *book, size_t book_len, const uint8_t *sheet,
                                             size_t sheet_len, const struct dv_node *nodes, size_t nodes_len)
{
    assert(dv_is_lent(book, book_len, 1) && dv_is_lent(sheet, sheet_len, 1));
    assert(nodes_len <= SIZE_MAX / 2 && dv_is_lent(nodes, 2 * nodes_len, sizeof nodes->rule));
    return dv_check_tree(press, book, book_len, sheet, sheet_len, nodes, nodes_len);
}

static inline uint64_t dv_checked_plain(size_t press, const uint8_t *book, size_t book_len, const uint8_t *sheet,
                                        size_t sheet_len)
{
    assert(dv_is_lent(book, book_len, 1) && dv_is_lent(sheet, sheet_len, 1));
    return dv_plain(press, book, book_len, sheet, sheet_len);
}

static inline uint64_t dv_checked_size_card(size_t press, const uint8_t *book, size_t book_len, uint32_t *card,
                                            size_t card_len)
{
    assert(dv_is_lent(book, book_len, 1) && dv_is_lent(card, card_len, sizeof *card));
    assert(dv_are_apart(card, card_len * sizeof *card, book, book_len));
    return dv_size_card(press, book, book_len, card, card_len);
}

static inline uint64_t dv_checked_why_not(size_t press, const uint8_t *book, size_t book_len, const uint8_t *sheet,
                                          size_t sheet_len, uint32_t *work, size_t work_len)
{
    assert(dv_is_lent(book, book_len, 1) && dv_is_lent(sheet, sheet_len, 1));
    assert(dv_is_lent(work, work_len, sizeof *work));
    assert(dv_are_apart(work, work_len * sizeof *work, book, book_len));
    assert(dv_are_apart(work, work_len * sizeof *work, sheet, sheet_len));
    return dv_why_not(press, book, book_len, sheet, sheet_len, work, work_len);
}

static inline uint64_t dv_checked_recolour(size_t press, const uint8_t *book, size_t book_len, uint8_t *sheet,
                                           size_t sheet_len, uint32_t *work, size_t work_len, size_t row, size_t column,
                                           size_t colour)
{
    assert(dv_is_lent(book, book_len, 1) && dv_is_lent(sheet, sheet_len, 1));
    assert(dv_is_lent(work, work_len, sizeof *work));
    assert(dv_are_apart(sheet, sheet_len, book, book_len));
    assert(dv_are_apart(work, work_len * sizeof *work, book, book_len));
    assert(dv_are_apart(work, work_len * sizeof *work, sheet, sheet_len));
    return dv_recolour(press, book, book_len, sheet, sheet_len, work, work_len, row, column, colour);
}

static inline uint64_t dv_checked_run_report(size_t press, const uint8_t *book, size_t book_len, const uint8_t *run,
                                             size_t run_len, uint32_t *work, size_t work_len, uint32_t *figures,
                                             size_t figures_len)
{
    assert(dv_is_lent(book, book_len, 1) && dv_is_lent(run, run_len, 1));
    assert(dv_is_lent(work, work_len, sizeof *work) && dv_is_lent(figures, figures_len, sizeof *figures));
    assert(dv_are_apart(work, work_len * sizeof *work, book, book_len));
    assert(dv_are_apart(work, work_len * sizeof *work, run, run_len));
    assert(dv_are_apart(work, work_len * sizeof *work, figures, figures_len * sizeof *figures));
    assert(dv_are_apart(figures, figures_len * sizeof *figures, book, book_len));
    assert(dv_are_apart(figures, figures_len * sizeof *figures, run, run_len));
    return dv_run_report(press, book, book_len, run, run_len, work, work_len, figures, figures_len);
}

// The combinations of two books differ in the call alone, and so do those of one and dv_tidy.
#define DV_CHECKED_OF_TWO(name)                                                                                        \
    static inline uint64_t dv_checked_##name(const uint8_t *first, size_t first_len, const uint8_t *second,            \
                                             size_t second_len, uint8_t *out, size_t out_len)                          \
    {                                                                                                                  \
        assert(dv_is_lent(first, first_len, 1) && dv_is_lent(second, second_len, 1) && dv_is_lent(out, out_len, 1));   \
        assert(dv_are_apart(out, out_len, first, first_len) && dv_are_apart(out, out_len, second, second_len));        \
        return dv_##name(first, first_len, second, second_len, out, out_len);                                          \
    }
#define DV_CHECKED_OF_ONE(name)                                                                                        \
    static inline uint64_t dv_checked_##name(const uint8_t *book, size_t book_len, uint8_t *out, size_t out_len)       \
    {                                                                                                                  \
        assert(dv_is_lent(book, book_len, 1) && dv_is_lent(out, out_len, 1));                                          \
        assert(dv_are_apart(out, out_len, book, book_len));                                                            \
        return dv_##name(book, book_len, out, out_len);                                                                \
    }
DV_CHECKED_OF_TWO(either_of)
DV_CHECKED_OF_TWO(beside)
DV_CHECKED_OF_TWO(above)
DV_CHECKED_OF_ONE(run)
DV_CHECKED_OF_ONE(stack)
DV_CHECKED_OF_ONE(mirrored)
DV_CHECKED_OF_ONE(flipped)
DV_CHECKED_OF_ONE(transposed)
DV_CHECKED_OF_ONE(tidy)
#undef DV_CHECKED_OF_TWO
#undef DV_CHECKED_OF_ONE

#define dv_read_book dv_checked_read_book
#define dv_read_sheet dv_checked_read_sheet
#define dv_counts dv_checked_counts
#define dv_colour dv_checked_colour
#define dv_rule dv_checked_rule
#define dv_sheet_size dv_checked_sheet_size
#define dv_cell dv_checked_cell
#define dv_sheet_colour dv_checked_sheet_colour
#define dv_run_sheet dv_checked_run_sheet
#define dv_derive dv_checked_derive
#define dv_check_tree dv_checked_check_tree
#define dv_plain dv_checked_plain
#define dv_size_card dv_checked_size_card
#define dv_why_not dv_checked_why_not
#define dv_recolour dv_checked_recolour
#define dv_run_report dv_checked_run_report
#define dv_either_of dv_checked_either_of
#define dv_beside dv_checked_beside
#define dv_above dv_checked_above
#define dv_run dv_checked_run
#define dv_stack dv_checked_stack
#define dv_mirrored dv_checked_mirrored
#define dv_flipped dv_checked_flipped
#define dv_transposed dv_checked_transposed
#define dv_tidy dv_checked_tidy

#endif

#ifdef __cplusplus
}
#endif

#endif

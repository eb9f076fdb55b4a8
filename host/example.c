// A small RIP, to start a host from: tells which sizes a family has, a sheet's job ticket, whether the sheet belongs to
// the family and how it is made up or why not, and, where a second book is given, joins the two families, tidied where
// they are too much for one book. Rows, columns and bytes are counted from 1, as people do.
//
//     example [--wide] BOOK SHEET [SECOND-BOOK]
//
// With --wide the sheet is for the wide press. Exits with 0 where the sheet belongs to the family, 1 where it does not,
// and 2 where something is refused.
#include <druvelstek.h>
#include <stdio.h>
#include <stdlib.h>
#include <string.h>

enum { BELONGS = 0, DECLINED = 1, REFUSED = 2 };

// The press, and slices with room enough on either.
static size_t press = DV_PRESS;
static uint8_t book[DV_LONGEST_BOOK + 1], second[DV_LONGEST_BOOK + 1], sheet[DV_WIDE_LONGEST_SHEET + 1];
static size_t book_len, second_len, sheet_len;
static uint8_t joined[DV_LONGEST_BOOK], tidied[DV_LONGEST_BOOK];
static uint32_t work[DV_WIDE_MOST_WORK];
static uint16_t tree[DV_WIDE_MOST_TREE];
static uint32_t card[DV_WIDE_CARD_ENTRIES];

// Loads at most so many bytes of a file, and gives their number. One byte more than the longest that can be accepted is
// enough to have a longer file refused.
static size_t load(const char *path, uint8_t *bytes, size_t most)
{
    FILE *file = fopen(path, "rb");
    size_t length = file == NULL ? 0 : fread(bytes, 1, most, file);
    if (file == NULL || ferror(file)) {
        perror(path);
        exit(REFUSED);
    }
    fclose(file);
    return length;
}

// Prints the name of a colour that is shown of a book or a sheet.
static void print_name(const uint8_t *bytes, uint64_t shown)
{
    fwrite(bytes + dv_shown_place(shown), 1, dv_shown_length(shown), stdout);
}

// Says what is answered of something, or which of a call's inputs is at fault, and where.
static void say(const char *what, uint64_t answer, const char *first, const char *second_input)
{
    const char *text = dv_text(dv_number(answer));
    if (dv_blamed(answer) == 0)
        printf("%s: %s\n", what, text);
    else
        printf("%s: %s, at byte %zu\n", dv_blamed(answer) == 1 ? first : second_input, text, dv_place(answer) + 1);
}

// What order entry offers; all else is greyed out. Tells whether the book is a family's.
static int print_sizes(void)
{
    uint64_t answer = dv_size_card(press, book, book_len, card, DV_WIDE_CARD_ENTRIES);
    if (dv_number(answer) != DV_ACCEPTED) {
        say("the sizes", answer, "the book", "");
        return 0;
    }
    printf("the family has %zu of %zu sizes\n", dv_count(answer), dv_most_rows(press) * dv_most_columns(press));
    for (size_t rows = 1; rows <= dv_most_rows(press); rows++) {
        if (card[rows - 1] == 0)
            continue;
        printf("%zu rows by", rows);
        for (size_t columns = 1; columns <= dv_most_columns(press); columns++)
            if (dv_has_size(card, rows, columns))
                printf(" %zu", columns);
        printf(" columns\n");
    }
    return 1;
}

// Prints the panel of a node and the panels that it is cut into, and gives the node after them. The node names its rule
// by number; the rule says which way the piece is cut, or its colour.
static const uint16_t *print_panel(const uint16_t *node, size_t rows, size_t columns, size_t top, size_t left)
{
    uint64_t rule = dv_rule(book, book_len, node[0]);
    size_t k = node[1];
    printf("rule %u: %zu by %zu at row %zu, column %zu", node[0], rows, columns, top + 1, left + 1);
    if (dv_rule_kind(rule) == DV_KIND_COLOUR) {
        printf(", ");
        print_name(book, dv_colour(book, book_len, dv_rule_first(rule)));
        printf("\n");
        return node + 2;
    }
    if (dv_rule_kind(rule) == DV_KIND_ACROSS) {
        printf(", %zu and %zu columns side by side\n", k, columns - k);
        return print_panel(print_panel(node + 2, rows, k, top, left), rows, columns - k, top, left + k);
    }
    printf(", %zu and %zu rows one above the other\n", k, rows - k);
    return print_panel(print_panel(node + 2, k, columns, top, left), rows - k, columns, top + k, left);
}

// The first cell of an ink that no rule names.
static void print_ink(uint64_t reason)
{
    size_t row = dv_reason_row(reason), column = dv_reason_column(reason);
    uint64_t cell = dv_cell(press, sheet, sheet_len, row, column);
    printf("no rule names the ink of row %zu, column %zu: ", row + 1, column + 1);
    print_name(sheet, dv_sheet_colour(press, sheet, sheet_len, dv_cell_colour(cell)));
    printf("\n");
}

// The largest piece of the family in the sheet.
static void print_piece(uint64_t reason)
{
    size_t top = dv_reason_row(reason), left = dv_reason_column(reason);
    printf("a piece of it is: rows %zu to %zu of columns %zu to %zu, and no larger one\n", top + 1,
           top + dv_reason_height(reason), left + 1, left + dv_reason_width(reason));
}

// What the desk tells the client of a sheet of so many rows and columns.
static void print_reason(size_t rows, size_t columns)
{
    uint64_t answer = dv_why_not(press, book, book_len, sheet, sheet_len, work, DV_WIDE_MOST_WORK);
    switch (dv_reason_kind(answer)) {
    case DV_REASON_COLOUR:
        print_ink(answer);
        break;
    case DV_REASON_SIZE:
        printf("the family has no sheet of %zu by %zu\n", rows, columns);
        break;
    case DV_REASON_PIECE:
        print_piece(answer);
        break;
    case DV_REASON_NO_PIECE:
        printf("the family has sheets of %zu by %zu, and no piece of this one belongs to it\n", rows, columns);
        break;
    default:
        say("why not", answer, "the book", "the sheet");
    }
}

// Asks about the sheet, and gives what the program exits with.
static int ask(void)
{
    uint64_t answer =
        dv_derive(press, book, book_len, sheet, sheet_len, work, DV_WIDE_MOST_WORK, tree, DV_WIDE_MOST_TREE);
    uint64_t size = dv_sheet_size(press, sheet, sheet_len);
    if (size != 0)
        printf("job ticket %u\n", (unsigned)dv_ticket(dv_read_sheet(press, sheet, sheet_len)));
    say("the sheet", answer, "the book", "the sheet");
    switch (dv_number(answer)) {
    case DV_ACCEPTED:
        print_panel(tree, dv_size_rows(size), dv_size_columns(size), 0, 0);
        return BELONGS;
    case DV_NOT_DERIVED:
        print_reason(dv_size_rows(size), dv_size_columns(size));
        return DECLINED;
    default:
        return REFUSED;
    }
}

// Puts the tidied book, which has the same sheets, in the place of a book, and gives its length.
static size_t tidy(const char *what, uint8_t *bytes, size_t length)
{
    uint64_t answer = dv_tidy(bytes, length, tidied, sizeof tidied);
    if (dv_number(answer) != DV_ACCEPTED) {
        say(what, answer, what, "");
        return length;
    }
    printf("%s tidied: %zu bytes of %zu\n", what, dv_count(answer), length);
    memcpy(bytes, tidied, dv_count(answer));
    return dv_count(answer);
}

static uint64_t join_side_by_side(void)
{
    uint64_t answer = dv_beside(book, book_len, second, second_len, joined, sizeof joined);
    say("the two families side by side", answer, "the book", "the second book");
    return answer;
}

// Joins the two families, and tells whether there is a book of both. What is too much for one book is often motifs that
// nothing uses, left from earlier combinations.
static int join(void)
{
    uint64_t answer = join_side_by_side();
    if (dv_number(answer) == DV_TOO_MANY) {
        book_len = tidy("the book", book, book_len);
        second_len = tidy("the second book", second, second_len);
        answer = join_side_by_side();
    }
    if (dv_number(answer) != DV_ACCEPTED)
        return 0;
    printf("a book of %zu bytes\n", dv_count(answer));
    return 1;
}

int main(int argc, char **argv)
{
    if (argc > 1 && strcmp(argv[1], "--wide") == 0) {
        press = DV_WIDE_PRESS;
        argc--;
        argv++;
    }
    if (argc < 3 || argc > 4) {
        fprintf(stderr, "usage: example [--wide] BOOK SHEET [SECOND-BOOK]\n");
        return REFUSED;
    }
    if (dv_version() != DV_VERSION) {
        fprintf(stderr, "example: the archive has version %d, the header %d\n", (int)dv_version(), DV_VERSION);
        return REFUSED;
    }
    book_len = load(argv[1], book, sizeof book);
    sheet_len = load(argv[2], sheet, sizeof sheet);
    if (argc == 4)
        second_len = load(argv[3], second, sizeof second);
    if (!print_sizes())
        return REFUSED;
    int status = ask();
    return argc == 4 && !join() ? REFUSED : status;
}

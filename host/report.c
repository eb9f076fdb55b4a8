// A run of sheets in figures, as planning reads them: how many belong to the family, which of them do not and what each
// got, how many cells of each ink are printed, and from which ticket to which. Sheets and bytes are counted from 1, as
// people do.
//
//     report [--wide] BOOK RUN
//
// With --wide the sheets are for the wide press. Exits with 0 where the run is reported on, and 2 where book or run is
// refused.
#include <druvelstek.h>
#include <stdio.h>
#include <stdlib.h>
#include <string.h>

enum { REPORTED = 0, REFUSED = 2 };

// The press, and slices with room enough on either.
static size_t press = DV_PRESS;
static uint8_t book[DV_LONGEST_BOOK + 1], run[DV_LONGEST_RUN + 1];
static size_t book_len, run_len;
static uint32_t work[DV_WIDE_MOST_WORK], figures[DV_REPORT_ENTRIES];
static uint16_t tree[DV_WIDE_MOST_TREE];

// Loads at most so many bytes of a file, and gives their number. One byte more than the longest that can be accepted is
// enough to have a longer file refused.
static size_t load(const char *path, uint8_t *bytes, size_t most)
{
    FILE *file = fopen(path, "rb");
    size_t length = file == NULL ? 0 : fread(bytes, 1, most, file);
    if (file == NULL || ferror(file)) {
        perror(path);
        exit(REFUSED);
    }
    fclose(file);
    return length;
}

// Says which input is at fault and where. Of the lengths in a run none is out of range, so that
// there the number says that the whole run is too long.
static void print_refusal(uint64_t answer)
{
    const char *text = dv_text(dv_number(answer)), *blamed = dv_blamed(answer) == 1 ? "the book" : "the run";
    if (dv_blamed(answer) == 0)
        printf("the report: %s\n", text);
    else if (dv_blamed(answer) == 2 && dv_number(answer) == DV_OUT_OF_RANGE)
        printf("the run: longer than %d bytes, the most that a run may have\n", DV_LONGEST_RUN);
    else
        printf("%s: %s, at byte %zu\n", blamed, text, dv_place(answer) + 1);
}

// So many of a thing, the word with an s where they are not one.
static void print_count(uint32_t count, const char *what)
{
    printf("%u %s%s", (unsigned)count, what, count == 1 ? "" : "s");
}

static void print_answered(uint32_t count, unsigned number)
{
    if (count == 0)
        return;
    print_count(count, "sheet");
    printf(": %s\n", dv_text(number));
}

static void print_answers(void)
{
    print_count(figures[DV_FIGURE_SHEETS], "sheet");
    printf("\n");
    for (unsigned number = DV_ACCEPTED; number <= DV_BYTES_FOLLOW; number++)
        print_answered(figures[DV_FIGURE_ANSWERED + number], number);
    print_answered(figures[DV_FIGURE_NOT_DERIVED], DV_NOT_DERIVED);
}

// A sheet of the run by itself: its number, its ticket where it can be read, and what it gets where that is not to be
// accepted.
static void print_sheet(size_t number)
{
    uint64_t shown = dv_run_sheet(run, run_len, number);
    const uint8_t *sheet = run + dv_shown_place(shown);
    size_t length = dv_shown_length(shown);
    uint64_t answer =
        dv_derive(press, book, book_len, sheet, length, work, DV_WIDE_MOST_WORK, tree, DV_WIDE_MOST_TREE);
    const char *text = dv_text(dv_number(answer));
    if (dv_number(answer) == DV_NOT_DERIVED)
        printf("sheet %zu, job ticket %u: %s\n", number + 1, (unsigned)dv_ticket(dv_read_sheet(press, sheet, length)),
               text);
    else if (dv_number(answer) != DV_ACCEPTED)
        printf("sheet %zu: %s, at its byte %zu\n", number + 1, text, dv_place(answer) + 1);
}

static void print_sheets(void)
{
    for (size_t number = 0; number < figures[DV_FIGURE_SHEETS]; number++)
        print_sheet(number);
}

// Every ink of the book by name, printed or not.
static void print_cells(void)
{
    size_t colours = dv_counts_colours(dv_counts(book, book_len));
    for (size_t colour = 0; colour < colours; colour++) {
        uint64_t shown = dv_colour(book, book_len, colour);
        fwrite(book + dv_shown_place(shown), 1, dv_shown_length(shown), stdout);
        printf(": ");
        print_count(figures[DV_FIGURE_CELLS + colour], "cell");
        printf("\n");
    }
}

static void print_tickets(void)
{
    if (figures[DV_FIGURE_ACCEPTED])
        printf("job tickets %u to %u\n", (unsigned)figures[DV_FIGURE_LEAST], (unsigned)figures[DV_FIGURE_GREATEST]);
    else
        printf("no sheet is accepted, so that there is no job ticket\n");
}

int main(int argc, char **argv)
{
    if (argc > 1 && strcmp(argv[1], "--wide") == 0) {
        press = DV_WIDE_PRESS;
        argc--;
        argv++;
    }
    if (argc != 3) {
        fprintf(stderr, "usage: report [--wide] BOOK RUN\n");
        return REFUSED;
    }
    if (dv_version() != DV_VERSION) {
        fprintf(stderr, "report: the archive has version %d, the header %d\n", (int)dv_version(), DV_VERSION);
        return REFUSED;
    }
    book_len = load(argv[1], book, sizeof book);
    run_len = load(argv[2], run, sizeof run);
    uint64_t answer =
        dv_run_report(press, book, book_len, run, run_len, work, DV_WIDE_MOST_WORK, figures, DV_REPORT_ENTRIES);
    if (dv_number(answer) != DV_ACCEPTED) {
        print_refusal(answer);
        return REFUSED;
    }
    print_answers();
    print_sheets();
    print_cells();
    print_tickets();
    return REPORTED;
}

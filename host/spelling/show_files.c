#include <stdbool.h>
#include <stdio.h>

#include "answers.h"
#include "commands.h"
#include "files.h"
#include "panels.h"
#include "show.h"
#include "spell.h"

static struct book book;
static struct sheet sheet;
static struct bytes bytes, sheet_bytes;

static void load_bytes(struct bytes *into, const char *path)
{
    into->length = load(path, into->at, sizeof into->at);
}

int show_file(unsigned options, char **path, int count)
{
    (void)count;
    load_bytes(&bytes, path[0]);
    uint64_t book_answer = dv_read_book(bytes.at, bytes.length);
    uint64_t sheet_answer = dv_read_sheet(press_of(options), bytes.at, bytes.length);
    bool is_book = dv_number(book_answer) == DV_ACCEPTED && !(options & AS_SHEET);
    bool is_sheet = dv_number(sheet_answer) == DV_ACCEPTED && !(options & AS_BOOK);
    if (is_book && is_sheet) {
        fprintf(stderr, "%s: both a book and a sheet: --book or --sheet says which to show\n", path[0]);
        return REFUSED;
    }
    if (is_book) {
        unspell_book(bytes.at, &book);
        show_book(&book);
        return DONE;
    }
    if (is_sheet) {
        unspell_sheet(bytes.at, &sheet);
        show_sheet(&sheet);
        return DONE;
    }
    if (!(options & AS_SHEET))
        print_refusal(path[0], "a book", book_answer);
    if (!(options & AS_BOOK))
        print_refusal(path[0], "a sheet", sheet_answer);
    return REFUSED;
}

static int show_with_book(size_t press, const char *path)
{
    load_bytes(&sheet_bytes, path);
    expect_accepted(path, "a sheet", dv_read_sheet(press, sheet_bytes.at, sheet_bytes.length));
    return show_panels(press, &bytes, &sheet_bytes);
}

int show_sheets(unsigned options, char **path, int count)
{
    int status = DONE;
    load_bytes(&bytes, path[0]);
    expect_accepted(path[0], "a book", dv_read_book(bytes.at, bytes.length));
    for (int i = 1; i < count; i++) {
        if (i > 1)
            printf("\n");
        if (show_with_book(press_of(options), path[i]) == DECLINED)
            status = DECLINED;
    }
    return status;
}

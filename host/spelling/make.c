#include <stdio.h>
#include <stdlib.h>
#include <string.h>

#include "answers.h"
#include "book_text.h"
#include "commands.h"
#include "files.h"
#include "run_list.h"
#include "sheet_text.h"
#include "spell.h"

static struct text text;
static struct book book;
static struct sheet sheet;
static struct run run;
static struct bytes bytes;

// Loads the text of the first file, which the second must not write over.
static void load_first(char **path)
{
    if (strcmp(path[0], path[1]) == 0) {
        fprintf(stderr, "%s: expected two different files\n", path[0]);
        exit(REFUSED);
    }
    load_text(&text, path[0]);
}

// So many of a thing, the word with an s where they are not one, and what follows.
static void print_count(unsigned count, const char *what, const char *then)
{
    printf("%u %s%s%s", count, what, count == 1 ? "" : "s", then);
}

int make_book(unsigned options, char **path, int count)
{
    (void)options, (void)count;
    load_first(path);
    read_book_text(&text, &book);
    spell_book(&book, &bytes);
    expect_accepted(path[0], "a book", dv_read_book(bytes.at, bytes.length));
    save(path[1], bytes.at, bytes.length);
    printf("%s: a book of %zu bytes with ", path[1], bytes.length);
    print_count(book.colours.count, "colour", ", ");
    print_count(book.motifs, "motif", " and ");
    print_count(book.rules, "rule", "\n");
    return DONE;
}

int make_sheet(unsigned options, char **path, int count)
{
    (void)count;
    load_first(path);
    read_sheet_text(&text, &sheet, press_of(options));
    spell_sheet(&sheet, &bytes);
    expect_accepted(path[0], "a sheet", dv_read_sheet(press_of(options), bytes.at, bytes.length));
    save(path[1], bytes.at, bytes.length);
    printf("%s: a sheet of %zu bytes, %u by %u, job ticket %u\n", path[1], bytes.length, sheet.rows, sheet.columns,
           sheet.ticket);
    return DONE;
}

int make_run(unsigned options, char **path, int count)
{
    (void)count;
    load_first(path);
    read_run_list(&text, &run, press_of(options), (options & ANY) != 0);
    unsigned sheets = count_sheets(path[0], &run, press_of(options));
    save(path[1], run.at, run.length);
    printf("%s: a run of %zu bytes with ", path[1], run.length);
    print_count(sheets, "sheet", "\n");
    return DONE;
}

// Writes books and sheets into the working folder, for spelled.sh to have them shown and spelt again: the books of
// docs/RULES.md, books by chance, every combination of them, and sheets by chance.
#include <stdio.h>
#include <stdlib.h>
#include <string.h>

#include "../../shared/chance.h"
#include "../../shared/grow.h"

enum { BY_CHANCE = 8, SHEETS = 60, ROOM = 16 };

#define SLATES 2, 7, 'S', 'l', 'a', 't', 'e', ' ', 'C', 7, 'S', 'l', 'a', 't', 'e', ' ', 'U'

static const uint8_t house[] = {SLATES, 3, 0, 4, 0, 1, 0, 0, 0, 2, 1, 2, 1, 0, 0, 2, 0, 1};
static const uint8_t red[] = {1, 3, 'R', 'e', 'd', 1, 0, 3, 0, 0, 0, 0, 1, 0, 0, 0, 2, 0, 0};
static const uint8_t sheet_too[] = {2, 1, 'A', 1, 'B', 4, 3, 1, 0, 0, 0};
static const uint8_t tidied[] = {SLATES, 3, 2, 4, 2, 1, 1, 0, 0, 0, 1, 1, 0, 0, 1, 0, 1};
static const uint8_t endless[] = {SLATES, 2, 0, 2, 0, 1, 0, 1, 1, 0, 0};

static struct bytes book[ROOM];
static unsigned books;

static void write_file(const char *what, const uint8_t *bytes, size_t length)
{
    static unsigned written;
    char path[64];
    snprintf(path, sizeof path, "%s-%04u.bin", what, ++written);
    FILE *file = fopen(path, "wb");
    if (file == NULL || fwrite(bytes, 1, length, file) != length || fclose(file) != 0) {
        perror(path);
        exit(2);
    }
}

static void add_book(const uint8_t *bytes, size_t length)
{
    memcpy(book[books].at, bytes, length);
    book[books++].length = length;
    write_file("book", bytes, length);
}

static void add_books(void)
{
    static struct family family;
    static struct bytes grown;
    add_book(house, sizeof house);
    add_book(red, sizeof red);
    add_book(sheet_too, sizeof sheet_too);
    add_book(tidied, sizeof tidied);
    add_book(endless, sizeof endless);
    for (unsigned i = 0; i < BY_CHANCE; i++) {
        grow_some_family(&family);
        spell_book(&family, &grown);
        add_book(grown.at, grown.length);
    }
    // As large as a book can be.
    grow_family(&family, DV_MOST_COLOURS, DV_MOST_MOTIFS, DV_MOST_RULES);
    spell_book(&family, &grown);
    add_book(grown.at, grown.length);
}

// A combination may be too much for one book.
static void write_combination(uint64_t answer, const uint8_t *out)
{
    if (dv_number(answer) == DV_ACCEPTED)
        write_file("book", out, dv_count(answer));
}

static void combine(const struct bytes *one, const struct bytes *other)
{
    static uint64_t (*const calls[])(const uint8_t *, size_t, const uint8_t *, size_t, uint8_t *, size_t) = {
        dv_either_of, dv_beside, dv_above};
    static uint8_t out[DV_LONGEST_BOOK];
    for (size_t i = 0; i < sizeof calls / sizeof *calls; i++)
        write_combination(calls[i](one->at, one->length, other->at, other->length, out, sizeof out), out);
}

static void change(const struct bytes *one)
{
    static uint64_t (*const calls[])(const uint8_t *, size_t, uint8_t *, size_t) = {dv_run, dv_stack, dv_mirrored,
                                                                                    dv_flipped, dv_transposed};
    static uint8_t out[DV_LONGEST_BOOK];
    for (size_t i = 0; i < sizeof calls / sizeof *calls; i++)
        write_combination(calls[i](one->at, one->length, out, sizeof out), out);
}

static void write_sheets(void)
{
    static struct family family;
    static struct grid grid;
    static struct bytes sheet;
    for (unsigned i = 0; i < SHEETS; i++) {
        grow_some_family(&family);
        grow_grid(&family, &grid, DV_MOST_ROWS, DV_MOST_COLUMNS);
        relist(&grid);
        spell_sheet(&grid, &sheet);
        write_file("sheet", sheet.at, sheet.length);
    }
}

int main(void)
{
    chance_seed(1);
    add_books();
    for (unsigned i = 0; i < books; i++) {
        change(&book[i]);
        for (unsigned j = 0; j < books; j++)
            combine(&book[i], &book[j]);
    }
    write_sheets();
    return 0;
}

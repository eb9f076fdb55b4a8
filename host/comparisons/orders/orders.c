// Makes the files of some hundred orders, and what the program belongs is to print of each by the independent engine:
//
//     orders FOLDER [SEED]
//
// Each order gets a folder of its own with book.bin, sheet.bin and expected. A file that is missing counts as empty.
#define _DEFAULT_SOURCE // mkdir
#include <stdio.h>
#include <stdlib.h>
#include <string.h>
#include <sys/stat.h>

#include "../../independent/independent.h"
#include "../../shared/chance.h"
#include "../../shared/damage.h"
#include "../../shared/grow.h"

// The program reads at most so many bytes of a file.
enum { READ = 8192, LONGEST = 2 * READ, BY_CHANCE = 220 };

struct file {
    bool missing;
    size_t length;
    uint8_t at[LONGEST];
};

static struct file book, sheet;

static void fill(struct file *file, const struct bytes *bytes)
{
    file->missing = false;
    file->length = bytes->length;
    memcpy(file->at, bytes->at, bytes->length);
}

static void empty(struct file *file, bool missing)
{
    file->missing = missing;
    file->length = 0;
}

// Goes on to about what the program reads, or well past it.
static void lengthen(struct file *file)
{
    size_t length = one_in(3) ? LONGEST : READ - 2 + chance_below(5);
    bool noise = one_in(2);
    for (; file->length < length; file->length++)
        file->at[file->length] = noise ? (uint8_t)chance_bits() : file->at[file->length % 7];
}

static FILE *opened(const char *folder, const char *name)
{
    char path[4096];
    snprintf(path, sizeof path, "%s/%s", folder, name);
    FILE *file = fopen(path, "wb");
    if (file == NULL) {
        perror(path);
        exit(2);
    }
    return file;
}

static void closed(FILE *file)
{
    if (fclose(file) != 0) {
        perror("orders");
        exit(2);
    }
}

static void write_file(const char *folder, const char *name, const struct file *file)
{
    if (file->missing)
        return;
    FILE *to = opened(folder, name);
    fwrite(file->at, 1, file->length, to);
    closed(to);
}

static void write_expected(const char *folder)
{
    static uint32_t work[DV_MOST_WORK];
    static uint16_t tree[DV_MOST_TREE];
    memset(tree, 0xff, sizeof tree);
    uint64_t answer = independent_derive(DV_PRESS, book.at, book.length, sheet.at, sheet.length, work, DV_MOST_WORK,
                                         tree, DV_MOST_TREE);
    FILE *to = opened(folder, "expected");
    fprintf(to, "%u %u %zu\n", dv_number(answer), dv_blamed(answer), dv_place(answer));
    // Past the last node the slice is as it was, and no rule has that number.
    for (unsigned i = 0; dv_number(answer) == DV_ACCEPTED && i < DV_MOST_TREE && tree[i] != 0xffff; i += 2)
        fprintf(to, "%u %u\n", tree[i], tree[i + 1]);
    closed(to);
}

static void write_order(const char *folder)
{
    static unsigned orders;
    char path[4000];
    snprintf(path, sizeof path, "%s/%04u", folder, orders++);
    if (mkdir(path, 0777) != 0) {
        perror(path);
        exit(2);
    }
    write_file(path, "book.bin", &book);
    write_file(path, "sheet.bin", &sheet);
    write_expected(path);
}

static void spell_order(const struct family *family, const struct grid *grid)
{
    struct bytes bytes;
    spell_book(family, &bytes);
    fill(&book, &bytes);
    spell_sheet(grid, &bytes);
    fill(&sheet, &bytes);
}

static void damage_file(struct file *file)
{
    struct bytes bytes = {file->length, {0}};
    memcpy(bytes.at, file->at, file->length);
    damage(&bytes);
    fill(file, &bytes);
}

// The program is for the present press: it refuses a sheet that only the wide one takes.
static void order_by_chance(void)
{
    struct family family;
    struct grid grid;
    grow_some_family(&family);
    unsigned most = one_in(8) ? DV_MOST_ROWS : one_in(8) ? DV_WIDE_MOST_ROWS : 5;
    grow_grid(&family, &grid, most, most);
    relist(&grid);
    if (one_in(4))
        spoil_cell(&grid);
    spell_order(&family, &grid);
    struct file *file = one_in(2) ? &book : &sheet;
    switch (chance_below(6)) {
    case 0:
        empty(file, one_in(2));
        break;
    case 1:
    case 2:
        damage_file(file);
        break;
    case 3:
        lengthen(file);
        break;
    default:
        break;
    }
}

// Each file missing, empty or there, and each as long as can be accepted.
static void write_plain_orders(const char *folder)
{
    struct family family = {.motifs = DV_MOST_MOTIFS};
    struct grid grid = {.ticket = DV_GREATEST_TICKET, .rows = DV_MOST_ROWS, .columns = DV_MOST_COLUMNS};
    grow_palette(&family.palette, DV_MOST_COLOURS);
    for (int i = 0; i < DV_MOST_COLOURS; i++) {
        memset(family.palette.ink[i].name, '!' + i, DV_LONGEST_NAME);
        family.palette.ink[i].length = DV_LONGEST_NAME;
        add_rule(&family, 0, DV_KIND_COLOUR, (unsigned)i, 0);
    }
    add_rule(&family, 0, DV_KIND_ACROSS, 0, 0);
    add_rule(&family, 0, DV_KIND_DOWN, 0, 0);
    while (family.rules < DV_MOST_RULES)
        add_new_rule(&family, 0, family.rules % 2 == 0 ? DV_KIND_ACROSS : DV_KIND_DOWN, chance_below(DV_MOST_MOTIFS),
                     chance_below(DV_MOST_MOTIFS));
    grid.palette = family.palette;
    for (unsigned i = 0; i < grid.rows * grid.columns; i++)
        grid.cell[i] = chance_below(DV_MOST_COLOURS);
    for (int of_book = 0; of_book < 3; of_book++)
        for (int of_sheet = 0; of_sheet < 3; of_sheet++) {
            spell_order(&family, &grid);
            if (of_book > 0)
                empty(&book, of_book == 1);
            if (of_sheet > 0)
                empty(&sheet, of_sheet == 1);
            write_order(folder);
        }
}

int main(int argc, char **argv)
{
    if (argc < 2 || argc > 3) {
        fprintf(stderr, "usage: orders FOLDER [SEED]\n");
        return 2;
    }
    chance_seed(argc > 2 ? strtoull(argv[2], NULL, 10) : 1);
    write_plain_orders(argv[1]);
    for (int i = 0; i < BY_CHANCE; i++) {
        order_by_chance();
        write_order(argv[1]);
    }
    return 0;
}

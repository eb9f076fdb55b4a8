// Why sheets are not in the family: books and sheets by chance, with a work slice of exactly the entries needed, one
// less, one more and none. On small sheets each reason is held to what is plain to see: the names of the colours, the
// size card, and every piece asked about as a sheet of its own.
#include "../shared/chance.h"
#include "../shared/grow.h"
#include "compare.h"

enum { SMALL = 12 };

static uint64_t reason(unsigned kind, size_t row, size_t column, size_t height, size_t width)
{
    return (uint64_t)(kind | row << 3 | column << 8 | height << 13 | width << 18) << 32;
}

static bool is_named(const struct family *family, const struct ink *ink)
{
    for (unsigned i = 0; i < family->rules; i++)
        if (family->rule[i].kind == DV_KIND_COLOUR && same_ink(&family->palette.ink[family->rule[i].first], ink))
            return true;
    return false;
}

static unsigned first_not_named(const struct family *family, const struct grid *grid)
{
    unsigned cell = 0;
    while (cell < grid->rows * grid->columns && is_named(family, &grid->palette.ink[grid->cell[cell]]))
        cell++;
    return cell;
}

static bool has_size(size_t press, const struct bytes *book, const struct grid *grid)
{
    uint32_t card[DV_WIDE_CARD_ENTRIES];
    compare_size_card(press, book, dv_card_entries(press), card);
    return dv_has_size(card, grid->rows, grid->columns);
}

// Whether the family derives the piece of a grid, cut out of it.
static bool derives(size_t press, const struct bytes *book, const struct grid *grid, unsigned height, unsigned width,
                    unsigned top, unsigned left)
{
    struct grid piece = {.palette = grid->palette, .rows = height, .columns = width};
    struct bytes sheet;
    for (unsigned i = 0; i < height * width; i++)
        piece.cell[i] = grid->cell[(top + i / width) * grid->columns + left + i % width];
    spell_sheet(&piece, &sheet);
    return compare_derive(press, book, &sheet, roomy_work(press), roomy_tree(press)) == DV_ACCEPTED;
}

static uint64_t largest_piece(size_t press, const struct bytes *book, const struct grid *grid)
{
    uint64_t largest = reason(DV_REASON_NO_PIECE, 0, 0, 0, 0);
    unsigned area = 0;
    for (unsigned height = 1; height <= grid->rows; height++)
        for (unsigned width = 1; width <= grid->columns; width++)
            for (unsigned top = 0; top + height <= grid->rows; top++)
                for (unsigned left = 0; left + width <= grid->columns; left++)
                    if (height * width > area && derives(press, book, grid, height, width, top, left)) {
                        area = height * width;
                        largest = reason(DV_REASON_PIECE, top, left, height, width);
                    }
    return largest;
}

static uint64_t due(size_t press, const struct family *family, const struct bytes *book, const struct grid *grid)
{
    unsigned cell = first_not_named(family, grid);
    if (cell < grid->rows * grid->columns)
        return reason(DV_REASON_COLOUR, cell / grid->columns, cell % grid->columns, 0, 0);
    return has_size(press, book, grid) ? largest_piece(press, book, grid) : reason(DV_REASON_SIZE, 0, 0, 0, 0);
}

static void compare_grid(size_t press, const struct family *family, const struct bytes *book, const struct grid *grid)
{
    struct bytes sheet;
    spell_sheet(grid, &sheet);
    size_t work = dv_work_entries(grid->rows, grid->columns);
    uint64_t derived = compare_derive(press, book, &sheet, roomy_work(press), roomy_tree(press));
    uint64_t answer = compare_why_not(press, book, &sheet, work);
    if (answer != compare_why_not(press, book, &sheet, work + 1) ||
        answer != compare_why_not(press, book, &sheet, roomy_work(press)))
        wrong("the reason changes with the room");
    if (compare_why_not(press, book, &sheet, work - 1) != DV_WORK_SHORT ||
        compare_why_not(press, book, &sheet, 0) != DV_WORK_SHORT)
        wrong("a work slice that is too short is not refused");
    if (derived == DV_ACCEPTED ? answer != DV_IN_FAMILY : dv_number(answer) != DV_ACCEPTED || dv_count(answer) == 0)
        wrong("there is a reason for a sheet in the family, or none for another");
    if (derived != DV_ACCEPTED && grid->rows * grid->columns <= SMALL && answer != due(press, family, book, grid))
        wrong("the reason is not the first that is true");
}

// Colours by chance that rules name, where there are any.
static void recolour(const struct family *family, struct grid *grid)
{
    grid->palette = family->palette;
    for (unsigned i = 0; i < grid->rows * grid->columns; i++) {
        grid->cell[i] = chance_below(grid->palette.count);
        for (unsigned tries = 0; tries < 8 && !is_named(family, &grid->palette.ink[grid->cell[i]]); tries++)
            grid->cell[i] = chance_below(grid->palette.count);
    }
}

// A sheet of the family, the same with one cell spoilt, and one of that size or another in colours by chance.
static void compare_family(size_t press, const struct family *family, unsigned most)
{
    struct grid grid;
    struct bytes book;
    spell_book(family, &book);
    grow_grid(family, &grid, chance_from(1, most), chance_from(1, most));
    compare_grid(press, family, &book, &grid);
    struct grid spoilt = grid;
    if (one_in(3))
        relist(&spoilt);
    spoil_cell(&spoilt);
    compare_grid(press, family, &book, &spoilt);
    if (one_in(2)) {
        grid.rows = chance_from(1, most);
        grid.columns = chance_from(1, most);
    }
    recolour(family, &grid);
    compare_grid(press, family, &book, &grid);
}

KIND(reasons)
{
    struct family family;
    for (unsigned i = 0; i < 3000; i++) {
        grow_some_family(&family);
        size_t press = some_press();
        compare_family(press, &family, some_side(press, 5, 40));
    }
    for (unsigned i = 0; i < 6; i++) {
        size_t press = i % 2 == 0 ? DV_PRESS : DV_WIDE_PRESS;
        grow_family(&family, DV_MOST_COLOURS, DV_MOST_MOTIFS, DV_MOST_RULES);
        compare_family(press, &family, dv_most_rows(press));
    }
}

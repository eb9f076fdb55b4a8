// Books and sheets that several lines take.
#include <string.h>

#include "../shared/chance.h"
#include "measure.h"

void house_family(struct family *family, struct grid *grid)
{
    *family = (struct family){.motifs = 3, .start = 0};
    *grid = (struct grid){.rows = 2, .columns = 3, .cell = {0, 0, 0, 1, 1, 1}};
    add_ink(&family->palette, "Slate C");
    add_ink(&family->palette, "Slate U");
    grid->palette = family->palette;
    add_rule(family, 0, DV_KIND_ACROSS, 0, 0);
    add_rule(family, 0, DV_KIND_DOWN, 1, 2);
    add_rule(family, 1, DV_KIND_COLOUR, 0, 0);
    add_rule(family, 2, DV_KIND_COLOUR, 1, 0);
}

void press_family(struct family *family, unsigned rules)
{
    *family = (struct family){.motifs = MOTIFS, .start = 0};
    add_ink(&family->palette, "Slate C");
    add_ink(&family->palette, "Slate U");
    add_rule(family, 0, DV_KIND_COLOUR, 0, 0);
    add_rule(family, 0, DV_KIND_COLOUR, 1, 0);
    add_rule(family, 0, DV_KIND_ACROSS, 0, 0);
    add_rule(family, 0, DV_KIND_DOWN, 0, 0);
    while (family->rules < rules)
        add_new_rule(family, chance_below(MOTIFS), family->rules % 2 == 0 ? DV_KIND_ACROSS : DV_KIND_DOWN,
                     chance_below(MOTIFS), chance_below(MOTIFS));
}

void press_grid(struct grid *grid, size_t press, const struct family *family)
{
    *grid = (struct grid){.palette = family->palette, .rows = dv_most_rows(press), .columns = dv_most_columns(press)};
    for (unsigned i = 0; i < grid->rows * grid->columns; i++)
        grid->cell[i] = chance_below(2);
}

void heavy_book(struct bytes *book, bool turned, unsigned rules)
{
    struct family family = {.motifs = MOTIFS - 1, .start = 0};
    char name[DV_LONGEST_NAME + 1] = {0};
    memset(name, 'n', DV_LONGEST_NAME);
    for (int i = 0; i < DV_MOST_COLOURS; i++) {
        name[DV_LONGEST_NAME - 1] = (char)('!' + (turned ? DV_MOST_COLOURS - 1 - i : i));
        add_ink(&family.palette, name);
    }
    while (family.rules < rules)
        add_new_rule(&family, 0, family.rules % 2 == 0 ? DV_KIND_ACROSS : DV_KIND_DOWN, chance_below(MOTIFS - 1),
                     chance_below(MOTIFS - 1));
    spell_book(&family, book);
}

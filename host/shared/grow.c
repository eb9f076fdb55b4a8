#include "grow.h"

#include <string.h>

#include "chance.h"

void grow_family(struct family *family, unsigned colours, unsigned motifs, unsigned rules)
{
    unsigned different = motifs * (colours + 2 * motifs * motifs);
    grow_palette(&family->palette, colours);
    family->motifs = motifs;
    family->rules = 0;
    while (family->rules < (rules < different ? rules : different)) {
        if (one_in(3))
            add_new_rule(family, chance_below(motifs), DV_KIND_COLOUR, chance_below(colours), 0);
        else
            add_new_rule(family, chance_below(motifs), chance_from(DV_KIND_ACROSS, DV_KIND_DOWN), chance_below(motifs),
                         chance_below(motifs));
    }
    // Most often a motif with rules of its own.
    family->start = one_in(8) ? chance_below(motifs) : family->rule[chance_below(family->rules)].head;
}

void repeat_rule(struct family *family)
{
    struct rule again = family->rule[chance_below(family->rules)];
    if (family->rules < DV_MOST_RULES)
        family->rule[family->rules++] = again;
}

void grow_some_family(struct family *family)
{
    switch (chance_below(16)) {
    case 0:
        grow_family(family, chance_from(1, DV_MOST_COLOURS), chance_from(1, DV_MOST_MOTIFS),
                    chance_from(1, DV_MOST_RULES));
        break;
    case 1:
    case 2:
    case 3:
        grow_family(family, chance_from(1, 8), chance_from(1, 12), chance_from(1, 40));
        break;
    default:
        grow_family(family, chance_from(1, 3), chance_from(1, 5), chance_from(1, 20));
    }
}

// Which motifs have some grid of each height and width.
struct sizes {
    uint32_t motifs[DV_WIDE_MOST_ROWS + 1][DV_WIDE_MOST_COLUMNS + 1];
};

// Whether the two parts of a piece of this size, cut at k, can have the rule's motifs.
static bool parts_have(const struct sizes *sizes, struct rule rule, unsigned height, unsigned width, unsigned k)
{
    bool across = rule.kind == DV_KIND_ACROSS;
    uint32_t first = across ? sizes->motifs[height][k] : sizes->motifs[k][width];
    uint32_t second = across ? sizes->motifs[height][width - k] : sizes->motifs[height - k][width];
    return (first >> rule.first & 1) != 0 && (second >> rule.second & 1) != 0;
}

// The first k from a given one on at which the rule has a grid of this size: 0 for none. A colour rule has k 1.
static unsigned next_cut(const struct sizes *sizes, struct rule rule, unsigned height, unsigned width, unsigned k)
{
    if (rule.kind == DV_KIND_COLOUR)
        return height == 1 && width == 1 && k == 1;
    unsigned end = rule.kind == DV_KIND_ACROSS ? width : height;
    while (k < end && !parts_have(sizes, rule, height, width, k))
        k++;
    return k < end ? k : 0;
}

static void size_up(const struct family *family, struct sizes *sizes, unsigned rows, unsigned columns)
{
    memset(sizes, 0, sizeof *sizes);
    for (unsigned height = 1; height <= rows; height++)
        for (unsigned width = 1; width <= columns; width++)
            for (unsigned i = 0; i < family->rules; i++)
                if (next_cut(sizes, family->rule[i], height, width, 1) != 0)
                    sizes->motifs[height][width] |= UINT32_C(1) << family->rule[i].head;
}

// Picks one of the rules and cuts at which the motif has a grid of this size, each as likely as another.
static struct rule pick(const struct family *family, const struct sizes *sizes, unsigned motif, unsigned height,
                        unsigned width, unsigned *cut)
{
    struct rule picked = {0, 0, 0, 0};
    unsigned found = 0;
    for (unsigned i = 0; i < family->rules; i++) {
        if (family->rule[i].head != motif)
            continue;
        for (unsigned k = 0; (k = next_cut(sizes, family->rule[i], height, width, k + 1)) != 0;)
            if (one_in(++found)) {
                picked = family->rule[i];
                *cut = k;
            }
    }
    return picked;
}

static void grow_piece(const struct family *family, const struct sizes *sizes, struct grid *grid, unsigned motif,
                       unsigned height, unsigned width, unsigned top, unsigned left)
{
    unsigned k = 0;
    struct rule rule = pick(family, sizes, motif, height, width, &k);
    if (rule.kind == DV_KIND_COLOUR) {
        grid->cell[top * grid->columns + left] = rule.first;
    } else if (rule.kind == DV_KIND_ACROSS) {
        grow_piece(family, sizes, grid, rule.first, height, k, top, left);
        grow_piece(family, sizes, grid, rule.second, height, width - k, top, left + k);
    } else {
        grow_piece(family, sizes, grid, rule.first, k, width, top, left);
        grow_piece(family, sizes, grid, rule.second, height - k, width, top + k, left);
    }
}

// Picks a size that the start has: the larger of a few, since small ones are the common ones.
static bool pick_size(const struct family *family, const struct sizes *sizes, struct grid *grid, unsigned most_rows,
                      unsigned most_columns)
{
    bool found = false;
    for (unsigned tries = 0; tries < 40; tries++) {
        unsigned rows = chance_from(1, most_rows), columns = chance_from(1, most_columns);
        if (!(sizes->motifs[rows][columns] >> family->start & 1))
            continue;
        if (!found || rows * columns > grid->rows * grid->columns || one_in(8)) {
            grid->rows = rows;
            grid->columns = columns;
        }
        found = true;
    }
    return found;
}

size_t some_press(void)
{
    return one_in(2) ? DV_PRESS : DV_WIDE_PRESS;
}

unsigned some_side(size_t press, unsigned side, unsigned times)
{
    return one_in(press == DV_PRESS ? times : 2 * times) ? (unsigned)dv_most_rows(press) : side;
}

unsigned some_ticket(void)
{
    static const unsigned telling[] = {0, 1, 127, 128, 16383, 16384, DV_GREATEST_TICKET};
    return one_in(2) ? telling[chance_below(sizeof telling / sizeof *telling)] : chance_from(0, DV_GREATEST_TICKET);
}

bool grow_grid(const struct family *family, struct grid *grid, unsigned most_rows, unsigned most_columns)
{
    struct sizes sizes;
    grid->palette = family->palette;
    grid->ticket = some_ticket();
    size_up(family, &sizes, most_rows, most_columns);
    if (pick_size(family, &sizes, grid, most_rows, most_columns)) {
        grow_piece(family, &sizes, grid, family->start, grid->rows, grid->columns, 0, 0);
        return true;
    }
    grid->rows = chance_from(1, most_rows);
    grid->columns = chance_from(1, most_columns);
    for (unsigned i = 0; i < grid->rows * grid->columns; i++)
        grid->cell[i] = chance_below(grid->palette.count);
    return false;
}

void spoil_cell(struct grid *grid)
{
    unsigned at = chance_below(grid->rows * grid->columns);
    if (grid->palette.count > 1)
        grid->cell[at] = (grid->cell[at] + chance_from(1, grid->palette.count - 1)) % grid->palette.count;
}

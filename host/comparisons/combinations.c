// Combinations of books by chance, and sheets under the books that they write.
#include "../shared/chance.h"
#include "../shared/grow.h"
#include "compare.h"

// Some of the second family's colours are the first's, in another order.
static void share_colours(const struct family *f, struct family *g)
{
    for (unsigned i = 0; i < g->palette.count; i++) {
        struct ink ink = f->palette.ink[chance_below(f->palette.count)];
        bool listed = false;
        for (unsigned j = 0; j < g->palette.count; j++)
            listed = listed || same_ink(&g->palette.ink[j], &ink);
        if (!listed && one_in(2))
            g->palette.ink[i] = ink;
    }
}

static void compare_made(enum combination combination, const struct bytes *first, const struct bytes *second,
                         const struct family *family)
{
    struct bytes made, sheet;
    struct grid grid;
    size_t press = some_press();
    compare_rooms_of_combination(combination, first, second);
    if (dv_number(compare_combination(combination, first, second, ROOMY_OUT, &made)) != DV_ACCEPTED)
        return;
    if (compare_read_book(&made) != 0)
        wrong("a book that was written is refused");
    grow_grid(family, &grid, 5, 5);
    spell_sheet(&grid, &sheet);
    compare_derive(press, &made, &sheet, roomy_work(press), roomy_tree(press));
    compare_combination((enum combination)chance_below(COMBINATIONS), &made, first, ROOMY_OUT, NULL);
}

KIND(combinations)
{
    struct family f, g;
    struct bytes first, second;
    for (unsigned i = 0; i < 700; i++) {
        grow_some_family(&f);
        grow_some_family(&g);
        share_colours(&f, &g);
        spell_book(&f, &first);
        spell_book(&g, &second);
        for (int combination = 0; combination < COMBINATIONS; combination++) {
            compare_made((enum combination)combination, &first, &second, one_in(2) ? &f : &g);
            if (one_in(4) && takes_two((enum combination)combination))
                compare_made((enum combination)combination, &first, &first, &f);
        }
    }
}

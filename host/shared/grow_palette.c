#include <string.h>

#include "chance.h"
#include "grow.h"

bool same_ink(const struct ink *one, const struct ink *other)
{
    return one->length == other->length && memcmp(one->name, other->name, one->length) == 0;
}

static bool lists(const struct palette *palette, const struct ink *ink)
{
    for (unsigned i = 0; i < palette->count; i++)
        if (same_ink(&palette->ink[i], ink))
            return true;
    return false;
}

// No blank, so that it may stand at either end of a name.
static char some_letter(void)
{
    return (char)chance_from(33, 126);
}

static void grow_name(struct ink *ink)
{
    ink->length = one_in(4) ? DV_LONGEST_NAME : chance_from(1, 9);
    for (unsigned i = 0; i < ink->length; i++)
        ink->name[i] = one_in(20) ? ' ' : some_letter();
    ink->name[0] = some_letter();
    ink->name[ink->length - 1] = some_letter();
}

// The last letter, and the blanks before it.
static void drop_letter(struct ink *ink)
{
    if (ink->length > 1)
        ink->length--;
    while (ink->name[ink->length - 1] == ' ')
        ink->length--;
}

// A letter, now and then with a blank before it.
static void add_letter(struct ink *ink)
{
    if (ink->length + 2 <= DV_LONGEST_NAME && one_in(2))
        ink->name[ink->length++] = ' ';
    if (ink->length < DV_LONGEST_NAME)
        ink->name[ink->length++] = some_letter();
}

// A name by itself, or one of the list with its last letter gone or changed, or with one more.
static struct ink some_ink(const struct palette *palette)
{
    struct ink ink = {0};
    if (palette->count == 0 || one_in(3)) {
        grow_name(&ink);
        return ink;
    }
    ink = palette->ink[chance_below(palette->count)];
    switch (chance_below(3)) {
    case 0:
        drop_letter(&ink);
        break;
    case 1:
        ink.name[ink.length - 1] = some_letter();
        break;
    default:
        add_letter(&ink);
    }
    return ink;
}

void grow_palette(struct palette *palette, unsigned count)
{
    palette->count = 0;
    while (palette->count < count) {
        struct ink ink = some_ink(palette);
        if (!lists(palette, &ink))
            palette->ink[palette->count++] = ink;
    }
}

static bool uses(const struct grid *grid, unsigned colour)
{
    for (unsigned i = 0; i < grid->rows * grid->columns; i++)
        if (grid->cell[i] == colour)
            return true;
    return false;
}

void relist(struct grid *grid)
{
    struct palette old = grid->palette, *list = &grid->palette;
    unsigned number[DV_MOST_COLOURS + 1], place[DV_MOST_COLOURS + 1], left = 0;
    for (unsigned i = 0; i < old.count; i++)
        if (uses(grid, i) || one_in(2))
            place[left++] = i;
    list->count = 0;
    while (left > 0 || (list->count < DV_MOST_COLOURS && one_in(3))) {
        if (left > 0 && !one_in(5)) {
            unsigned i = chance_below(left);
            number[place[i]] = list->count;
            list->ink[list->count++] = old.ink[place[i]];
            place[i] = place[--left];
        } else if (list->count + left < DV_MOST_COLOURS) {
            struct ink ink = some_ink(&old);
            if (!lists(&old, &ink) && !lists(list, &ink))
                list->ink[list->count++] = ink;
        }
    }
    for (unsigned i = 0; i < grid->rows * grid->columns; i++)
        grid->cell[i] = number[grid->cell[i]];
}

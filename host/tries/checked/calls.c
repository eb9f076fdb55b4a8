#include "calls.h"

struct slice slice[SLICES];
size_t press;

static uint64_t read_book(void) { return dv_read_book(slice[0].at, slice[0].length); }
static uint64_t read_sheet(void) { return dv_read_sheet(press, slice[0].at, slice[0].length); }
static uint64_t counts(void) { return dv_counts(slice[0].at, slice[0].length); }
static uint64_t colour(void) { return dv_colour(slice[0].at, slice[0].length, 1); }
static uint64_t rule(void) { return dv_rule(slice[0].at, slice[0].length, 1); }
static uint64_t sheet_size(void) { return dv_sheet_size(press, slice[0].at, slice[0].length); }
static uint64_t cell(void) { return dv_cell(press, slice[0].at, slice[0].length, 1, 2); }
static uint64_t sheet_colour(void) { return dv_sheet_colour(press, slice[0].at, slice[0].length, 1); }
static uint64_t run_sheet(void) { return dv_run_sheet(slice[0].at, slice[0].length, 0); }
static uint64_t derive(void)
{
    return dv_derive(press, slice[0].at, slice[0].length, slice[1].at, slice[1].length,
                     (uint32_t *)(void *)slice[2].at, slice[2].length, (uint16_t *)(void *)slice[3].at,
                     slice[3].length);
}
static uint64_t check_tree(void)
{
    return dv_check_tree(press, slice[0].at, slice[0].length, slice[1].at, slice[1].length,
                         (struct dv_node *)(void *)slice[2].at, slice[2].length / 2);
}
static uint64_t plain(void) { return dv_plain(press, slice[0].at, slice[0].length, slice[1].at, slice[1].length); }
static uint64_t size_card(void)
{
    return dv_size_card(press, slice[0].at, slice[0].length, (uint32_t *)(void *)slice[1].at, slice[1].length);
}
static uint64_t why_not(void)
{
    return dv_why_not(press, slice[0].at, slice[0].length, slice[1].at, slice[1].length,
                      (uint32_t *)(void *)slice[2].at, slice[2].length);
}
static uint64_t recolour(void)
{
    return dv_recolour(press, slice[0].at, slice[0].length, slice[1].at, slice[1].length,
                       (uint32_t *)(void *)slice[2].at, slice[2].length, 0, 0, 0);
}
static uint64_t run_report(void)
{
    return dv_run_report(press, slice[0].at, slice[0].length, slice[1].at, slice[1].length,
                         (uint32_t *)(void *)slice[2].at, slice[2].length, (uint32_t *)(void *)slice[3].at,
                         slice[3].length);
}
#define OF_TWO(name)                                                                                                   \
    static uint64_t name(void)                                                                                         \
    {                                                                                                                  \
        return dv_##name(slice[0].at, slice[0].length, slice[1].at, slice[1].length, slice[2].at, slice[2].length);    \
    }
#define OF_ONE(name)                                                                                                   \
    static uint64_t name(void) { return dv_##name(slice[0].at, slice[0].length, slice[1].at, slice[1].length); }
OF_TWO(either_of)
OF_TWO(beside)
OF_TWO(above)
OF_ONE(run)
OF_ONE(stack)
OF_ONE(mirrored)
OF_ONE(flipped)
OF_ONE(transposed)
OF_ONE(tidy)

enum { ENDS_EARLY = DV_ENDS_EARLY | 1 << 8 };

const struct call calls[] = {
    {"dv_read_book", read_book, NO_PRESS, {BOOK}, {0}, ENDS_EARLY},
    {"dv_read_sheet", read_sheet, PRESS, {SHEET}, {0}, ENDS_EARLY},
    {"dv_counts", counts, NO_PRESS, {BOOK}, {0}, 0},
    {"dv_colour", colour, NO_PRESS, {BOOK}, {0}, 0},
    {"dv_rule", rule, NO_PRESS, {BOOK}, {0}, 0},
    {"dv_sheet_size", sheet_size, PRESS, {SHEET}, {0}, 0},
    {"dv_cell", cell, PRESS, {SHEET}, {0}, 0},
    {"dv_sheet_colour", sheet_colour, PRESS, {SHEET}, {0}, 0},
    {"dv_run_sheet", run_sheet, NO_PRESS, {RUN}, {0}, 0},
    {"dv_derive", derive, PRESS, {BOOK, SHEET}, {sizeof(uint32_t), sizeof(uint16_t)}, ENDS_EARLY},
    {"dv_check_tree", check_tree, PRESS, {BOOK, SHEET, NODES}, {0}, ENDS_EARLY},
    {"dv_plain", plain, PRESS, {BOOK, SHEET}, {0}, ENDS_EARLY},
    {"dv_size_card", size_card, PRESS, {BOOK}, {sizeof(uint32_t)}, ENDS_EARLY},
    {"dv_why_not", why_not, PRESS, {BOOK, SHEET}, {sizeof(uint32_t)}, ENDS_EARLY},
    {"dv_recolour", recolour, PRESS, {BOOK}, {1, sizeof(uint32_t)}, ENDS_EARLY},
    {"dv_run_report", run_report, PRESS, {BOOK, RUN}, {sizeof(uint32_t), sizeof(uint32_t)}, DV_OUT_SHORT},
    {"dv_either_of", either_of, NO_PRESS, {BOOK, BOOK}, {1}, ENDS_EARLY},
    {"dv_beside", beside, NO_PRESS, {BOOK, BOOK}, {1}, ENDS_EARLY},
    {"dv_above", above, NO_PRESS, {BOOK, BOOK}, {1}, ENDS_EARLY},
    {"dv_run", run, NO_PRESS, {BOOK}, {1}, ENDS_EARLY},
    {"dv_stack", stack, NO_PRESS, {BOOK}, {1}, ENDS_EARLY},
    {"dv_mirrored", mirrored, NO_PRESS, {BOOK}, {1}, ENDS_EARLY},
    {"dv_flipped", flipped, NO_PRESS, {BOOK}, {1}, ENDS_EARLY},
    {"dv_transposed", transposed, NO_PRESS, {BOOK}, {1}, ENDS_EARLY},
    {"dv_tidy", tidy, NO_PRESS, {BOOK}, {1}, ENDS_EARLY},
};
const size_t calls_count = sizeof calls / sizeof *calls;

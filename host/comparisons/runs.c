// Reports on runs by chance: sheets that are good, spoilt, damaged, cut, empty and far too long, with rooms exact, one
// short and one over; and runs and books that are damaged.
#include <string.h>

#include "../shared/chance.h"
#include "../shared/damage.h"
#include "../shared/grow.h"
#include "plan.h"

// Bytes that go on long past any sheet, so that their length takes three bytes: a good sheet before them, or none.
static void add_far_too_long(const struct bytes *sheet)
{
    static uint8_t bytes[20000];
    size_t length = one_in(3) ? 16383 + chance_below(3) : chance_from(8000, sizeof bytes);
    for (size_t i = 0; i < length; i++)
        bytes[i] = (uint8_t)(i % 13);
    if (one_in(2))
        memcpy(bytes, sheet->at, sheet->length);
    add(bytes, length);
}

static void add_some_sheet(const struct family *family, unsigned most)
{
    struct grid grid;
    struct bytes sheet;
    grow_grid(family, &grid, chance_from(1, most), chance_from(1, most));
    if (one_in(2))
        relist(&grid);
    if (one_in(5))
        spoil_cell(&grid);
    spell_sheet(&grid, &sheet);
    switch (chance_below(12)) {
    case 0:
        sheet.length = 0;
        break;
    case 1:
        sheet.length = chance_below((unsigned)sheet.length);
        break;
    case 2:
    case 3:
        damage(&sheet);
        break;
    case 4:
        if (one_in(8))
            add_far_too_long(&sheet);
        break;
    default:
        break;
    }
    add(sheet.at, sheet.length);
}

// One byte changed or lost, or an end lost.
static void compare_damaged_run(void)
{
    static struct run run;
    run = plan.run;
    if (run.length == 0)
        return;
    size_t at = chance_below((unsigned)run.length);
    switch (chance_below(3)) {
    case 0:
        run.at[at] = one_in(2) ? (uint8_t)chance_below(4) : (uint8_t)chance_bits();
        break;
    case 1:
        run.length = at;
        break;
    default:
        run.length--;
        memmove(run.at + at, run.at + at + 1, run.length - at);
    }
    report(&run, dv_most_work(plan.press) - one_in(8), DV_REPORT_ENTRIES);
    compare_run_sheet(&run, chance_below(12));
}

// The book's refusals come before those of the run.
static void compare_damaged_book(void)
{
    struct bytes damaged = plan.book;
    size_t press = plan.press, work = dv_most_work(press);
    damage(&damaged);
    compare_run_report(press, &damaged, &plan.run, one_in(4) ? 0 : work, DV_REPORT_ENTRIES, NULL);
    compare_run_report(press, &damaged, &plan.run, work, DV_REPORT_ENTRIES - 1, NULL);
    static struct run misspelt = {2, {128, 0}};
    compare_run_report(press, &damaged, &misspelt, work, DV_REPORT_ENTRIES, NULL);
}

static void compare_some_run(void)
{
    struct family family;
    struct bytes book;
    size_t press = some_press();
    grow_some_family(&family);
    spell_book(&family, &book);
    begin(press, &book);
    unsigned sheets = one_in(30) ? 100 : chance_below(12), most = some_side(press, 4, 10);
    for (unsigned i = 0; i < sheets; i++)
        add_some_sheet(&family, most);
    compare_rooms_of_run();
    if (one_in(4))
        compare_endings();
    for (unsigned i = 0; i < 4; i++)
        compare_damaged_run();
    compare_damaged_book();
}

KIND(runs)
{
    for (unsigned i = 0; i < 1200; i++)
        compare_some_run();
}

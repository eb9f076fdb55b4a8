// Reports on runs at and past the longest, on those with the most sheets, and on a small one with every byte changed.
#include <string.h>

#include "plan.h"

// The longest run, brought to that length by a sheet of noughts, and longer ones, whose lengths are not looked at.
static void compare_longest(size_t press)
{
    static const uint8_t sheet[] = {1, 1, 'a', 9, 1, 1, 0}, noughts[DV_LONGEST_RUN] = {0};
    static const struct bytes book = {9, {1, 1, 'a', 1, 0, 1, 0, 0, 0}};
    begin(press, &book);
    while (plan.run.length + 1 + sizeof sheet + 3 < DV_LONGEST_RUN - 20000)
        add(sheet, sizeof sheet);
    add(noughts, DV_LONGEST_RUN - 3 - plan.run.length);
    if (plan.run.length != DV_LONGEST_RUN)
        wrong("the longest run is not the one meant");
    if (dv_shown_length(compare_run_sheet(&plan.run, plan.figures[DV_FIGURE_SHEETS] - 1)) < 20000 ||
        compare_run_sheet(&plan.run, plan.figures[DV_FIGURE_SHEETS]) != 0)
        wrong("the last sheet of the longest run is not shown, or one after it is");
    compare_rooms_of_run();
    for (unsigned more = 1; more < 40; more += more) {
        plan.run.length = DV_LONGEST_RUN + more;
        if (report(&plan.run, dv_most_work(press), DV_REPORT_ENTRIES) != refusal(DV_OUT_OF_RANGE, 0) ||
            report(&plan.run, 0, DV_REPORT_ENTRIES) != refusal(DV_OUT_OF_RANGE, 0))
            wrong("a run that is too long is not refused");
        if (compare_run_sheet(&plan.run, 0) != 0)
            wrong("a sheet is shown of a run that is too long");
    }
    memset(plan.run.at, 128, sizeof plan.run.at);
    if (report(&plan.run, dv_most_work(press), DV_REPORT_ENTRIES) != refusal(DV_OUT_OF_RANGE, 0))
        wrong("a length of a run that is too long is looked at");
}

// The most sheets that a run can have: all of them have no bytes, or one cell.
static void compare_most_sheets(size_t press)
{
    static const uint8_t sheet[] = {1, 1, 'a', 9, 1, 1, 0};
    static const struct bytes book = {9, {1, 1, 'a', 1, 0, 1, 0, 0, 0}};
    begin(press, &book);
    memset(plan.run.at, 0, DV_LONGEST_RUN);
    plan.run.length = DV_LONGEST_RUN;
    plan.figures[DV_FIGURE_SHEETS] = plan.figures[DV_FIGURE_ANSWERED + DV_ENDS_EARLY] = DV_LONGEST_RUN;
    compare_rooms_of_run();
    if (compare_run_sheet(&plan.run, DV_LONGEST_RUN - 1) != DV_LONGEST_RUN ||
        compare_run_sheet(&plan.run, DV_LONGEST_RUN) != 0)
        wrong("the last of the most sheets is not shown, or one after it is");
    begin(press, &book);
    for (unsigned i = 0; i < DV_LONGEST_RUN / (1 + sizeof sheet); i++)
        add(sheet, sizeof sheet);
    compare_rooms_of_run();
}

// Every byte as every other, and every beginning, of a run of three sheets.
static void compare_small_run(size_t press)
{
    static const uint8_t one[] = {1, 1, 'a', 9, 1, 1, 0}, two[] = {1, 1, 'a', 255, 1, 1, 2, 0, 0};
    static const struct bytes book = {13, {1, 1, 'a', 1, 0, 2, 0, 0, 0, 0, 1, 0, 0}};
    static struct run run;
    begin(press, &book);
    add(one, sizeof one);
    add(one, 0);
    add(two, sizeof two);
    compare_rooms_of_run();
    compare_endings();
    for (size_t at = 0; at < plan.run.length; at++) {
        run = plan.run;
        for (unsigned byte = 0; byte < 256; byte++) {
            run.at[at] = (uint8_t)byte;
            report(&run, dv_most_work(press), DV_REPORT_ENTRIES);
            for (size_t number = 0; number < 4; number++)
                compare_run_sheet(&run, number);
        }
        run = plan.run;
        run.length = at;
        report(&run, dv_most_work(press), DV_REPORT_ENTRIES);
        compare_run_sheet(&run, 0);
    }
}

// The same bytes with one of them spelled as a number of three bytes, of which the last is this.
static const struct bytes *with_long_number(const struct bytes *bytes, size_t at, uint8_t last)
{
    static struct bytes longer;
    longer = *bytes;
    memmove(longer.at + at + 3, bytes->at + at + 1, bytes->length - at - 1);
    longer.length += 2;
    longer.at[at] |= 128;
    longer.at[at + 1] = 128;
    longer.at[at + 2] = last;
    return &longer;
}

// Each byte of a book, and of a sheet, as such a number: most are out of range, or misspelt.
static void compare_long_numbers(size_t press)
{
    static const uint8_t last[] = {0, 1, 127, 128, 255};
    static const struct bytes book = {9, {1, 1, 'a', 1, 0, 1, 0, 0, 0}}, sheet = {7, {1, 1, 'a', 9, 1, 1, 0}};
    for (size_t i = 0; i < sizeof last; i++) {
        for (size_t at = 0; at < book.length; at++) {
            begin(press, with_long_number(&book, at, last[i]));
            add(sheet.at, sheet.length);
            report(&plan.run, dv_most_work(press), DV_REPORT_ENTRIES);
        }
        for (size_t at = 0; at < sheet.length; at++) {
            const struct bytes *longer = with_long_number(&sheet, at, last[i]);
            begin(press, &book);
            add_sheet(&plan.run, longer->at, longer->length);
            report(&plan.run, dv_most_work(press), DV_REPORT_ENTRIES);
        }
    }
}

KIND(run_limits)
{
    for (size_t press = DV_PRESS; press <= DV_WIDE_PRESS; press++) {
        compare_long_numbers(press);
        compare_small_run(press);
        compare_longest(press);
        compare_most_sheets(press);
    }
}

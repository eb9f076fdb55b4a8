#include "plan.h"

#include <string.h>

struct plan plan;

void begin(size_t press, const struct bytes *book)
{
    plan.press = press;
    plan.book = *book;
    plan.run.length = 0;
    memset(plan.figures, 0, sizeof plan.figures);
    for (unsigned i = 0; i < DV_MOST_RULES; i++)
        plan.rule[i] = dv_rule(book->at, book->length, i);
}

static void expect_accepted(const uint8_t *sheet, size_t length, const uint16_t *tree)
{
    uint64_t size = dv_sheet_size(plan.press, sheet, length);
    uint32_t ticket = dv_ticket(dv_read_sheet(plan.press, sheet, length)), *figures = plan.figures;
    size_t entries = dv_tree_entries(dv_size_rows(size), dv_size_columns(size));
    for (size_t i = 0; i < entries; i += 2)
        if (dv_rule_kind(plan.rule[tree[i]]) == DV_KIND_COLOUR)
            figures[DV_FIGURE_CELLS + dv_rule_first(plan.rule[tree[i]])]++;
    bool first = figures[DV_FIGURE_ACCEPTED] == 0;
    figures[DV_FIGURE_LEAST] = first || ticket < figures[DV_FIGURE_LEAST] ? ticket : figures[DV_FIGURE_LEAST];
    figures[DV_FIGURE_GREATEST] = first || ticket > figures[DV_FIGURE_GREATEST] ? ticket : figures[DV_FIGURE_GREATEST];
    figures[DV_FIGURE_ACCEPTED] = 1;
}

void add(const uint8_t *sheet, size_t length)
{
    static uint32_t work[DV_WIDE_MOST_WORK];
    static uint16_t tree[DV_WIDE_MOST_TREE];
    if (plan.run.length + 3 + length > DV_LONGEST_RUN)
        return;
    add_sheet(&plan.run, sheet, length);
    unsigned number = dv_number(dv_derive(plan.press, plan.book.at, plan.book.length, sheet, length, work,
                                          DV_WIDE_MOST_WORK, tree, DV_WIDE_MOST_TREE));
    plan.figures[DV_FIGURE_SHEETS]++;
    plan.figures[number == DV_NOT_DERIVED ? DV_FIGURE_NOT_DERIVED : DV_FIGURE_ANSWERED + number]++;
    if (number == DV_ACCEPTED)
        expect_accepted(sheet, length, tree);
}

uint64_t report(const struct run *run, size_t work_len, size_t figures_len)
{
    return compare_run_report(plan.press, &plan.book, run, work_len, figures_len, NULL);
}

void compare_rooms_of_run(void)
{
    uint32_t figures[DV_REPORT_ENTRIES];
    size_t needed = dv_most_work(plan.press);
    for (size_t more = 0; more < 3; more++) {
        size_t work = more == 2 ? roomy_work(plan.press) : needed + more;
        if (compare_run_report(plan.press, &plan.book, &plan.run, work, DV_REPORT_ENTRIES + more, figures) !=
            DV_ACCEPTED)
            wrong("a run of sheets is not reported on");
        if (memcmp(figures, plan.figures, sizeof figures) != 0)
            wrong("the figures are not those of the sheets by themselves");
    }
    if (report(&plan.run, needed - 1, DV_REPORT_ENTRIES) != DV_WORK_SHORT ||
        report(&plan.run, 0, DV_REPORT_ENTRIES + 1) != DV_WORK_SHORT)
        wrong("a work slice that is too short is not refused");
    if (report(&plan.run, needed, DV_REPORT_ENTRIES - 1) != DV_OUT_SHORT || report(&plan.run, 0, 0) != DV_OUT_SHORT)
        wrong("a figures slice that is too short is not refused");
}

uint64_t refusal(unsigned number, size_t place)
{
    return number | 2 << 8 | (uint64_t)place << 12;
}

// The run, with these bytes after it, is refused so, whatever the work slice; a short figures slice comes before.
static void compare_ending(const uint8_t *bytes, size_t length, unsigned number, bool at_the_end)
{
    static struct run run;
    if (plan.run.length + length > DV_LONGEST_RUN)
        return;
    run = plan.run;
    memcpy(run.at + run.length, bytes, length);
    run.length += length;
    uint64_t due = refusal(number, at_the_end ? run.length : plan.run.length);
    if (report(&run, dv_most_work(plan.press), DV_REPORT_ENTRIES) != due || report(&run, 0, DV_REPORT_ENTRIES) != due)
        wrong("the last length of a run is not answered as its spelling says");
    if (compare_run_sheet(&run, 0) != 0)
        wrong("a sheet is shown of a run whose last length is refused");
    if (report(&run, 0, DV_REPORT_ENTRIES - 1) != DV_OUT_SHORT)
        wrong("a figures slice that is too short is not refused first");
}

void compare_endings(void)
{
    static const uint8_t two_groups[] = {128, 0}, three_groups[] = {128, 128, 0, 0}, four_groups[] = {128, 128, 128, 1};
    static const uint8_t cut[] = {200, 200}, passing[] = {3, 1, 2}, far[] = {128, 1, 7},
                         farthest[] = {255, 255, 127, 9};
    compare_ending(two_groups, sizeof two_groups, DV_MISSPELT, false);
    compare_ending(three_groups, sizeof three_groups, DV_MISSPELT, false);
    compare_ending(four_groups, sizeof four_groups, DV_MISSPELT, false);
    compare_ending(cut, 1, DV_ENDS_EARLY, true);
    compare_ending(cut, 2, DV_ENDS_EARLY, true);
    compare_ending(passing, 1, DV_ENDS_EARLY, true);
    compare_ending(passing, sizeof passing, DV_ENDS_EARLY, true);
    compare_ending(far, sizeof far, DV_ENDS_EARLY, true);
    compare_ending(farthest, 3, DV_ENDS_EARLY, true);
    compare_ending(farthest, sizeof farthest, DV_ENDS_EARLY, true);
}

// Reports of runs of sheets.
#include <stdio.h>

#include "measure.h"

static void run_report(const struct engine *timed, const struct task *task)
{
    static uint32_t work[DV_MOST_WORK], figures[DV_REPORT_ENTRIES];
    timed->run_report(task->press, task->first.at, task->first.length, task->run->at, task->run->length, work,
                      DV_MOST_WORK, figures, DV_REPORT_ENTRIES);
}

// As many sheets of one size under a book as go into a run, or fewer where so many are enough.
static void measure_run(const char *what, const struct family *family, unsigned rows, unsigned columns, unsigned most)
{
    static struct run run;
    struct task task = {.call = run_report, .unit = "a sheet", .run = &run};
    struct grid grid = {.rows = rows, .columns = columns};
    struct bytes sheet = {0, {0}};
    char name[60];
    unsigned sheets = 0;
    add_ink(&grid.palette, "C");
    spell_book(family, &task.first);
    for (run.length = 0; sheets < most && run.length + sheet.length + 3 <= DV_LONGEST_RUN; sheets++) {
        grid.ticket = sheets % 128;
        spell_sheet(&grid, &sheet);
        add_sheet(&run, sheet.at, sheet.length);
    }
    task.units = sheets;
    snprintf(name, sizeof name, "report of %u sheets, %s", sheets, what);
    measure_line(name, &task);
}

LINES(runs)
{
    struct family family = {.motifs = 1, .start = 0};
    add_ink(&family.palette, "C");
    add_ink(&family.palette, "U");
    add_rule(&family, 0, DV_KIND_COLOUR, 0, 0);
    add_rule(&family, 0, DV_KIND_COLOUR, 1, 0);
    add_rule(&family, 0, DV_KIND_ACROSS, 0, 0);
    add_rule(&family, 0, DV_KIND_DOWN, 0, 0);
    measure_run("1 by 1, 4 rules", &family, 1, 1, 8000);
    measure_run("12 by 12, 4 rules", &family, DV_MOST_ROWS, DV_MOST_COLUMNS, 8000);
}

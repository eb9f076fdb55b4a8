// The report of a run of sheets against one book, and a sheet of a run looked up.
#include <string.h>

#include "independent.h"
#include "table.h"

enum { LONGEST_RUN = 65536 };

// Where the figures stand. Answers 0 to 8 and book colours 0 to 63 have a figure each.
enum { SHEETS = 0, ANSWERED = 1, DECLINED = 10, CELLS = 11, ACCEPTED = 75, LEAST = 76, GREATEST = 77, FIGURES = 78 };

struct report {
    size_t press;
    struct order order;
    struct rules rules;
    uint32_t *work, *figures;
};

// Judges the lengths of a run, one after another.
static uint64_t judge_lengths(const uint8_t *run, size_t run_len)
{
    if (run_len > LONGEST_RUN)
        return independent_answer(3, 2, 0);
    unsigned length;
    for (size_t at = 0; at < run_len; at += length) {
        uint64_t refusal = independent_number_at(&length, run, run_len, &at, 2);
        if (refusal != 0)
            return refusal;
        if (length > run_len - at)
            return independent_answer(1, 2, run_len);
    }
    return 0;
}

uint64_t independent_run_sheet(const uint8_t *run, size_t run_len, size_t number)
{
    unsigned length;
    if (judge_lengths(run, run_len) != 0)
        return 0;
    for (size_t at = 0; at < run_len; at += length, number--) {
        independent_number_at(&length, run, run_len, &at, 2);
        if (number == 0)
            return at | (uint64_t)length << 32;
    }
    return 0;
}

static void add_accepted(struct report *report)
{
    const struct sheet *sheet = &report->order.sheet;
    uint32_t *figures = report->figures;
    for (unsigned i = 0; i < sheet->rows * sheet->columns; i++)
        figures[CELLS + report->order.colour[sheet->cell[i]]]++;
    if (!figures[ACCEPTED] || sheet->ticket < figures[LEAST])
        figures[LEAST] = sheet->ticket;
    if (!figures[ACCEPTED] || sheet->ticket > figures[GREATEST])
        figures[GREATEST] = sheet->ticket;
    figures[ACCEPTED] = 1;
}

static void add_sheet(struct report *report, const uint8_t *sheet, size_t length)
{
    struct order *order = &report->order;
    struct table table;
    report->figures[SHEETS]++;
    uint64_t refusal = independent_sheet_under(report->press, order, sheet, length);
    if (refusal != 0) {
        report->figures[ANSWERED + (refusal & 0xff)]++;
        return;
    }
    independent_fill(&table, &report->rules, order, report->work);
    if (!has(&table, order->book.start, order->sheet.rows, order->sheet.columns, 0, 0)) {
        report->figures[DECLINED]++;
        return;
    }
    report->figures[ANSWERED]++;
    add_accepted(report);
}

uint64_t independent_run_report(size_t press, const uint8_t *book, size_t book_len, const uint8_t *run, size_t run_len,
                                uint32_t *work, size_t work_len, uint32_t *figures, size_t figures_len)
{
    struct report report;
    uint64_t refusal = independent_press_refused(press);
    if (refusal != 0)
        return refusal;
    if (figures_len < FIGURES)
        return independent_answer(13, 0, 0);
    memset(figures, 0, FIGURES * sizeof *figures);
    refusal = independent_book_of(&report.order.book, book, book_len, 1);
    if (refusal == 0)
        refusal = judge_lengths(run, run_len);
    if (refusal != 0)
        return refusal;
    if (work_len < independent_most_entries(press))
        return independent_answer(9, 0, 0);
    independent_split(&report.rules, &report.order.book);
    report.press = press;
    report.work = work;
    report.figures = figures;
    unsigned length;
    for (size_t at = 0; at < run_len; at += length) {
        independent_number_at(&length, run, run_len, &at, 2);
        add_sheet(&report, run + at, length);
    }
    memset(work, 0, independent_most_entries(press) * sizeof *work);
    return 0;
}

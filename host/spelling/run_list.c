#include "run_list.h"

#include <stdio.h>
#include <string.h>

#include "answers.h"
#include "files.h"
#include "spell.h"

// The file that a line names, from the first byte to the last that is no blank.
static void read_path(struct text *text, char path[FILENAME_MAX])
{
    size_t begin = text->place, end = begin;
    for (; text->place < text->length && text->at[text->place] != '\n'; text->place++) {
        uint8_t byte = text->at[text->place];
        if (byte != ' ' && byte != '\t' && byte != '\r')
            end = text->place + 1;
    }
    size_t length = end - begin;
    if (length >= FILENAME_MAX || memchr(text->at + begin, '\0', length) != NULL)
        fault_on(text, text->line, "the name of a file");
    memcpy(path, text->at + begin, length);
    path[length] = '\0';
}

// Adds the sheet of a file after its length.
static void add_sheet(struct text *text, struct run *run, const char *path, size_t press, bool any)
{
    static uint8_t sheet[DV_LONGEST_RUN + 1];
    uint8_t spelt[3];
    size_t length = load(path, sheet, sizeof sheet), digits = spell_number((unsigned)length, spelt);
    if (!any)
        expect_accepted(path, "a sheet", dv_read_sheet(press, sheet, length));
    if (length > sizeof run->at || digits + length > sizeof run->at - run->length)
        fault_on(text, text->line, "a run of at most %d bytes", DV_LONGEST_RUN);
    memcpy(run->at + run->length, spelt, digits);
    memcpy(run->at + run->length + digits, sheet, length);
    run->length += digits + length;
}

void read_run_list(struct text *text, struct run *run, size_t press, bool any)
{
    char path[FILENAME_MAX];
    run->length = 0;
    while (next_line(text)) {
        read_path(text, path);
        add_sheet(text, run, path, press, any);
    }
}

unsigned count_sheets(const char *path, const struct run *run, size_t press)
{
    // The smallest book: a report needs one, and says of any whether the run is one, and how many sheets it has.
    static const uint8_t book[] = {1, 1, 'A', 1, 0, 1, 0, 0, 0};
    static uint32_t work[DV_WIDE_MOST_WORK], figures[DV_REPORT_ENTRIES];
    uint64_t answer = dv_run_report(press, book, sizeof book, run->at, run->length, work, DV_WIDE_MOST_WORK, figures,
                                    DV_REPORT_ENTRIES);
    expect_accepted(path, "a run", answer);
    return figures[DV_FIGURE_SHEETS];
}

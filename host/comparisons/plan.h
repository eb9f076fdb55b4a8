// A run of sheets under a book with the figures that are due: what each sheet gets by itself, its cells of each colour
// being the colour rules in its derivation.
#ifndef PLAN_H
#define PLAN_H

#include "compare.h"

struct plan {
    size_t press;
    struct bytes book;
    uint64_t rule[DV_MOST_RULES];
    struct run run;
    uint32_t figures[DV_REPORT_ENTRIES];
};

extern struct plan plan;

// An empty run under a book, for a press.
void begin(size_t press, const struct bytes *book);

// Adds a sheet to the run where there is room, and what it gets to the figures.
void add(const uint8_t *sheet, size_t length);

// A report on a run under the book of the plan, for its press.
uint64_t report(const struct run *run, size_t work_len, size_t figures_len);

// What a run is answered that is refused so.
uint64_t refusal(unsigned number, size_t place);

// The run with rooms exact, one short and one over, held to the figures; and with a last length that is misspelt, ends
// early or passes the end.
void compare_rooms_of_run(void);
void compare_endings(void);

#endif

// One line of the benchmark: a task measured on both engines.
#ifndef MEASURE_H
#define MEASURE_H

#include "../shared/engine.h"
#include "../shared/entries.h"
#include "../shared/spell.h"

// Lines, LINES(name) { .. }, stand in a file of this room that is named for what they measure. Each file begins with
// the same chance, so that a new one changes no input of another.
#define LINES(name) ENTRY(name)

enum { ENGINES = 2, TURNS = 100, MOTIFS = 16 };

// A call, how many of its unit one call does, and the press that it is made for where it takes one: DV_PRESS where none
// is said.
struct task {
    void (*call)(const struct engine *engine, const struct task *task);
    const char *unit;
    double units;
    size_t press;
    struct bytes first, second;
    enum combination combination;
    size_t work;
    const struct run *run;
};

struct figures {
    double of[ENGINES];
};

// Counts instructions from here on, and not nanoseconds.
void count_instructions(void);

struct figures measure(const struct task *task);
void print_figures(const char *name, const struct task *task, struct figures figures);

// Both.
void measure_line(const char *name, const struct task *task);

// The same of a task on a book and a sheet, which are spelt for it.
void measure_pair(const char *name, struct task *task, const struct family *family, const struct grid *grid);

// The calls that several tasks make.
void derive(const struct engine *timed, const struct task *task);
void make(const struct engine *timed, const struct task *task);

// The house book and its sheet A.
void house_family(struct family *family, struct grid *grid);

// So many rules, of which the first four derive every sheet; the rest are joins by chance, half of them across.
void press_family(struct family *family, unsigned rules);

// The largest sheet of a press, in two colours of the family by chance.
void press_grid(struct grid *grid, size_t press, const struct family *family);

// The longest names, alike but for the last letter, listed either way round, and so many joins of the start.
void heavy_book(struct bytes *book, bool turned, unsigned rules);

#endif

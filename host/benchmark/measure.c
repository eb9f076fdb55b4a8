#define _DEFAULT_SOURCE // clock_gettime
#include "measure.h"

#include <stdio.h>
#include <stdlib.h>
#include <time.h>
#include <unistd.h>

static const struct engine *const engine[ENGINES] = {&library, &independent};

static bool by_instructions;

void count_instructions(void)
{
    by_instructions = true;
}

// By the processor's clock for this program, which stands still while others run.
static double nanoseconds(const struct engine *timed, const struct task *task, unsigned long calls)
{
    struct timespec begin, end;
    clock_gettime(CLOCK_PROCESS_CPUTIME_ID, &begin);
    for (unsigned long i = 0; i < calls; i++)
        task->call(timed, task);
    clock_gettime(CLOCK_PROCESS_CPUTIME_ID, &end);
    return ((double)(end.tv_sec - begin.tv_sec) * 1e9 + (double)(end.tv_nsec - begin.tv_nsec)) / (double)calls;
}

// A turn is long beside a look at the clock, and short beside what disturbs a machine.
static struct figures time_task(const struct task *task)
{
    struct figures times = {{0}};
    unsigned long calls = 1 + (unsigned long)(4e5 / (nanoseconds(engine[1], task, 2) + 1));
    for (int turn = 0; turn < TURNS; turn++)
        for (int i = 0; i < ENGINES; i++) {
            double time = nanoseconds(engine[i], task, calls) / task->units;
            if (turn == 0 || time < times.of[i])
                times.of[i] = time;
        }
    return times;
}

// The instructions so far, which counting.c puts into a pipe to which nothing is written.
static double instructions(void)
{
    static int pipe_of[2] = {-1, -1};
    uint64_t count;
    if (pipe_of[0] < 0 && pipe(pipe_of) != 0)
        exit(2);
    if (write(pipe_of[1], "", 0) != 0 || read(pipe_of[0], &count, sizeof count) != sizeof count)
        exit(2);
    return (double)count;
}

static void no_call(const struct engine *none, const struct task *task)
{
    (void)none, (void)task;
}

static double instructions_of(const struct engine *counted, const struct task *task)
{
    double before = instructions();
    task->call(counted, task);
    return instructions() - before;
}

// The second of two calls, less what is counted around it.
static struct figures count_task(const struct task *task)
{
    struct figures counts;
    struct task nothing = {.call = no_call};
    for (int i = 0; i < ENGINES; i++) {
        instructions_of(engine[i], task);
        counts.of[i] = (instructions_of(engine[i], task) - instructions_of(engine[i], &nothing)) / task->units;
    }
    return counts;
}

struct figures measure(const struct task *task)
{
    return by_instructions ? count_task(task) : time_task(task);
}

void print_figures(const char *name, const struct task *task, struct figures figures)
{
    int decimals = task->units == 1 ? 0 : 3;
    printf("%-49s %-8s %12.*f %12.*f %8.2f\n", name, task->unit, decimals, figures.of[0], decimals, figures.of[1],
           figures.of[0] / figures.of[1]);
    fflush(stdout);
}

void measure_line(const char *name, const struct task *task)
{
    print_figures(name, task, measure(task));
}

void measure_pair(const char *name, struct task *task, const struct family *family, const struct grid *grid)
{
    spell_book(family, &task->first);
    spell_sheet(grid, &task->second);
    measure_line(name, task);
}

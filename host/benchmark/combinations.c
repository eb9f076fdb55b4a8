// The combinations.
#include <stdio.h>

#include "measure.h"

void make(const struct engine *timed, const struct task *task)
{
    static uint8_t out[DV_LONGEST_BOOK];
    combine(timed, task->combination, task->first.at, task->first.length, task->second.at, task->second.length, out,
            sizeof out);
}

// Each combination on the largest books that it takes; the one that takes the library longest is shown.
LINES(combinations)
{
    static const unsigned rules[COMBINATIONS][2] = {{50, 50}, {100, 99}, {100, 99}, {99, 1},
                                                    {99, 1},  {200, 1},  {200, 1},  {200, 1}};
    struct task task = {.call = make, .unit = "a call", .units = 1};
    struct figures slowest = {{0}};
    char name[80] = "";
    for (int i = 0; i < COMBINATIONS; i++) {
        task.combination = (enum combination)i;
        heavy_book(&task.first, false, rules[i][0]);
        heavy_book(&task.second, true, rules[i][1]);
        struct figures figures = measure(&task);
        if (figures.of[0] > slowest.of[0]) {
            slowest = figures;
            snprintf(name, sizeof name, "the slowest combination, %s", combination_name[i]);
        }
    }
    print_figures(name, &task, slowest);
}

// Measures the library and the independent engine on the same inputs: by the clock, in turn, and takes the best of
// each; or, with the word instructions, by how many each takes, which counting/counting.c counts.
#include <stdio.h>
#include <string.h>

#include "../shared/chance.h"
#include "measure.h"

int main(int argc, char **argv)
{
    size_t files;
    const struct entry *lines = entries(&files);
    if (argc > 1 && strcmp(argv[1], "instructions") == 0) {
        count_instructions();
        printf("bench: x86-64 instructions\n");
    } else {
        printf("bench: nanoseconds, the best of %d turns\n", TURNS);
    }
    printf("%-58s %12s %12s %8s\n", "", "library", "independent", "ratio");
    for (size_t i = 0; i < files; i++) {
        chance_seed(1);
        lines[i].act();
    }
    return 0;
}

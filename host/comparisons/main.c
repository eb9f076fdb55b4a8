// The library against the independent engine. The word on the command line is the seed.
#include <stdio.h>
#include <stdlib.h>

#include "tally.h"

int main(int argc, char **argv)
{
    char *end = NULL;
    unsigned long long seed = argc > 1 ? strtoull(argv[1], &end, 10) : 1;
    if (argc > 2 || (end != NULL && *end != '\0')) {
        fprintf(stderr, "usage: compare [SEED]\n");
        return 2;
    }
    compare_kinds(seed);
    return 0;
}

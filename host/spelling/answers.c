#include "answers.h"

#include <stdio.h>
#include <stdlib.h>

#include "files.h"

void print_refusal(const char *path, const char *what, uint64_t answer)
{
    fprintf(stderr, "%s: refused as %s: %s", path, what, dv_text(dv_number(answer)));
    if (dv_blamed(answer) != 0)
        fprintf(stderr, ", at byte %zu", dv_place(answer) + 1);
    fputc('\n', stderr);
}

void expect_accepted(const char *path, const char *what, uint64_t answer)
{
    if (dv_number(answer) == DV_ACCEPTED)
        return;
    print_refusal(path, what, answer);
    exit(REFUSED);
}

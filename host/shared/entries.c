#include "entries.h"

#include <stdlib.h>
#include <string.h>

enum { MOST = 64 };

static struct entry entered[MOST];
static size_t count;

void enter(const char *name, void (*act)(void))
{
    if (count == MOST)
        abort();
    entered[count++] = (struct entry){name, act};
}

static int by_name(const void *one, const void *other)
{
    return strcmp(((const struct entry *)one)->name, ((const struct entry *)other)->name);
}

const struct entry *entries(size_t *number)
{
    qsort(entered, count, sizeof *entered, by_name);
    *number = count;
    return entered;
}

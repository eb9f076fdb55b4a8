#define _DEFAULT_SOURCE // mmap's MAP_ANONYMOUS
#include "lent.h"

#include <stdio.h>
#include <stdlib.h>
#include <string.h>
#include <sys/mman.h>
#include <unistd.h>

enum { CANARIES = 1024, CANARY = 0xc5 };

struct lent lent_room(size_t most)
{
    size_t page = (size_t)sysconf(_SC_PAGESIZE);
    size_t size = (most + CANARIES + page - 1) / page * page;
    uint8_t *start = mmap(NULL, size + page, PROT_READ | PROT_WRITE, MAP_PRIVATE | MAP_ANONYMOUS, -1, 0);
    if (start == MAP_FAILED || mprotect(start + size, page, PROT_NONE) != 0) {
        perror("no memory for the slices");
        exit(2);
    }
    return (struct lent){start + size, start + size};
}

void lend(struct lent *lent, const uint8_t *bytes, size_t length)
{
    lent->slice = lent->end - length;
    memset(lent->slice - CANARIES, CANARY, CANARIES);
    memcpy(lent->slice, bytes, length);
}

bool canaries_stand(const struct lent *lent)
{
    const uint8_t *canary = lent->slice - CANARIES;
    return canary[0] == CANARY && memcmp(canary, canary + 1, CANARIES - 1) == 0;
}

// The join rules of a book, so that all of a kind are tried at once.
#ifndef INDEPENDENT_JOINS_H
#define INDEPENDENT_JOINS_H

#include "read.h"

// The join rules of one kind in three rows, each motif as its mask, so that the loop over them has no branch.
struct joins {
    unsigned count;
    uint32_t first[200], second[200], head[200];
};

static inline void split(const struct book *book, unsigned kind, struct joins *joins)
{
    joins->count = 0;
    for (unsigned i = 0; i < book->rules; i++) {
        struct rule rule = book->rule[i];
        if (rule.kind == kind) {
            joins->first[joins->count] = UINT32_C(1) << rule.first;
            joins->second[joins->count] = UINT32_C(1) << rule.second;
            joins->head[joins->count++] = UINT32_C(1) << rule.head;
        }
    }
}

// The heads of the rules that join a part with the first motifs to one with the second. Each head is loaded, needed or
// not, so that the compiler may take several rules at a time.
static inline uint32_t joined(const struct joins *joins, uint32_t first, uint32_t second)
{
    uint32_t heads = 0;
    for (unsigned i = 0; i < joins->count; i++) {
        uint32_t lacking = (~first & joins->first[i]) | (~second & joins->second[i]);
        heads |= joins->head[i] & (lacking == 0 ? UINT32_MAX : 0);
    }
    return heads;
}

#endif

// Tidying: a motif is kept that can be rewritten to colours and is reached from the start; then what is kept is
// renumbered. Sets of motifs are masks.
#include <stdbool.h>

#include "independent.h"
#include "write.h"

static uint32_t mask(unsigned motif)
{
    return UINT32_C(1) << motif;
}

// The motifs of a rule's body.
static uint32_t motifs_of(struct rule rule)
{
    return rule.kind == KIND_COLOUR ? 0 : mask(rule.first) | mask(rule.second);
}

static bool all_in(uint32_t motifs, uint32_t set)
{
    return (motifs & ~set) == 0;
}

// The heads of rules whose motifs all can be rewritten can be, until no rule adds one.
static uint32_t rewritten(const struct book *book)
{
    uint32_t can = 0, before;
    do {
        before = can;
        for (unsigned i = 0; i < book->rules; i++)
            if (all_in(motifs_of(book->rule[i]), can))
                can |= mask(book->rule[i].head);
    } while (can != before);
    return can;
}

// The start is reached, and the motifs of rules whose head is reached and whose motifs all can be rewritten.
static uint32_t reached(const struct book *book, uint32_t can)
{
    uint32_t reached = mask(book->start), before;
    do {
        before = reached;
        for (unsigned i = 0; i < book->rules; i++)
            if (all_in(mask(book->rule[i].head), reached) && all_in(motifs_of(book->rule[i]), can))
                reached |= motifs_of(book->rule[i]);
    } while (reached != before);
    return reached;
}

uint64_t independent_tidy(const uint8_t *book, size_t book_len, uint8_t *out, size_t out_len)
{
    struct book old, new;
    uint8_t number[32] = {0};
    uint64_t refusal = independent_untidy_of(&old, book, book_len);
    if (refusal != 0)
        return refusal;
    uint32_t can = rewritten(&old), kept = can & reached(&old, can);
    if (!all_in(mask(old.start), can))
        return independent_answer(17, 0, 0);
    new.colours = old.colours;
    new.motifs = 0;
    new.rules = 0;
    for (unsigned motif = 0; motif < old.motifs; motif++)
        if (all_in(mask(motif), kept))
            number[motif] = (uint8_t)new.motifs++;
    new.start = number[old.start];
    for (unsigned i = 0; i < old.rules; i++) {
        struct rule rule = old.rule[i];
        if (!all_in(mask(rule.head) | motifs_of(rule), kept))
            continue;
        rule.head = number[rule.head];
        if (rule.kind != KIND_COLOUR) {
            rule.first = number[rule.first];
            rule.second = number[rule.second];
        }
        if (!independent_stands(&new, new.rules, rule))
            new.rule[new.rules++] = rule;
    }
    return independent_written(&new, out, out_len);
}

// The eight combinations: the new contents are made, held to the limits, and spelt.
#include "independent.h"
#include "write.h"

static void add_rule(struct book *book, unsigned head, unsigned kind, unsigned first, unsigned second)
{
    book->rule[book->rules++] = (struct rule){(uint8_t)head, (uint8_t)kind, (uint8_t)first, (uint8_t)second};
}

// Adds G's colours that F has not and G's rules, motifs raised.
static void add_book(struct book *f, const struct book *g)
{
    uint8_t number[64];
    for (unsigned i = 0; i < g->colours.count; i++) {
        unsigned colour = independent_colour_named(&f->colours, g->colours.name[i]);
        if (colour == f->colours.count)
            f->colours.name[f->colours.count++] = g->colours.name[i];
        number[i] = (uint8_t)colour;
    }
    for (unsigned i = 0; i < g->rules; i++) {
        struct rule rule = g->rule[i];
        if (rule.kind == KIND_COLOUR)
            add_rule(f, rule.head + f->motifs, rule.kind, number[rule.first], 0);
        else
            add_rule(f, rule.head + f->motifs, rule.kind, rule.first + f->motifs, rule.second + f->motifs);
    }
    f->motifs += g->motifs;
}

// Adds copies of the rules from one number to another that have this head, under a new one.
static void add_copies(struct book *book, unsigned from, unsigned to, unsigned head, unsigned new_head)
{
    for (unsigned i = from; i < to; i++) {
        struct rule rule = book->rule[i];
        if (rule.head == head)
            add_rule(book, new_head, rule.kind, rule.first, rule.second);
    }
}

// Leaves out each rule of which an equal one stands earlier.
static void leave_out_copies(struct book *book)
{
    unsigned rules = book->rules;
    book->rules = 0;
    for (unsigned i = 0; i < rules; i++)
        if (!independent_stands(book, book->rules, book->rule[i]))
            book->rule[book->rules++] = book->rule[i];
}

static uint64_t both_of(struct book *f, struct book *g, const uint8_t *first, size_t first_len, const uint8_t *second,
                        size_t second_len)
{
    uint64_t refusal = independent_book_of(f, first, first_len, 1);
    return refusal != 0 ? refusal : independent_book_of(g, second, second_len, 2);
}

uint64_t independent_either_of(const uint8_t *first, size_t first_len, const uint8_t *second, size_t second_len,
                               uint8_t *out, size_t out_len)
{
    struct book f, g;
    uint64_t refusal = both_of(&f, &g, first, first_len, second, second_len);
    if (refusal != 0)
        return refusal;
    unsigned raised = f.motifs, own = f.rules;
    add_book(&f, &g);
    unsigned both = f.rules, start = f.motifs++;
    add_copies(&f, 0, own, f.start, start);
    add_copies(&f, own, both, g.start + raised, start);
    leave_out_copies(&f);
    f.start = start;
    return independent_written(&f, out, out_len);
}

// Beside and above.
static uint64_t joined(const uint8_t *first, size_t first_len, const uint8_t *second, size_t second_len, uint8_t *out,
                       size_t out_len, unsigned kind)
{
    struct book f, g;
    uint64_t refusal = both_of(&f, &g, first, first_len, second, second_len);
    if (refusal != 0)
        return refusal;
    unsigned raised = f.motifs;
    add_book(&f, &g);
    unsigned start = f.motifs++;
    add_rule(&f, start, kind, f.start, g.start + raised);
    f.start = start;
    return independent_written(&f, out, out_len);
}

uint64_t independent_beside(const uint8_t *first, size_t first_len, const uint8_t *second, size_t second_len,
                            uint8_t *out, size_t out_len)
{
    return joined(first, first_len, second, second_len, out, out_len, KIND_ACROSS);
}

uint64_t independent_above(const uint8_t *first, size_t first_len, const uint8_t *second, size_t second_len,
                           uint8_t *out, size_t out_len)
{
    return joined(first, first_len, second, second_len, out, out_len, KIND_DOWN);
}

// Run and stack.
static uint64_t repeated(const uint8_t *bytes, size_t length, uint8_t *out, size_t out_len, unsigned kind)
{
    struct book f;
    uint64_t refusal = independent_book_of(&f, bytes, length, 1);
    if (refusal != 0)
        return refusal;
    unsigned start = f.motifs++;
    add_copies(&f, 0, f.rules, f.start, start);
    add_rule(&f, start, kind, f.start, start);
    f.start = start;
    return independent_written(&f, out, out_len);
}

uint64_t independent_run(const uint8_t *book, size_t book_len, uint8_t *out, size_t out_len)
{
    return repeated(book, book_len, out, out_len, KIND_ACROSS);
}

uint64_t independent_stack(const uint8_t *book, size_t book_len, uint8_t *out, size_t out_len)
{
    return repeated(book, book_len, out, out_len, KIND_DOWN);
}

// Mirrored and flipped exchange the motifs of the rules of one kind.
static uint64_t exchanged(const uint8_t *bytes, size_t length, uint8_t *out, size_t out_len, unsigned kind)
{
    struct book f;
    uint64_t refusal = independent_book_of(&f, bytes, length, 1);
    if (refusal != 0)
        return refusal;
    for (unsigned i = 0; i < f.rules; i++) {
        struct rule rule = f.rule[i];
        if (rule.kind == kind)
            f.rule[i] = (struct rule){rule.head, rule.kind, rule.second, rule.first};
    }
    return independent_written(&f, out, out_len);
}

uint64_t independent_mirrored(const uint8_t *book, size_t book_len, uint8_t *out, size_t out_len)
{
    return exchanged(book, book_len, out, out_len, KIND_ACROSS);
}

uint64_t independent_flipped(const uint8_t *book, size_t book_len, uint8_t *out, size_t out_len)
{
    return exchanged(book, book_len, out, out_len, KIND_DOWN);
}

uint64_t independent_transposed(const uint8_t *book, size_t book_len, uint8_t *out, size_t out_len)
{
    struct book f;
    uint64_t refusal = independent_book_of(&f, book, book_len, 1);
    if (refusal != 0)
        return refusal;
    for (unsigned i = 0; i < f.rules; i++)
        if (f.rule[i].kind != KIND_COLOUR)
            f.rule[i].kind = (uint8_t)(KIND_ACROSS + KIND_DOWN - f.rule[i].kind);
    return independent_written(&f, out, out_len);
}

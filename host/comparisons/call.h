// One call made on both engines, for the files of calls/.
#ifndef CALL_H
#define CALL_H

#include "compare.h"

enum { SLICES = 3, NUMBERS = 3 };

// An input; null where the call takes none.
struct input {
    const uint8_t *at;
    size_t length;
};

// A slice that may be written: its entries, the bytes of one entry, and what it holds before; null where that is noise.
struct output {
    size_t entries, size;
    const void *held;
};

// What an engine is given: the press where the call takes one, its inputs, the slices that it may write, and numbers
// where the call takes some.
struct loan {
    size_t press;
    const uint8_t *in[SLICES];
    size_t in_len[SLICES];
    void *out[SLICES];
    size_t out_len[SLICES];
    size_t number[NUMBERS];
};

struct call {
    const char *name;
    uint64_t (*ask)(const struct engine *engine, const struct loan *loan);
    size_t press;
    struct input input[SLICES];
    struct output output[SLICES];
    size_t number[NUMBERS];
};

struct input all_of(const struct bytes *bytes);

// Makes the call on both engines, and gives what both showed or answered. An answer's number is one of the list.
uint64_t shown_by_both(struct call call);
uint64_t answered_by_both(struct call call);

// What a slice of the call last made holds, and what it held before.
const void *held_after(int slice);
const void *held_before(void);

// Makes room for the slices, with bytes by chance, and has a call that reaches outside them noticed.
void calls_begin(void);

// What is wrong from here on is not wrong with the call last made.
void forget_call(void);

#endif

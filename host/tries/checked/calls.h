// Every call of the header on one set of slices, tested by DV_CHECKED.
#ifndef CALLS_H
#define CALLS_H

#define DV_CHECKED
#include <druvelstek.h>

// What a call reads, at most three of these, and how many slices it may write.
enum input { NO_INPUT, BOOK, SHEET, RUN, NODES };
enum { READ = 3, WRITTEN = 2, SLICES = READ + WRITTEN };

// The slices of a call, those that it reads first. The size is that of an entry, in bytes.
struct slice {
    uint8_t *at;
    size_t length, size;
};
extern struct slice slice[SLICES];

// The press that a call is told, where it takes one.
extern size_t press;
enum takes { NO_PRESS, PRESS };

// Whether a call takes a press, what it reads, the bytes of an entry of each slice that it may write, and what it
// answers where all are empty.
struct call {
    const char *name;
    uint64_t (*make)(void);
    enum takes takes;
    enum input read[READ];
    size_t written[WRITTEN];
    uint64_t of_nothing;
};
extern const struct call calls[];
extern const size_t calls_count;

#endif

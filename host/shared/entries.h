// What the files of a room enter by themselves, so that a new file is in no list: the program goes through the entries
// of all files that it is made from.
#ifndef ENTRIES_H
#define ENTRIES_H

#include <stddef.h>

struct entry {
    const char *name;
    void (*act)(void);
};

// ENTRY(name) { .. } enters what is done under that name, before main begins.
#define ENTRY(name)                                                                                                    \
    static void act_##name(void);                                                                                      \
    __attribute__((constructor)) static void enter_##name(void)                                                        \
    {                                                                                                                  \
        enter(#name, act_##name);                                                                                      \
    }                                                                                                                  \
    static void act_##name(void)

void enter(const char *name, void (*act)(void));

// The entries in the order of their names, and how many they are.
const struct entry *entries(size_t *count);

#endif

// What the library answers of bytes, asked before anything is said to be written or shown.
#ifndef ANSWERS_H
#define ANSWERS_H

#include "contents.h"

// Says in words why the library refuses a file, as what it refuses it, and where: bytes are counted from 1.
void print_refusal(const char *path, const char *what, uint64_t answer);

// The same where the answer is no acceptance, and ends the program.
void expect_accepted(const char *path, const char *what, uint64_t answer);

#endif

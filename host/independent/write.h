// Writing in the independent engine.
#ifndef INDEPENDENT_WRITE_H
#define INDEPENDENT_WRITE_H

#include "read.h"

// Spells the book into out. Answers 0 with the number of bytes, 12 where it exceeds the limits, or 13.
uint64_t independent_written(const struct book *book, uint8_t *out, size_t out_len);

#endif

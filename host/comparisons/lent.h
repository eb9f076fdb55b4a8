// Slices lent to a call. A slice ends where the memory ends: the page after it can be neither read nor written. The
// bytes before it are canaries.
#ifndef LENT_H
#define LENT_H

#include <stdbool.h>
#include <stddef.h>
#include <stdint.h>

struct lent {
    uint8_t *end;
    uint8_t *slice;
};

// Room for a slice of at most so many bytes.
struct lent lent_room(size_t most);

// Makes the slice so many bytes long, with these contents.
void lend(struct lent *lent, const uint8_t *bytes, size_t length);

bool canaries_stand(const struct lent *lent);

#endif

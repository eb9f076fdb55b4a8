// Damage to the bytes of books and sheets.
#ifndef DAMAGE_H
#define DAMAGE_H

#include "spell.h"

void insert_byte(struct bytes *bytes, size_t at, uint8_t byte);
void drop_byte(struct bytes *bytes, size_t at);

// One damage by chance to bytes that are not empty.
void damage(struct bytes *bytes);

#endif

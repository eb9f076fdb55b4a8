// Contents to bytes, and back from bytes that the library accepted: of others nothing is tested here.
#ifndef SPELL_H
#define SPELL_H

#include "contents.h"

void spell_book(const struct book *book, struct bytes *bytes);
void spell_sheet(const struct sheet *sheet, struct bytes *bytes);

void unspell_book(const uint8_t *bytes, struct book *book);
void unspell_sheet(const uint8_t *bytes, struct sheet *sheet);

// Spells a number, and gives how many bytes it has: at most 3.
size_t spell_number(unsigned number, uint8_t *bytes);

#endif

// Books and sheets as texts, from which the same bytes are spelt.
#ifndef SHOW_H
#define SHOW_H

#include "contents.h"

void show_book(const struct book *book);
void show_sheet(const struct sheet *sheet);

// The ticket, and the colours with the letters that stand for them.
void show_legend(const struct sheet *sheet);
char letter_of(const struct sheet *sheet, unsigned row, unsigned column);

#endif

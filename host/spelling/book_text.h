// The text of a book, as docs/TEXTS.md has it.
#ifndef BOOK_TEXT_H
#define BOOK_TEXT_H

#include "contents.h"
#include "text.h"

void read_book_text(struct text *text, struct book *book);

#endif

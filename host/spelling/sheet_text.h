// The text of a sheet, as docs/TEXTS.md has it: ticket, colours, rows.
#ifndef SHEET_TEXT_H
#define SHEET_TEXT_H

#include "contents.h"
#include "text.h"

void read_sheet_text(struct text *text, struct sheet *sheet, size_t press);

#endif

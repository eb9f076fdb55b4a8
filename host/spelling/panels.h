// Asks the library about a sheet under a book, and draws the sheet: with a line between its panels where it belongs to
// the family, and else with the reason why not, round the piece or the cell that it names. A panel is what a derivation
// cuts apart, but a motif that is joined with itself, as a strip that is a strip beside a strip, is left one panel.
#ifndef PANELS_H
#define PANELS_H

#include "contents.h"

// A book and a sheet that the library accepted; gives what the program exits with.
int show_panels(size_t press, const struct bytes *book, const struct bytes *sheet);

#endif

// A text that a person wrote, read from left to right, line by line. Blanks, tabs and carriage returns only part what
// stands on a line, and # begins a comment, which ends with its line. At a fault the program says its line and what was
// expected there, and ends; nothing is written before a text is read whole.
#ifndef TEXT_H
#define TEXT_H

#include <stdbool.h>
#include <stddef.h>
#include <stdint.h>

enum { LONGEST_TEXT = 1 << 20 };

struct text {
    const char *path;
    size_t length, place;
    unsigned line;
    uint8_t at[LONGEST_TEXT + 1];
};

// A part of the text.
struct word {
    const uint8_t *at;
    size_t length;
};

void load_text(struct text *text, const char *path);

// Goes on to the next line that has more than blanks and a comment, this one included. False where none is left.
bool next_line(struct text *text);

// Whether nothing but blanks and a comment is left on this line.
bool line_ends(struct text *text);
void expect_line_end(struct text *text);

// The byte that comes next after blanks; a line end where the line or the text ends.
uint8_t next_byte(struct text *text);

// Goes past this sign, or this word, where it comes next.
bool takes_sign(struct text *text, char sign);
bool takes_word(struct text *text, const char *word);

// The word that comes next, of letters, digits, _ and -: empty where something else does. Nothing is gone past.
struct word next_word(struct text *text);
bool is_word(struct word word, const char *other);

// How much of a word is shown in a message.
int shown_length(struct word word);

// Ends at what comes next, and says that it was found instead.
void fault(struct text *text, const char *expected);

// Ends on a line; what was expected there is given as to printf.
void fault_on(const struct text *text, unsigned line, const char *expected, ...);

#endif

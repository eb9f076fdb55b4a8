#include "text.h"

#include <stdarg.h>
#include <stdio.h>
#include <stdlib.h>
#include <string.h>

#include "files.h"

void load_text(struct text *text, const char *path)
{
    text->path = path;
    text->place = 0;
    text->line = 1;
    text->length = load(path, text->at, sizeof text->at);
    if (text->length <= LONGEST_TEXT)
        return;
    fprintf(stderr, "%s: expected a text of at most %d bytes\n", path, LONGEST_TEXT);
    exit(REFUSED);
}

static bool stands(const struct text *text, uint8_t byte)
{
    return text->place < text->length && text->at[text->place] == byte;
}

static void skip_blanks(struct text *text)
{
    while (stands(text, ' ') || stands(text, '\t') || stands(text, '\r'))
        text->place++;
    if (!stands(text, '#'))
        return;
    while (text->place < text->length && !stands(text, '\n'))
        text->place++;
}

uint8_t next_byte(struct text *text)
{
    skip_blanks(text);
    return text->place < text->length ? text->at[text->place] : '\n';
}

bool line_ends(struct text *text)
{
    return next_byte(text) == '\n';
}

bool next_line(struct text *text)
{
    while (line_ends(text)) {
        if (text->place == text->length)
            return false;
        text->place++;
        text->line++;
    }
    return true;
}

void expect_line_end(struct text *text)
{
    if (!line_ends(text))
        fault(text, "the end of the line");
}

bool takes_sign(struct text *text, char sign)
{
    if (next_byte(text) != (uint8_t)sign)
        return false;
    text->place++;
    return true;
}

static bool in_word(uint8_t byte)
{
    return (byte >= 'a' && byte <= 'z') || (byte >= 'A' && byte <= 'Z') || (byte >= '0' && byte <= '9') ||
           byte == '_' || byte == '-';
}

struct word next_word(struct text *text)
{
    skip_blanks(text);
    struct word word = {text->at + text->place, 0};
    while (text->place + word.length < text->length && in_word(word.at[word.length]))
        word.length++;
    return word;
}

bool is_word(struct word word, const char *other)
{
    return word.length == strlen(other) && memcmp(word.at, other, word.length) == 0;
}

bool takes_word(struct text *text, const char *other)
{
    struct word word = next_word(text);
    if (!is_word(word, other))
        return false;
    text->place += word.length;
    return true;
}

int shown_length(struct word word)
{
    return word.length < 40 ? (int)word.length : 40;
}

void fault(struct text *text, const char *expected)
{
    struct word word = next_word(text);
    fprintf(stderr, "%s:%u: expected %s, found ", text->path, text->line, expected);
    if (text->place == text->length)
        fprintf(stderr, "the end of the text\n");
    else if (line_ends(text))
        fprintf(stderr, "the end of the line\n");
    else if (word.length > 0)
        fprintf(stderr, "%.*s\n", shown_length(word), (const char *)word.at);
    else if (*word.at > ' ' && *word.at <= '~')
        fprintf(stderr, "%c\n", *word.at);
    else
        fprintf(stderr, "a byte of value %u\n", *word.at);
    exit(REFUSED);
}

void fault_on(const struct text *text, unsigned line, const char *expected, ...)
{
    va_list parts;
    va_start(parts, expected);
    fprintf(stderr, "%s:%u: expected ", text->path, line);
    vfprintf(stderr, expected, parts);
    fputc('\n', stderr);
    va_end(parts);
    exit(REFUSED);
}

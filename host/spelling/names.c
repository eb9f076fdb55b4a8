#include "names.h"

#include <string.h>

bool name_is_next(struct text *text)
{
    return next_byte(text) == '"';
}

// The byte of a name that stands here, with the backslash before it if there is one.
static uint8_t read_byte(struct text *text)
{
    if (text->place == text->length || text->at[text->place] == '\n')
        fault(text, "the quote at the end of a name");
    if (text->at[text->place] < ' ' || text->at[text->place] > '~')
        fault_on(text, text->line, "bytes from 32 to 126 in a name");
    uint8_t byte = text->at[text->place++];
    if (byte != '\\')
        return byte;
    if (text->place == text->length || (text->at[text->place] != '"' && text->at[text->place] != '\\'))
        fault_on(text, text->line, "\\\" or \\\\ where a name has a backslash");
    return text->at[text->place++];
}

void read_name(struct text *text, struct name *name)
{
    if (!takes_sign(text, '"'))
        fault(text, "a name in quotes");
    name->length = 0;
    while (text->place == text->length || text->at[text->place] != '"') {
        uint8_t byte = read_byte(text);
        if (name->length == DV_LONGEST_NAME)
            fault_on(text, text->line, "a name of at most %d bytes", DV_LONGEST_NAME);
        name->at[name->length++] = byte;
    }
    text->place++;
    if (name->length == 0)
        fault_on(text, text->line, "a name of at least one byte");
    if (name->at[0] == ' ' || name->at[name->length - 1] == ' ')
        fault_on(text, text->line, "a name with no blank at either end");
}

void print_name(FILE *out, const struct name *name)
{
    fputc('"', out);
    for (size_t i = 0; i < name->length; i++) {
        if (name->at[i] == '"' || name->at[i] == '\\')
            fputc('\\', out);
        fputc(name->at[i], out);
    }
    fputc('"', out);
}

unsigned find_name(const struct colours *colours, const struct name *name)
{
    unsigned number = 0;
    while (number < colours->count && (colours->name[number].length != name->length ||
                                       memcmp(colours->name[number].at, name->at, name->length) != 0))
        number++;
    return number;
}

void add_name(struct text *text, struct colours *colours, const struct name *name)
{
    if (colours->count == DV_MOST_COLOURS)
        fault_on(text, text->line, "at most %d colours", DV_MOST_COLOURS);
    colours->name[colours->count++] = *name;
}

#include "sheet_text.h"

#include <string.h>

#include "names.h"

enum { NO_COLOUR = DV_MOST_COLOURS };

struct reader {
    struct text *text;
    struct sheet *sheet;
    size_t press;
    uint8_t colour[256]; // by its letter
};

static void read_ticket(struct reader *reader)
{
    struct text *text = reader->text;
    if (!next_line(text) || !takes_word(text, "ticket"))
        fault(text, "ticket and the number of the job");
    struct word word = next_word(text);
    unsigned ticket = 0;
    size_t i = 0;
    for (; i < word.length && word.at[i] >= '0' && word.at[i] <= '9' && ticket <= DV_GREATEST_TICKET; i++)
        ticket = 10 * ticket + (unsigned)(word.at[i] - '0');
    if (i == 0 || i < word.length || ticket > DV_GREATEST_TICKET)
        fault(text, "a number from 0 to 2097151");
    text->place += word.length;
    reader->sheet->ticket = ticket;
    expect_line_end(text);
}

static bool is_letter(uint8_t byte)
{
    return byte > ' ' && byte <= '~' && byte != '"' && byte != '#' && byte != '=';
}

// Whether this line names a colour: = is no letter of a row.
static bool names_colour(struct text *text)
{
    size_t place = text->place;
    bool named = false;
    if (is_letter(next_byte(text))) {
        text->place++;
        named = next_byte(text) == '=';
    }
    text->place = place;
    return named;
}

static void read_colour(struct reader *reader)
{
    struct text *text = reader->text;
    struct colours *colours = &reader->sheet->colours;
    uint8_t *colour = &reader->colour[next_byte(text)];
    struct name name;
    if (*colour != NO_COLOUR)
        fault(text, "a letter that has no colour yet");
    *colour = (uint8_t)colours->count;
    text->place++;
    takes_sign(text, '=');
    read_name(text, &name);
    if (find_name(colours, &name) < colours->count)
        fault_on(text, text->line, "a name that did not stand before");
    add_name(text, colours, &name);
    expect_line_end(text);
}

static void read_cell(struct reader *reader, unsigned column)
{
    struct text *text = reader->text;
    struct sheet *sheet = reader->sheet;
    uint8_t colour = reader->colour[next_byte(text)];
    if (colour == NO_COLOUR)
        fault(text, sheet->rows == 0 && column == 0 ? "LETTER = \"NAME\", or a row of such letters"
                                                    : "a letter that has a colour");
    if (column == dv_most_columns(reader->press))
        fault_on(text, text->line, "at most %zu cells in a row", dv_most_columns(reader->press));
    sheet->cell[sheet->rows * sheet->columns + column] = colour;
    text->place++;
}

static void read_row(struct reader *reader)
{
    struct text *text = reader->text;
    struct sheet *sheet = reader->sheet;
    unsigned column = 0;
    if (sheet->rows == dv_most_rows(reader->press))
        fault_on(text, text->line, "at most %zu rows", dv_most_rows(reader->press));
    for (; !line_ends(text); column++) {
        if (sheet->rows > 0 && column == sheet->columns)
            fault(text, "a row as long as the first");
        read_cell(reader, column);
    }
    if (sheet->rows > 0 && column < sheet->columns)
        fault(text, "a row as long as the first");
    sheet->columns = column;
    sheet->rows++;
}

void read_sheet_text(struct text *text, struct sheet *sheet, size_t press)
{
    struct reader reader = {text, sheet, press, {0}};
    memset(reader.colour, NO_COLOUR, sizeof reader.colour);
    sheet->colours.count = sheet->rows = sheet->columns = 0;
    read_ticket(&reader);
    while (next_line(text) && names_colour(text))
        read_colour(&reader);
    while (next_line(text))
        read_row(&reader);
    if (sheet->rows == 0)
        fault(text, "a row of letters");
}

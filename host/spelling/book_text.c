#include "book_text.h"

#include <string.h>

#include "names.h"

enum { NONE = DV_MOST_MOTIFS };

// A motif by its word, with the line where it first stands, its number, NONE until it gets one, and whether it has a
// rule or stands in a line of motifs.
struct motif {
    struct word word;
    unsigned line, number;
    bool settled;
};

// Until the text is read whole, start and rules of the book have places in this list of motifs for their numbers.
struct reader {
    struct text *text;
    struct book *book;
    unsigned named, numbered, start, head;
    struct motif motif[DV_MOST_MOTIFS];
};

static bool has_meaning(struct word word)
{
    return is_word(word, "start") || is_word(word, "motifs") || is_word(word, "colours") || is_word(word, "beside") ||
           is_word(word, "above");
}

static unsigned read_motif(struct reader *reader, const char *expected)
{
    struct word word = next_word(reader->text);
    if (word.length == 0 || has_meaning(word))
        fault(reader->text, expected);
    reader->text->place += word.length;
    for (unsigned i = 0; i < reader->named; i++)
        if (reader->motif[i].word.length == word.length && memcmp(reader->motif[i].word.at, word.at, word.length) == 0)
            return i;
    if (reader->named == DV_MOST_MOTIFS)
        fault_on(reader->text, reader->text->line, "at most %d motifs", DV_MOST_MOTIFS);
    reader->motif[reader->named] = (struct motif){word, reader->text->line, NONE, false};
    return reader->named++;
}

static void give_number(struct reader *reader, unsigned motif)
{
    if (reader->motif[motif].number == NONE)
        reader->motif[motif].number = reader->numbered++;
}

static void settle(struct reader *reader, unsigned motif)
{
    give_number(reader, motif);
    reader->motif[motif].settled = true;
}

static unsigned read_colour(struct reader *reader)
{
    struct colours *colours = &reader->book->colours;
    struct name name;
    read_name(reader->text, &name);
    unsigned number = find_name(colours, &name);
    if (number == colours->count)
        add_name(reader->text, colours, &name);
    return number;
}

static struct rule read_body(struct reader *reader)
{
    struct rule rule = {reader->head, DV_KIND_COLOUR, 0, 0};
    if (name_is_next(reader->text)) {
        rule.first = read_colour(reader);
        return rule;
    }
    rule.first = read_motif(reader, "a motif or a name in quotes");
    if (takes_word(reader->text, "beside"))
        rule.kind = DV_KIND_ACROSS;
    else if (takes_word(reader->text, "above"))
        rule.kind = DV_KIND_DOWN;
    else
        fault(reader->text, "beside or above");
    rule.second = read_motif(reader, "a motif");
    return rule;
}

static void add_rule(struct reader *reader, struct rule rule)
{
    struct book *book = reader->book;
    for (unsigned i = 0; i < book->rules; i++) {
        struct rule old = book->rule[i];
        if (old.head == rule.head && old.kind == rule.kind && old.first == rule.first && old.second == rule.second)
            fault_on(reader->text, reader->text->line, "a rule that did not stand before");
    }
    if (book->rules == DV_MOST_RULES)
        fault_on(reader->text, reader->text->line, "at most %d rules", DV_MOST_RULES);
    book->rule[book->rules++] = rule;
}

static void read_bodies(struct reader *reader)
{
    do
        add_rule(reader, read_body(reader));
    while (takes_sign(reader->text, '|'));
    if (!line_ends(reader->text))
        fault(reader->text, "| or the end of the line");
}

static void read_start(struct reader *reader)
{
    if (reader->start != NONE)
        fault_on(reader->text, reader->text->line, "one start");
    reader->start = read_motif(reader, "the motif to start with");
    if (reader->numbered == 0)
        give_number(reader, reader->start);
    expect_line_end(reader->text);
}

static void read_line(struct reader *reader)
{
    struct text *text = reader->text;
    if (takes_word(text, "start")) {
        read_start(reader);
    } else if (takes_word(text, "motifs")) {
        do
            settle(reader, read_motif(reader, "a motif"));
        while (!line_ends(text));
    } else if (takes_word(text, "colours")) {
        do
            read_colour(reader);
        while (!line_ends(text));
    } else if (reader->head != NONE && takes_sign(text, '|')) {
        read_bodies(reader);
    } else {
        reader->head = read_motif(reader, "start, motifs, colours or the motif of a rule");
        settle(reader, reader->head);
        if (!takes_sign(text, '='))
            fault(text, "=");
        read_bodies(reader);
    }
}

// A motif that is only used is likely one that is misspelt.
static void expect_settled(struct reader *reader)
{
    for (unsigned i = 0; i < reader->named; i++) {
        const struct motif *motif = &reader->motif[i];
        if (!motif->settled)
            fault_on(reader->text, motif->line, "a rule for %.*s, or a line of motifs that has it",
                     shown_length(motif->word), (const char *)motif->word.at);
    }
}

static void number_motifs(struct reader *reader)
{
    struct book *book = reader->book;
    book->motifs = reader->numbered;
    book->start = reader->motif[reader->start].number;
    for (unsigned i = 0; i < book->rules; i++) {
        struct rule *rule = &book->rule[i];
        rule->head = reader->motif[rule->head].number;
        if (rule->kind == DV_KIND_COLOUR)
            continue;
        rule->first = reader->motif[rule->first].number;
        rule->second = reader->motif[rule->second].number;
    }
}

void read_book_text(struct text *text, struct book *book)
{
    struct reader reader = {text, book, 0, 0, NONE, NONE, {{{NULL, 0}, 0, 0, false}}};
    book->colours.count = 0;
    book->rules = 0;
    while (next_line(text))
        read_line(&reader);
    if (book->rules == 0)
        fault(text, "a rule");
    if (book->colours.count == 0)
        fault(text, "the name of a colour");
    if (reader.start == NONE)
        fault(text, "a line with start and a motif");
    expect_settled(&reader);
    number_motifs(&reader);
}

#include <stdbool.h>
#include <stdio.h>

#include "names.h"
#include "show.h"

// Whether no line of motifs is needed: each has a rule, and the start and then the heads, as they stand, come by number.
static bool motifs_as_they_stand(const struct book *book)
{
    unsigned numbered = 1;
    bool start_has_rule = false;
    for (unsigned i = 0; i < book->rules; i++) {
        unsigned head = book->rule[i].head;
        if (head > numbered)
            return false;
        numbered += head == numbered;
        start_has_rule |= head == book->start;
    }
    return book->start == 0 && start_has_rule && numbered == book->motifs;
}

static bool colours_as_they_stand(const struct book *book)
{
    unsigned numbered = 0;
    for (unsigned i = 0; i < book->rules; i++) {
        struct rule rule = book->rule[i];
        if (rule.kind == DV_KIND_COLOUR && rule.first > numbered)
            return false;
        numbered += rule.kind == DV_KIND_COLOUR && rule.first == numbered;
    }
    return numbered == book->colours.count;
}

static void show_motifs(const struct book *book)
{
    printf("motifs");
    for (unsigned i = 0; i < book->motifs; i++)
        printf(" m%u", i);
    printf("\n");
}

static void show_colours(const struct book *book)
{
    for (unsigned i = 0; i < book->colours.count; i++) {
        printf("colours ");
        print_name(stdout, &book->colours.name[i]);
        printf("\n");
    }
}

static void show_body(const struct book *book, struct rule rule)
{
    if (rule.kind == DV_KIND_COLOUR)
        print_name(stdout, &book->colours.name[rule.first]);
    else
        printf("m%u %s m%u", rule.first, rule.kind == DV_KIND_ACROSS ? "beside" : "above", rule.second);
}

void show_book(const struct book *book)
{
    if (!colours_as_they_stand(book))
        show_colours(book);
    if (!motifs_as_they_stand(book))
        show_motifs(book);
    printf("start m%u\n", book->start);
    int indent = 0;
    for (unsigned i = 0; i < book->rules; i++) {
        unsigned head = book->rule[i].head;
        if (i > 0 && book->rule[i - 1].head == head)
            printf("%*s| ", indent, "");
        else
            indent = printf("m%u = ", head) - 2;
        show_body(book, book->rule[i]);
        printf("\n");
    }
}

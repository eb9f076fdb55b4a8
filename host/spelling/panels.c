#include "panels.h"

#include <stdio.h>

#include "drawing.h"
#include "files.h"
#include "names.h"
#include "show.h"
#include "spell.h"

static uint32_t work[DV_WIDE_MOST_WORK];
static uint16_t tree[DV_WIDE_MOST_TREE];
static struct book book;
static struct sheet sheet;
static struct drawing drawing;

// Draws the cuts in the piece of a node, and gives the node after those of its parts.
static const uint16_t *draw_cuts(const uint16_t *node, size_t top, size_t left, size_t height, size_t width)
{
    struct rule rule = book.rule[node[0]];
    size_t k = node[1];
    bool with_itself = rule.first == rule.head && rule.second == rule.head;
    node += 2;
    switch (rule.kind) {
    case DV_KIND_ACROSS:
        if (!with_itself)
            draw_upright(&drawing, top, left + k, height);
        return draw_cuts(draw_cuts(node, top, left, height, k), top, left + k, height, width - k);
    case DV_KIND_DOWN:
        if (!with_itself)
            draw_level(&drawing, top + k, left, width);
        return draw_cuts(draw_cuts(node, top, left, k, width), top + k, left, height - k, width);
    default:
        return node;
    }
}

// Draws round what the reason names.
static void draw_reason(uint64_t reason)
{
    size_t row = dv_reason_row(reason), column = dv_reason_column(reason);
    if (dv_reason_kind(reason) == DV_REASON_COLOUR)
        draw_round(&drawing, row, column, 1, 1);
    else if (dv_reason_kind(reason) == DV_REASON_PIECE)
        draw_round(&drawing, row, column, dv_reason_height(reason), dv_reason_width(reason));
}

// Rows and columns are counted from 1, as people do.
static void print_reason(uint64_t reason)
{
    size_t row = dv_reason_row(reason), column = dv_reason_column(reason);
    switch (dv_reason_kind(reason)) {
    case DV_REASON_COLOUR:
        printf("no rule names the colour in row %zu, column %zu: ", row + 1, column + 1);
        print_name(stdout, &sheet.colours.name[sheet.cell[row * sheet.columns + column]]);
        printf("\n");
        break;
    case DV_REASON_SIZE:
        printf("the family has no sheet of %u by %u\n", sheet.rows, sheet.columns);
        break;
    case DV_REASON_PIECE:
        printf("the largest piece that is: rows %zu to %zu of columns %zu to %zu\n", row + 1,
               row + dv_reason_height(reason), column + 1, column + dv_reason_width(reason));
        break;
    default:
        printf("the family has sheets of %u by %u, but no piece of this one is in it\n", sheet.rows, sheet.columns);
    }
}

int show_panels(size_t press, const struct bytes *book_bytes, const struct bytes *sheet_bytes)
{
    uint64_t answer = dv_derive(press, book_bytes->at, book_bytes->length, sheet_bytes->at, sheet_bytes->length, work,
                                DV_WIDE_MOST_WORK, tree, DV_WIDE_MOST_TREE);
    unspell_book(book_bytes->at, &book);
    unspell_sheet(sheet_bytes->at, &sheet);
    show_legend(&sheet);
    begin_drawing(&drawing, &sheet);
    if (dv_number(answer) == DV_ACCEPTED) {
        draw_cuts(tree, 0, 0, sheet.rows, sheet.columns);
        print_drawing(&drawing);
        printf("in the family\n");
        return DONE;
    }
    uint64_t reason = dv_why_not(press, book_bytes->at, book_bytes->length, sheet_bytes->at, sheet_bytes->length, work,
                                 DV_WIDE_MOST_WORK);
    draw_reason(reason);
    print_drawing(&drawing);
    printf("%s: ", dv_text(dv_number(answer)));
    print_reason(reason);
    return DECLINED;
}

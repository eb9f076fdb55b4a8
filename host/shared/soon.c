#include "soon.h"

enum { FEW_QUESTIONS = 1 << 24 };

// The most joins of a kind under one head.
static unsigned most_joins(const struct bytes *book, unsigned kind)
{
    unsigned joins[DV_MOST_MOTIFS] = {0}, most = 0;
    for (size_t i = 0; i < DV_MOST_RULES; i++) {
        uint64_t rule = dv_rule(book->at, book->length, i);
        if (dv_rule_found(rule) && dv_rule_kind(rule) == kind && ++joins[dv_rule_head(rule)] > most)
            most++;
    }
    return most;
}

// At each cut both parts are asked for at most, and each of the cuts leaves a part of every smaller width, or height,
// twice.
static double most_questions(unsigned across, unsigned down, size_t rows, size_t columns)
{
    double most[DV_MOST_PLAIN_CELLS + 1][DV_MOST_PLAIN_CELLS + 1];
    for (size_t height = 1; height <= rows; height++)
        for (size_t width = 1; width <= columns; width++) {
            most[height][width] = 1;
            for (size_t k = 1; k < width; k++)
                most[height][width] += 2.0 * across * most[height][k];
            for (size_t k = 1; k < height; k++)
                most[height][width] += 2.0 * down * most[k][width];
        }
    return most[rows][columns];
}

bool soon_searched(size_t press, const struct bytes *book, const struct bytes *sheet)
{
    uint64_t size = dv_sheet_size(press, sheet->at, sheet->length);
    size_t rows = dv_size_rows(size), columns = dv_size_columns(size);
    return rows * columns == 0 || rows * columns > DV_MOST_PLAIN_CELLS ||
           most_questions(most_joins(book, DV_KIND_ACROSS), most_joins(book, DV_KIND_DOWN), rows, columns) <=
               FEW_QUESTIONS;
}

#include "table.h"

#include <string.h>

size_t independent_entries(const struct sheet *sheet)
{
    unsigned m = sheet->rows, n = sheet->columns;
    return m * (m + 1) / 2 * (n * (n + 1) / 2);
}

static void number_slots(struct table *table)
{
    unsigned next = 0;
    for (unsigned height = 1; height <= table->rows; height++)
        for (unsigned width = 1; width <= table->columns; width++) {
            table->slot[height][width] = next;
            next += (table->rows - height + 1) * (table->columns - width + 1);
        }
}

void independent_split(struct rules *rules, const struct book *book)
{
    memset(rules->heads, 0, sizeof rules->heads);
    for (unsigned i = 0; i < book->rules; i++)
        if (book->rule[i].kind == KIND_COLOUR)
            rules->heads[book->rule[i].first] |= UINT32_C(1) << book->rule[i].head;
    split(book, KIND_ACROSS, &rules->across);
    split(book, KIND_DOWN, &rules->down);
}

// The heads of the joins that fire at some cut of a piece. Each rule that is tried at a cut is counted.
static inline uint32_t made(const struct table *table, const struct rules *rules, unsigned height, unsigned width,
                            unsigned top, unsigned left, uint64_t *trials)
{
    uint32_t heads = 0;
    for (unsigned k = 1; k < width; k++, *trials += rules->across.count)
        heads |= joined(&rules->across, entry(table, height, k, top, left),
                        entry(table, height, width - k, top, left + k));
    for (unsigned k = 1; k < height; k++, *trials += rules->down.count)
        heads |= joined(&rules->down, entry(table, k, width, top, left),
                        entry(table, height - k, width, top + k, left));
    return heads;
}

static void lay(struct table *table, const struct order *order, uint32_t *work)
{
    table->rows = order->sheet.rows;
    table->columns = order->sheet.columns;
    table->entry = work;
    number_slots(table);
}

uint64_t independent_fill(struct table *table, const struct rules *rules, const struct order *order, uint32_t *work)
{
    unsigned rows = order->sheet.rows, columns = order->sheet.columns;
    lay(table, order, work);
    for (unsigned i = 0; i < rows * columns; i++)
        work[i] = rules->heads[order->colour[order->sheet.cell[i]]];
    // Pieces go by slot, so the parts of a piece are there before it.
    uint32_t *next = work;
    uint64_t trials = 0;
    for (unsigned height = 1; height <= rows; height++)
        for (unsigned width = 1; width <= columns; width++)
            for (unsigned top = 0; top + height <= rows; top++)
                for (unsigned left = 0; left + width <= columns; left++, next++)
                    if (height > 1 || width > 1)
                        *next = made(table, rules, height, width, top, left, &trials);
    return trials;
}

// The first and the last place from which a stretch of so many cells in a row of n has the cell.
static unsigned first_place(unsigned cell, unsigned length)
{
    return cell + 1 > length ? cell + 1 - length : 0;
}

static unsigned last_place(unsigned cell, unsigned length, unsigned n)
{
    return cell < n - length ? cell : n - length;
}

void independent_refill(struct table *table, const struct rules *rules, const struct order *order, uint32_t *work,
                        unsigned row, unsigned column, unsigned colour)
{
    unsigned rows = order->sheet.rows, columns = order->sheet.columns;
    lay(table, order, work);
    work[row * columns + column] = rules->heads[order->colour[colour]];
    uint64_t trials = 0;
    for (unsigned height = 1; height <= rows; height++)
        for (unsigned width = 1; width <= columns; width++) {
            if (height == 1 && width == 1)
                continue;
            unsigned bottom = last_place(row, height, rows), right = last_place(column, width, columns);
            for (unsigned top = first_place(row, height); top <= bottom; top++)
                for (unsigned left = first_place(column, width); left <= right; left++)
                    work[table->slot[height][width] + top * (columns - width + 1) + left] =
                        made(table, rules, height, width, top, left, &trials);
        }
}

// The size card. Which motifs have a sheet of some height and width follows from smaller sizes and the rules; no colour
// is looked at.
#include "card.h"

#include "independent.h"
#include "joins.h"

// The motifs that have a sheet of each height and width.
struct sizes {
    uint32_t motifs[WIDEST + 1][WIDEST + 1];
};

static uint32_t motifs_of_a_cell(const struct book *book)
{
    uint32_t heads = 0;
    for (unsigned i = 0; i < book->rules; i++)
        if (book->rule[i].kind == KIND_COLOUR)
            heads |= UINT32_C(1) << book->rule[i].head;
    return heads;
}

// Up to so many rows and columns.
static void size_up(const struct book *book, struct sizes *sizes, unsigned rows, unsigned columns)
{
    struct joins across, down;
    split(book, KIND_ACROSS, &across);
    split(book, KIND_DOWN, &down);
    for (unsigned height = 1; height <= rows; height++)
        for (unsigned width = 1; width <= columns; width++) {
            uint32_t heads = height == 1 && width == 1 ? motifs_of_a_cell(book) : 0;
            for (unsigned k = 1; k < width; k++)
                heads |= joined(&across, sizes->motifs[height][k], sizes->motifs[height][width - k]);
            for (unsigned k = 1; k < height; k++)
                heads |= joined(&down, sizes->motifs[k][width], sizes->motifs[height - k][width]);
            sizes->motifs[height][width] = heads;
        }
}

bool independent_has_size(const struct book *book, unsigned rows, unsigned columns)
{
    struct sizes sizes;
    size_up(book, &sizes, rows, columns);
    return sizes.motifs[rows][columns] >> book->start & 1;
}

uint64_t independent_size_card(size_t press, const uint8_t *book, size_t book_len, uint32_t *card, size_t card_len)
{
    struct book contents;
    struct sizes sizes;
    uint64_t refusal = independent_press_refused(press), count = 0;
    if (refusal == 0)
        refusal = independent_book_of(&contents, book, book_len, 1);
    if (refusal != 0)
        return refusal;
    unsigned most = independent_longest_side(press);
    if (card_len < most)
        return independent_answer(13, 0, 0);
    size_up(&contents, &sizes, most, most);
    for (unsigned height = 1; height <= most; height++) {
        card[height - 1] = 0;
        for (unsigned width = 1; width <= most; width++) {
            uint32_t has = sizes.motifs[height][width] >> contents.start & 1;
            card[height - 1] |= has << (width - 1);
            count += has;
        }
    }
    return count << 32;
}

#include "nodes.h"

#include <stdbool.h>

#include "chance.h"

void nodes_of(const uint16_t *tree, size_t count, struct dv_node *nodes)
{
    for (size_t i = 0; i < count; i++)
        nodes[i] = (struct dv_node){tree[2 * i], tree[2 * i + 1]};
}

struct drawing {
    const struct family *family;
    const struct grid *grid;
    const uint32_t *work;
    struct dv_node *next;
};

struct piece {
    unsigned height, width, top, left;
};

// Pieces stand in the table by height, width, top row and left column.
static bool derives(const struct drawing *drawing, unsigned motif, struct piece piece)
{
    unsigned m = drawing->grid->rows, n = drawing->grid->columns, slot = 0;
    for (unsigned height = 1; height < piece.height; height++)
        slot += (m - height + 1) * (n * (n + 1) / 2);
    for (unsigned width = 1; width < piece.width; width++)
        slot += (m - piece.height + 1) * (n - width + 1);
    slot += piece.top * (n - piece.width + 1) + piece.left;
    return drawing->work[slot] >> motif & 1;
}

static struct piece first_part(struct piece piece, bool across, unsigned k)
{
    *(across ? &piece.width : &piece.height) = k;
    return piece;
}

static struct piece second_part(struct piece piece, bool across, unsigned k)
{
    *(across ? &piece.width : &piece.height) -= k;
    *(across ? &piece.left : &piece.top) += k;
    return piece;
}

// Whether a node is right for a motif and a piece. A colour has k 0.
static bool fits(const struct drawing *drawing, unsigned number, unsigned k, unsigned motif, struct piece piece)
{
    struct rule rule = drawing->family->rule[number];
    bool across = rule.kind == DV_KIND_ACROSS;
    if (rule.head != motif)
        return false;
    if (rule.kind == DV_KIND_COLOUR)
        return k == 0 && piece.height == 1 && piece.width == 1 &&
               drawing->grid->cell[piece.top * drawing->grid->columns + piece.left] == rule.first;
    return k > 0 && k < (across ? piece.width : piece.height) &&
           derives(drawing, rule.first, first_part(piece, across, k)) &&
           derives(drawing, rule.second, second_part(piece, across, k));
}

static void draw(struct drawing *drawing, unsigned motif, struct piece piece)
{
    struct dv_node drawn = {0, 0};
    unsigned found = 0;
    for (unsigned number = 0; number < drawing->family->rules; number++)
        for (unsigned k = 0; k < piece.height + piece.width; k++)
            if (fits(drawing, number, k, motif, piece) && one_in(++found))
                drawn = (struct dv_node){(uint16_t)number, (uint16_t)k};
    *drawing->next++ = drawn;
    struct rule rule = drawing->family->rule[drawn.rule];
    bool across = rule.kind == DV_KIND_ACROSS;
    if (rule.kind == DV_KIND_COLOUR)
        return;
    draw(drawing, rule.first, first_part(piece, across, drawn.cut));
    draw(drawing, rule.second, second_part(piece, across, drawn.cut));
}

size_t draw_tree(const struct family *family, const struct grid *grid, const uint32_t *work, struct dv_node *nodes)
{
    struct drawing drawing = {family, grid, work, nodes};
    draw(&drawing, family->start, (struct piece){grid->rows, grid->columns, 0, 0});
    return (size_t)(drawing.next - nodes);
}

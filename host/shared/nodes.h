// Trees as rows of nodes.
#ifndef NODES_H
#define NODES_H

#include "spell.h"

// The nodes that a derivation wrote to a tree slice, so many.
void nodes_of(const uint16_t *tree, size_t count, struct dv_node *nodes);

// A tree of a grid that its family derives, with a rule and a cut by chance at every node, and the number of its nodes.
// The grid is coloured by the family's own list, and the work slice has its table.
size_t draw_tree(const struct family *family, const struct grid *grid, const uint32_t *work, struct dv_node *nodes);

#endif

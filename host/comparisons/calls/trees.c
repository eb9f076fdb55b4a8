// A tree that others chose, for a sheet under a book.
#include "../call.h"

static uint64_t ask_check_tree(const struct engine *engine, const struct loan *loan)
{
    return engine->check_tree(loan->press, loan->in[0], loan->in_len[0], loan->in[1], loan->in_len[1],
                              (const struct dv_node *)(const void *)loan->in[2],
                              loan->in_len[2] / sizeof(struct dv_node));
}

uint64_t compare_check_tree(size_t press, const struct bytes *book, const struct bytes *sheet,
                            const struct dv_node *nodes, size_t count)
{
    return answered_by_both(
        (struct call){.name = "dv_check_tree",
                      .ask = ask_check_tree,
                      .press = press,
                      .input = {all_of(book), all_of(sheet), {(const uint8_t *)nodes, count * sizeof *nodes}}});
}

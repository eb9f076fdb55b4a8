// The size card of a book.
#include <string.h>

#include "../call.h"

static uint64_t ask_size_card(const struct engine *engine, const struct loan *loan)
{
    return engine->size_card(loan->press, loan->in[0], loan->in_len[0], loan->out[0], loan->out_len[0]);
}

uint64_t compare_size_card(size_t press, const struct bytes *book, size_t card_len, uint32_t *card)
{
    uint64_t answer = answered_by_both((struct call){.name = "dv_size_card",
                                                     .ask = ask_size_card,
                                                     .press = press,
                                                     .input = {all_of(book)},
                                                     .output = {{card_len, sizeof(uint32_t)}}});
    if (card != NULL && dv_number(answer) == DV_ACCEPTED)
        memcpy(card, held_after(0), dv_card_entries(press) * sizeof *card);
    return answer;
}

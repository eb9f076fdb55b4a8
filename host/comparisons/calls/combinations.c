// The eight combinations.
#include <string.h>

#include "../call.h"

static uint64_t ask_combination(const struct engine *engine, const struct loan *loan)
{
    return combine(engine, (enum combination)loan->number[0], loan->in[0], loan->in_len[0], loan->in[1],
                   loan->in_len[1], loan->out[0], loan->out_len[0]);
}

uint64_t compare_combination(enum combination combination, const struct bytes *first, const struct bytes *second,
                             size_t out_len, struct bytes *made)
{
    uint64_t answer =
        answered_by_both((struct call){.name = combination_name[combination],
                                       .ask = ask_combination,
                                       .input = {all_of(first), all_of(takes_two(combination) ? second : NULL)},
                                       .output = {{out_len, 1}},
                                       .number = {combination}});
    if (made != NULL && dv_number(answer) == DV_ACCEPTED) {
        made->length = dv_count(answer);
        memcpy(made->at, held_after(0), made->length);
    }
    return answer;
}

// A book tidied.
#include <string.h>

#include "../call.h"

static uint64_t ask_tidy(const struct engine *engine, const struct loan *loan)
{
    return engine->tidy(loan->in[0], loan->in_len[0], loan->out[0], loan->out_len[0]);
}

uint64_t compare_tidy(const struct bytes *book, size_t out_len, struct bytes *tidied)
{
    uint64_t answer = answered_by_both(
        (struct call){.name = "dv_tidy", .ask = ask_tidy, .input = {all_of(book)}, .output = {{out_len, 1}}});
    if (tidied != NULL && dv_number(answer) == DV_ACCEPTED) {
        tidied->length = dv_count(answer);
        memcpy(tidied->at, held_after(0), tidied->length);
    }
    return answer;
}

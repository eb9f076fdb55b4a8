// A sheet under a book, by the plain engine.
#include "../call.h"

static uint64_t ask_plain(const struct engine *engine, const struct loan *loan)
{
    return engine->plain(loan->press, loan->in[0], loan->in_len[0], loan->in[1], loan->in_len[1]);
}

uint64_t compare_plain(size_t press, const struct bytes *book, const struct bytes *sheet)
{
    return answered_by_both(
        (struct call){.name = "dv_plain", .ask = ask_plain, .press = press, .input = {all_of(book), all_of(sheet)}});
}

// A sheet under a book: whether the family derives it, and why not.
#include "../call.h"
#include "../tally.h"

static uint64_t ask_derive(const struct engine *engine, const struct loan *loan)
{
    return engine->derive(loan->press, loan->in[0], loan->in_len[0], loan->in[1], loan->in_len[1], loan->out[0],
                          loan->out_len[0], loan->out[1], loan->out_len[1]);
}

uint64_t compare_derive(size_t press, const struct bytes *book, const struct bytes *sheet, size_t work_len,
                        size_t tree_len)
{
    return UINT32_MAX &
           answered_by_both((struct call){.name = "dv_derive",
                                          .ask = ask_derive,
                                          .press = press,
                                          .input = {all_of(book), all_of(sheet)},
                                          .output = {{work_len, sizeof(uint32_t)}, {tree_len, sizeof(uint16_t)}}});
}

static uint64_t ask_why_not(const struct engine *engine, const struct loan *loan)
{
    return engine->why_not(loan->press, loan->in[0], loan->in_len[0], loan->in[1], loan->in_len[1], loan->out[0],
                           loan->out_len[0]);
}

uint64_t compare_why_not(size_t press, const struct bytes *book, const struct bytes *sheet, size_t work_len)
{
    uint64_t answer = answered_by_both((struct call){.name = "dv_why_not",
                                                     .ask = ask_why_not,
                                                     .press = press,
                                                     .input = {all_of(book), all_of(sheet)},
                                                     .output = {{work_len, sizeof(uint32_t)}}});
    count_reason(dv_reason_kind(answer));
    return answer;
}

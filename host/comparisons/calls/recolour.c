// One cell of a sheet recoloured.
#include <string.h>

#include "../call.h"

static uint64_t ask_recolour(const struct engine *engine, const struct loan *loan)
{
    return engine->recolour(loan->press, loan->in[0], loan->in_len[0], loan->out[0], loan->out_len[0], loan->out[1],
                            loan->out_len[1], loan->number[0], loan->number[1], loan->number[2]);
}

uint64_t compare_recolour(size_t press, const struct bytes *book, struct bytes *sheet, uint32_t *work, size_t work_len,
                          size_t row, size_t column, size_t colour)
{
    uint64_t answer =
        answered_by_both((struct call){.name = "dv_recolour",
                                       .ask = ask_recolour,
                                       .press = press,
                                       .input = {all_of(book)},
                                       .output = {{sheet->length, 1, sheet->at}, {work_len, sizeof(uint32_t), work}},
                                       .number = {row, column, colour}});
    if (dv_number(answer) != DV_ACCEPTED && dv_number(answer) != DV_NOT_DERIVED &&
        (memcmp(sheet->at, held_after(0), sheet->length) != 0 ||
         memcmp(work, held_after(1), work_len * sizeof *work) != 0))
        wrong("a refusal is written on");
    memcpy(sheet->at, held_after(0), sheet->length);
    memcpy(work, held_after(1), work_len * sizeof *work);
    return answer;
}

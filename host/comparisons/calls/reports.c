// The report of a run of sheets.
#include <string.h>

#include "../call.h"

static uint64_t ask_run_report(const struct engine *engine, const struct loan *loan)
{
    return engine->run_report(loan->press, loan->in[0], loan->in_len[0], loan->in[1], loan->in_len[1], loan->out[0],
                              loan->out_len[0], loan->out[1], loan->out_len[1]);
}

// Whether a slice of so many 32-bit numbers now has so many zeros, and then what it had before.
static bool is_cleared(int slice, size_t entries, size_t zeros)
{
    const uint8_t *at = held_after(slice), *before = held_before();
    size_t cleared = zeros * sizeof(uint32_t), length = entries * sizeof(uint32_t);
    for (size_t i = 0; i < cleared; i++)
        if (at[i] != 0)
            return false;
    return memcmp(at + cleared, before + cleared, length - cleared) == 0;
}

uint64_t compare_run_report(size_t press, const struct bytes *book, const struct run *run, size_t work_len,
                            size_t figures_len, uint32_t figures[DV_REPORT_ENTRIES])
{
    uint64_t answer =
        answered_by_both((struct call){.name = "dv_run_report",
                                       .ask = ask_run_report,
                                       .press = press,
                                       .input = {all_of(book), {run->at, run->length}},
                                       .output = {{work_len, sizeof(uint32_t)}, {figures_len, sizeof(uint32_t)}}});
    bool reported = dv_number(answer) == DV_ACCEPTED;
    bool untouched = dv_number(answer) == DV_OUT_SHORT || dv_number(answer) == DV_NO_SUCH_PRESS;
    if (!is_cleared(0, work_len, reported ? dv_most_work(press) : 0))
        wrong("the work slice is not as a report leaves it");
    if (!reported && !is_cleared(1, figures_len, untouched ? 0 : DV_REPORT_ENTRIES))
        wrong("the figures are not as a refusal leaves them");
    if (reported && figures != NULL)
        memcpy(figures, held_after(1), DV_REPORT_ENTRIES * sizeof *figures);
    return answer;
}

// A book tidied.
#include "measure.h"

static void tidy(const struct engine *timed, const struct task *task)
{
    static uint8_t out[DV_LONGEST_BOOK];
    timed->tidy(task->first.at, task->first.length, out, sizeof out);
}

// Each motif is rewritten to the next, and only the last to a colour: with the rules in this order a pass over them
// finds one motif more that can be rewritten.
static void chain_of_motifs(struct family *family)
{
    *family = (struct family){.motifs = DV_MOST_MOTIFS, .start = 0};
    add_ink(&family->palette, "Slate C");
    for (unsigned motif = 0; motif + 1 < DV_MOST_MOTIFS; motif++)
        add_rule(family, motif, DV_KIND_ACROSS, motif + 1, motif + 1);
    add_rule(family, DV_MOST_MOTIFS - 1, DV_KIND_COLOUR, 0, 0);
}

LINES(tidy)
{
    struct family family;
    struct task task = {.call = tidy, .unit = "a call", .units = 1};
    press_family(&family, DV_MOST_RULES);
    spell_book(&family, &task.first);
    measure_line("tidied, 200 rules", &task);
    chain_of_motifs(&family);
    spell_book(&family, &task.first);
    measure_line("tidied, a chain of 32 motifs", &task);
}

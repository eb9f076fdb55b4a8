// The size card of a book.
#include "measure.h"

static void size_card(const struct engine *timed, const struct task *task)
{
    static uint32_t card[DV_WIDE_CARD_ENTRIES];
    timed->size_card(task->press, task->first.at, task->first.length, card, DV_WIDE_CARD_ENTRIES);
}

LINES(cards)
{
    struct family family;
    struct task task = {.call = size_card, .unit = "a call", .units = 1};
    press_family(&family, DV_MOST_RULES);
    spell_book(&family, &task.first);
    measure_line("size card, 200 rules", &task);
    task.press = DV_WIDE_PRESS;
    measure_line("size card of the wide press, 200 rules", &task);
}

#include "engine.h"

#include <druvelstek.h>

#include "../independent/independent.h"

const struct engine library = {
    "library",
    dv_read_book,
    dv_read_sheet,
    dv_counts,
    dv_colour,
    dv_rule,
    dv_sheet_size,
    dv_cell,
    dv_sheet_colour,
    dv_run_sheet,
    dv_derive,
    dv_check_tree,
    dv_plain,
    dv_size_card,
    dv_why_not,
    dv_recolour,
    dv_run_report,
    {dv_either_of, dv_beside, dv_above},
    {dv_run, dv_stack, dv_mirrored, dv_flipped, dv_transposed},
    dv_tidy,
};

const struct engine independent = {
    "independent",
    independent_read_book,
    independent_read_sheet,
    independent_counts,
    independent_colour,
    independent_rule,
    independent_sheet_size,
    independent_cell,
    independent_sheet_colour,
    independent_run_sheet,
    independent_derive,
    independent_check_tree,
    independent_plain,
    independent_size_card,
    independent_why_not,
    independent_recolour,
    independent_run_report,
    {independent_either_of, independent_beside, independent_above},
    {independent_run, independent_stack, independent_mirrored, independent_flipped, independent_transposed},
    independent_tidy,
};

const char *const combination_name[COMBINATIONS] = {
    "dv_either_of", "dv_beside", "dv_above", "dv_run", "dv_stack", "dv_mirrored", "dv_flipped", "dv_transposed",
};

bool takes_two(enum combination combination)
{
    return combination < RUN;
}

uint64_t combine(const struct engine *engine, enum combination combination, const uint8_t *first, size_t first_len,
                 const uint8_t *second, size_t second_len, uint8_t *out, size_t out_len)
{
    if (takes_two(combination))
        return engine->of_two[combination](first, first_len, second, second_len, out, out_len);
    return engine->of_one[combination - RUN](first, first_len, out, out_len);
}

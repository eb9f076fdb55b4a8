// Reading, and the look-ups.
#include "../call.h"

static uint64_t ask_read_book(const struct engine *engine, const struct loan *loan)
{
    return engine->read_book(loan->in[0], loan->in_len[0]);
}

uint64_t compare_read_book(const struct bytes *book)
{
    return answered_by_both((struct call){.name = "dv_read_book", .ask = ask_read_book, .input = {all_of(book)}});
}

static uint64_t ask_read_sheet(const struct engine *engine, const struct loan *loan)
{
    return engine->read_sheet(loan->press, loan->in[0], loan->in_len[0]);
}

uint64_t compare_read_sheet(size_t press, const struct bytes *sheet)
{
    return answered_by_both(
        (struct call){.name = "dv_read_sheet", .ask = ask_read_sheet, .press = press, .input = {all_of(sheet)}});
}

static uint64_t ask_counts(const struct engine *engine, const struct loan *loan)
{
    return engine->counts(loan->in[0], loan->in_len[0]);
}

uint64_t compare_counts(const struct bytes *book)
{
    return shown_by_both((struct call){.name = "dv_counts", .ask = ask_counts, .input = {all_of(book)}});
}

static uint64_t ask_colour(const struct engine *engine, const struct loan *loan)
{
    return engine->colour(loan->in[0], loan->in_len[0], loan->number[0]);
}

uint64_t compare_colour(const struct bytes *book, size_t number)
{
    return shown_by_both(
        (struct call){.name = "dv_colour", .ask = ask_colour, .input = {all_of(book)}, .number = {number}});
}

static uint64_t ask_rule(const struct engine *engine, const struct loan *loan)
{
    return engine->rule(loan->in[0], loan->in_len[0], loan->number[0]);
}

uint64_t compare_rule(const struct bytes *book, size_t number)
{
    return shown_by_both(
        (struct call){.name = "dv_rule", .ask = ask_rule, .input = {all_of(book)}, .number = {number}});
}

static uint64_t ask_sheet_size(const struct engine *engine, const struct loan *loan)
{
    return engine->sheet_size(loan->press, loan->in[0], loan->in_len[0]);
}

uint64_t compare_sheet_size(size_t press, const struct bytes *sheet)
{
    return shown_by_both(
        (struct call){.name = "dv_sheet_size", .ask = ask_sheet_size, .press = press, .input = {all_of(sheet)}});
}

static uint64_t ask_cell(const struct engine *engine, const struct loan *loan)
{
    return engine->cell(loan->press, loan->in[0], loan->in_len[0], loan->number[0], loan->number[1]);
}

uint64_t compare_cell(size_t press, const struct bytes *sheet, size_t row, size_t column)
{
    return shown_by_both((struct call){
        .name = "dv_cell", .ask = ask_cell, .press = press, .input = {all_of(sheet)}, .number = {row, column}});
}

static uint64_t ask_sheet_colour(const struct engine *engine, const struct loan *loan)
{
    return engine->sheet_colour(loan->press, loan->in[0], loan->in_len[0], loan->number[0]);
}

uint64_t compare_sheet_colour(size_t press, const struct bytes *sheet, size_t number)
{
    return shown_by_both((struct call){.name = "dv_sheet_colour",
                                       .ask = ask_sheet_colour,
                                       .press = press,
                                       .input = {all_of(sheet)},
                                       .number = {number}});
}

static uint64_t ask_run_sheet(const struct engine *engine, const struct loan *loan)
{
    return engine->run_sheet(loan->in[0], loan->in_len[0], loan->number[0]);
}

uint64_t compare_run_sheet(const struct run *run, size_t number)
{
    return shown_by_both((struct call){
        .name = "dv_run_sheet", .ask = ask_run_sheet, .input = {{run->at, run->length}}, .number = {number}});
}

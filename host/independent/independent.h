// A second engine, written from docs/RULES.md alone. It shares no code with the library and takes every call of
// include/druvelstek.h but dv_version under its own name; what is said there of each call holds here.
#ifndef INDEPENDENT_H
#define INDEPENDENT_H

#include <stddef.h>
#include <stdint.h>

uint64_t independent_read_book(const uint8_t *book, size_t book_len);
uint64_t independent_read_sheet(size_t press, const uint8_t *sheet, size_t sheet_len);
uint64_t independent_counts(const uint8_t *book, size_t book_len);
uint64_t independent_colour(const uint8_t *book, size_t book_len, size_t number);
uint64_t independent_rule(const uint8_t *book, size_t book_len, size_t number);
uint64_t independent_sheet_size(size_t press, const uint8_t *sheet, size_t sheet_len);
uint64_t independent_cell(size_t press, const uint8_t *sheet, size_t sheet_len, size_t row, size_t column);
uint64_t independent_sheet_colour(size_t press, const uint8_t *sheet, size_t sheet_len, size_t number);
uint64_t independent_run_sheet(const uint8_t *run, size_t run_len, size_t number);

uint64_t independent_derive(size_t press, const uint8_t *book, size_t book_len, const uint8_t *sheet, size_t sheet_len,
                            uint32_t *work, size_t work_len, uint16_t *tree, size_t tree_len);

// The one thing that it takes from the header.
struct dv_node;
uint64_t independent_check_tree(size_t press, const uint8_t *book, size_t book_len, const uint8_t *sheet,
                                size_t sheet_len, const struct dv_node *nodes, size_t nodes_len);

uint64_t independent_plain(size_t press, const uint8_t *book, size_t book_len, const uint8_t *sheet, size_t sheet_len);

uint64_t independent_size_card(size_t press, const uint8_t *book, size_t book_len, uint32_t *card, size_t card_len);

uint64_t independent_why_not(size_t press, const uint8_t *book, size_t book_len, const uint8_t *sheet, size_t sheet_len,
                             uint32_t *work, size_t work_len);

uint64_t independent_recolour(size_t press, const uint8_t *book, size_t book_len, uint8_t *sheet, size_t sheet_len,
                              uint32_t *work, size_t work_len, size_t row, size_t column, size_t colour);

uint64_t independent_run_report(size_t press, const uint8_t *book, size_t book_len, const uint8_t *run, size_t run_len,
                                uint32_t *work, size_t work_len, uint32_t *figures, size_t figures_len);

uint64_t independent_either_of(const uint8_t *first, size_t first_len, const uint8_t *second, size_t second_len,
                               uint8_t *out, size_t out_len);
uint64_t independent_beside(const uint8_t *first, size_t first_len, const uint8_t *second, size_t second_len,
                            uint8_t *out, size_t out_len);
uint64_t independent_above(const uint8_t *first, size_t first_len, const uint8_t *second, size_t second_len,
                           uint8_t *out, size_t out_len);

uint64_t independent_run(const uint8_t *book, size_t book_len, uint8_t *out, size_t out_len);
uint64_t independent_stack(const uint8_t *book, size_t book_len, uint8_t *out, size_t out_len);
uint64_t independent_mirrored(const uint8_t *book, size_t book_len, uint8_t *out, size_t out_len);
uint64_t independent_flipped(const uint8_t *book, size_t book_len, uint8_t *out, size_t out_len);
uint64_t independent_transposed(const uint8_t *book, size_t book_len, uint8_t *out, size_t out_len);

uint64_t independent_tidy(const uint8_t *book, size_t book_len, uint8_t *out, size_t out_len);

#endif

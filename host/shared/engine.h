// The library and the independent engine under one form, so that every comparison is said once for both.
#ifndef ENGINE_H
#define ENGINE_H

#include <stdbool.h>
#include <stddef.h>
#include <stdint.h>

enum combination { EITHER_OF, BESIDE, ABOVE, RUN, STACK, MIRRORED, FLIPPED, TRANSPOSED, COMBINATIONS };

struct dv_node;

struct engine {
    const char *name;
    uint64_t (*read_book)(const uint8_t *book, size_t book_len);
    uint64_t (*read_sheet)(size_t press, const uint8_t *sheet, size_t sheet_len);
    uint64_t (*counts)(const uint8_t *book, size_t book_len);
    uint64_t (*colour)(const uint8_t *book, size_t book_len, size_t number);
    uint64_t (*rule)(const uint8_t *book, size_t book_len, size_t number);
    uint64_t (*sheet_size)(size_t press, const uint8_t *sheet, size_t sheet_len);
    uint64_t (*cell)(size_t press, const uint8_t *sheet, size_t sheet_len, size_t row, size_t column);
    uint64_t (*sheet_colour)(size_t press, const uint8_t *sheet, size_t sheet_len, size_t number);
    uint64_t (*run_sheet)(const uint8_t *run, size_t run_len, size_t number);
    uint64_t (*derive)(size_t press, const uint8_t *book, size_t book_len, const uint8_t *sheet, size_t sheet_len,
                       uint32_t *work, size_t work_len, uint16_t *tree, size_t tree_len);
    uint64_t (*check_tree)(size_t press, const uint8_t *book, size_t book_len, const uint8_t *sheet, size_t sheet_len,
                           const struct dv_node *nodes, size_t nodes_len);
    uint64_t (*plain)(size_t press, const uint8_t *book, size_t book_len, const uint8_t *sheet, size_t sheet_len);
    uint64_t (*size_card)(size_t press, const uint8_t *book, size_t book_len, uint32_t *card, size_t card_len);
    uint64_t (*why_not)(size_t press, const uint8_t *book, size_t book_len, const uint8_t *sheet, size_t sheet_len,
                        uint32_t *work, size_t work_len);
    uint64_t (*recolour)(size_t press, const uint8_t *book, size_t book_len, uint8_t *sheet, size_t sheet_len,
                         uint32_t *work, size_t work_len, size_t row, size_t column, size_t colour);
    uint64_t (*run_report)(size_t press, const uint8_t *book, size_t book_len, const uint8_t *run, size_t run_len,
                           uint32_t *work, size_t work_len, uint32_t *figures, size_t figures_len);
    uint64_t (*of_two[RUN])(const uint8_t *first, size_t first_len, const uint8_t *second, size_t second_len,
                            uint8_t *out, size_t out_len);
    uint64_t (*of_one[COMBINATIONS - RUN])(const uint8_t *book, size_t book_len, uint8_t *out, size_t out_len);
    uint64_t (*tidy)(const uint8_t *book, size_t book_len, uint8_t *out, size_t out_len);
};

extern const struct engine library, independent;

extern const char *const combination_name[COMBINATIONS];

bool takes_two(enum combination combination);

// Makes a combination; one of a single book takes the first.
uint64_t combine(const struct engine *engine, enum combination combination, const uint8_t *first, size_t first_len,
                 const uint8_t *second, size_t second_len, uint8_t *out, size_t out_len);

#endif

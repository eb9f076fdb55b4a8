// A book is held to the limits, spelt, and copied out where there is room.
#include "write.h"

#include <string.h>

// A number below 16,384.
static uint8_t *spell_number(uint8_t *out, unsigned number)
{
    if (number > 127) {
        *out++ = (uint8_t)(number % 128 + 128);
        number /= 128;
    }
    *out++ = (uint8_t)number;
    return out;
}

static size_t spell(const struct book *book, uint8_t *bytes)
{
    uint8_t *out = spell_number(bytes, book->colours.count);
    for (unsigned i = 0; i < book->colours.count; i++) {
        struct name name = book->colours.name[i];
        out = spell_number(out, name.length);
        memcpy(out, name.bytes, name.length);
        out += name.length;
    }
    out = spell_number(out, book->motifs);
    out = spell_number(out, book->start);
    out = spell_number(out, book->rules);
    for (unsigned i = 0; i < book->rules; i++) {
        struct rule rule = book->rule[i];
        *out++ = rule.head;
        *out++ = rule.kind;
        *out++ = rule.first;
        if (rule.kind != KIND_COLOUR)
            *out++ = rule.second;
    }
    return (size_t)(out - bytes);
}

uint64_t independent_written(const struct book *book, uint8_t *out, size_t out_len)
{
    uint8_t bytes[3429];
    if (book->colours.count > 64 || book->motifs > 32 || book->rules > 200)
        return independent_answer(12, 0, 0);
    size_t length = spell(book, bytes);
    if (out_len < length)
        return independent_answer(13, 0, 0);
    memcpy(out, bytes, length);
    return (uint64_t)length << 32;
}

#include "damage.h"

#include <string.h>

#include "chance.h"

void insert_byte(struct bytes *bytes, size_t at, uint8_t byte)
{
    memmove(bytes->at + at + 1, bytes->at + at, bytes->length - at);
    bytes->at[at] = byte;
    bytes->length++;
}

void drop_byte(struct bytes *bytes, size_t at)
{
    bytes->length--;
    memmove(bytes->at + at, bytes->at + at + 1, bytes->length - at);
}

void damage(struct bytes *bytes)
{
    static const uint8_t telling[] = {0, 1, 2, 3, 12, 13, 31, 32, 33, 40, 41, 64, 65, 126, 127, 128, 200, 201, 255};
    size_t at = one_in(3) ? chance_below(4) : chance_below((unsigned)bytes->length);
    at = at < bytes->length ? at : bytes->length - 1;
    switch (chance_below(7)) {
    case 0:
        bytes->at[at] = (uint8_t)chance_bits();
        break;
    case 1:
        bytes->at[at] = telling[chance_below(sizeof telling)];
        break;
    case 2:
        drop_byte(bytes, at);
        break;
    case 3:
        insert_byte(bytes, at, telling[chance_below(sizeof telling)]);
        break;
    case 4:
        bytes->length = at;
        break;
    case 5:
        insert_byte(bytes, bytes->length, (uint8_t)chance_bits());
        break;
    default:
        bytes->at[at] |= 128;
        insert_byte(bytes, at + 1, one_in(2) ? 0 : (uint8_t)chance_bits());
        if (one_in(3))
            insert_byte(bytes, at + 1, (uint8_t)(128 + chance_below(128)));
    }
}

// Files as a whole. Where one cannot be read or written the program says why and ends.
#ifndef FILES_H
#define FILES_H

#include <stddef.h>
#include <stdint.h>

// What the program exits with: all went well, or the sheet belongs to the family; the sheet does not; all else.
enum { DONE = 0, DECLINED = 1, REFUSED = 2 };

// Loads at most so many bytes of a file, and gives their number.
size_t load(const char *path, uint8_t *bytes, size_t most);

void save(const char *path, const uint8_t *bytes, size_t length);

#endif

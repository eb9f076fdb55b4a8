#include "files.h"

#include <stdio.h>
#include <stdlib.h>

static void end(const char *path)
{
    perror(path);
    exit(REFUSED);
}

size_t load(const char *path, uint8_t *bytes, size_t most)
{
    FILE *file = fopen(path, "rb");
    if (file == NULL)
        end(path);
    size_t length = fread(bytes, 1, most, file);
    if (ferror(file))
        end(path);
    fclose(file);
    return length;
}

void save(const char *path, const uint8_t *bytes, size_t length)
{
    FILE *file = fopen(path, "wb");
    if (file == NULL)
        end(path);
    size_t written = fwrite(bytes, 1, length, file);
    // What is still held back is written when the file is closed.
    if (fclose(file) != 0 || written != length)
        end(path);
}

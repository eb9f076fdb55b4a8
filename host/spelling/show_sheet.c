#include <stdio.h>

#include "names.h"
#include "show.h"

static const char letters[] = "ABCDEFGHIJKLMNOPQRSTUVWXYZabcdefghijklmnopqrstuvwxyz0123456789@%";

char letter_of(const struct sheet *sheet, unsigned row, unsigned column)
{
    return letters[sheet->cell[row * sheet->columns + column]];
}

void show_legend(const struct sheet *sheet)
{
    printf("ticket %u\n", sheet->ticket);
    for (unsigned i = 0; i < sheet->colours.count; i++) {
        printf("%c = ", letters[i]);
        print_name(stdout, &sheet->colours.name[i]);
        printf("\n");
    }
}

void show_sheet(const struct sheet *sheet)
{
    show_legend(sheet);
    for (unsigned row = 0; row < sheet->rows; row++) {
        for (unsigned column = 0; column < sheet->columns; column++)
            putchar(letter_of(sheet, row, column));
        printf("\n");
    }
}

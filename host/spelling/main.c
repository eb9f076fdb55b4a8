// Books, sheets and runs from texts that people write, and texts from them, so that nobody counts bytes.
//
//     spell book TEXT OUT
//     spell sheet [--wide] TEXT OUT
//     spell run [--wide] [--any] LIST OUT
//     spell show [--wide] [--book | --sheet] FILE
//     spell show [--wide] BOOK SHEET..
//
// docs/TEXTS.md says what a text may have, what is shown, and what the program exits with.
#include <druvelstek.h>
#include <limits.h>
#include <stdio.h>
#include <string.h>

#include "commands.h"
#include "files.h"

static const struct command {
    const char *word;
    unsigned options;
    int least, most;
    int (*run)(unsigned options, char **path, int count);
} commands[] = {
    {"book", 0, 2, 2, make_book},
    {"sheet", WIDE, 2, 2, make_sheet},
    {"run", WIDE | ANY, 2, 2, make_run},
    {"show", WIDE | AS_BOOK, 1, 1, show_file},
    {"show", WIDE | AS_SHEET, 1, 1, show_file},
    {"show", WIDE, 2, INT_MAX, show_sheets},
};

static int usage(void)
{
    fprintf(stderr, "usage: spell book TEXT OUT\n"
                    "       spell sheet [--wide] TEXT OUT\n"
                    "       spell run [--wide] [--any] LIST OUT\n"
                    "       spell show [--wide] [--book | --sheet] FILE\n"
                    "       spell show [--wide] BOOK SHEET..\n");
    return REFUSED;
}

// 0 for a word that is no option.
static unsigned option(const char *word)
{
    return strcmp(word, "--wide") == 0    ? WIDE
           : strcmp(word, "--any") == 0   ? ANY
           : strcmp(word, "--book") == 0  ? AS_BOOK
           : strcmp(word, "--sheet") == 0 ? AS_SHEET
                                          : 0;
}

static int run_command(const char *word, unsigned options, char **path, int count)
{
    for (size_t i = 0; i < sizeof commands / sizeof *commands; i++) {
        const struct command *command = &commands[i];
        if (strcmp(word, command->word) == 0 && (options & ~command->options) == 0 && count >= command->least &&
            count <= command->most)
            return command->run(options, path, count);
    }
    return usage();
}

int main(int argc, char **argv)
{
    unsigned options = 0;
    int first = 2;
    if (dv_version() != DV_VERSION) {
        fprintf(stderr, "spell: the archive has version %d, the header %d\n", (int)dv_version(), DV_VERSION);
        return REFUSED;
    }
    for (; first < argc && option(argv[first]) != 0; first++)
        options |= option(argv[first]);
    int status = argc < 2 ? usage() : run_command(argv[1], options, argv + first, argc - first);
    if (fflush(stdout) != 0 || ferror(stdout)) {
        perror("spell");
        return REFUSED;
    }
    return status;
}

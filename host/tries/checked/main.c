// What the header asks of a caller. Under DV_CHECKED each misuse of each call, made in a child process, aborts it, and
// right use passes; an empty slice may be null; a press that there is not is answered before all else, and no slice is
// touched; and a call whose output is one of its inputs does what the header says.
#define _DEFAULT_SOURCE // fork
#include <fcntl.h>
#include <signal.h>
#include <stdbool.h>
#include <stdio.h>
#include <stdlib.h>
#include <string.h>
#include <sys/wait.h>
#include <unistd.h>

#include "calls.h"

// The bytes of a slice that is written, enough for each call to do its work.
enum { ROOM = DV_WIDE_MOST_WORK * 4 };

#define SLATES 2, 7, 'S', 'l', 'a', 't', 'e', ' ', 'C', 7, 'S', 'l', 'a', 't', 'e', ' ', 'U'
static const uint8_t house[] = {SLATES, 3, 0, 4, 0, 1, 0, 0, 0, 2, 1, 2, 1, 0, 0, 2, 0, 1};
static const uint8_t sheet_a[] = {SLATES, 0, 2, 3, 0, 0, 0, 1, 1, 1};
static const uint8_t run_of_a[] = {26, SLATES, 0, 2, 3, 0, 0, 0, 1, 1, 1};

static const uint16_t tree_a[] = {0, 1, 1, 1, 2, 0, 3, 0, 0, 1, 1, 1, 2, 0, 3, 0, 1, 1, 2, 0, 3, 0};

// The size is that of what a slice is aligned to: of nodes, each of their two numbers.
static const struct {
    const void *at;
    size_t length, size;
} good[] = {[BOOK] = {house, sizeof house, 1},
            [SHEET] = {sheet_a, sizeof sheet_a, 1},
            [RUN] = {run_of_a, sizeof run_of_a, 1},
            [NODES] = {tree_a, sizeof tree_a, sizeof *tree_a}};

// The slices before the first that is written, and all of them.
static int read_by(const struct call *call)
{
    int read = 0;
    while (read < READ && call->read[read] != NO_INPUT)
        read++;
    return read;
}

static int slices_of(const struct call *call)
{
    int written = 0;
    while (written < WRITTEN && call->written[written] > 0)
        written++;
    return read_by(call) + written;
}

static void wrong(const struct call *call, const char *what, int i)
{
    fprintf(stderr, "checked: %s, %s, slice %d\n", call->name, what, i + 1);
    exit(1);
}

static uint32_t room[SLICES * ROOM / 4];

// Right slices for a call, one after the other with no byte between.
static void lend(const struct call *call)
{
    int read = read_by(call);
    uint8_t *at = (uint8_t *)room + ROOM;
    // What is read goes from here on down, so that what is written after it is aligned.
    uint8_t *begin = at;
    for (int i = read; i-- > 0;) {
        size_t length = good[call->read[i]].length, size = good[call->read[i]].size;
        begin -= length;
        slice[i] = (struct slice){begin, length / size, size};
        memcpy(begin, good[call->read[i]].at, length);
    }
    for (int i = read; i < slices_of(call); i++) {
        size_t size = call->written[i - read];
        slice[i] = (struct slice){at, ROOM / size, size};
        at += ROOM;
    }
}

static bool aborts(const struct call *call)
{
    int status;
    fflush(NULL);
    pid_t child = fork();
    if (child == 0) {
        // What assert says, and an emulator after it, is expected here.
        dup2(open("/dev/null", O_WRONLY), STDERR_FILENO);
        call->make();
        _exit(0);
    }
    if (child < 0 || waitpid(child, &status, 0) != child) {
        perror("checked");
        exit(2);
    }
    return WIFSIGNALED(status) && WTERMSIG(status) == SIGABRT;
}

static unsigned misuses;

static void expect_abort(const struct call *call, const char *misuse, int i)
{
    misuses++;
    if (!aborts(call))
        wrong(call, misuse, i);
}

static void try_null(const struct call *call)
{
    for (int i = 0; i < slices_of(call); i++) {
        lend(call);
        slice[i].at = NULL;
        expect_abort(call, "null with a length is not noticed", i);
        lend(call);
        slice[i].length = 0;
        uint64_t answer = call->make();
        lend(call);
        slice[i] = (struct slice){NULL, 0, slice[i].size};
        if (aborts(call))
            wrong(call, "null with length 0 is not taken", i);
        if (call->make() != answer)
            wrong(call, "null with length 0 is not answered as another empty slice", i);
    }
    for (int i = 0; i < slices_of(call); i++)
        slice[i] = (struct slice){NULL, 0, 1};
    if (call->make() != call->of_nothing)
        wrong(call, "all slices null with length 0 are not answered as empty ones", 0);
}

static void try_alignment(const struct call *call)
{
    for (int i = 0; i < slices_of(call); i++) {
        lend(call);
        slice[i].at += slice[i].size / 2;
        slice[i].length--;
        if (slice[i].size > 1)
            expect_abort(call, "a slice out of line is not noticed", i);
    }
}

// A length whose bytes pass the greatest number, so that they would come out as few; one that passes the last address.
static void try_length(const struct call *call)
{
    for (int i = 0; i < slices_of(call); i++) {
        lend(call);
        slice[i].length = SIZE_MAX / slice[i].size + (slice[i].size > 1 ? 2 : 0);
        expect_abort(call, "a length past all memory is not noticed", i);
    }
}

static uint8_t *aligned(uint8_t *at, size_t size)
{
    return at - (uintptr_t)at % size;
}

// A slice that is written begins where another begins, or has one entry in common with its end or its beginning.
static void try_overlap(const struct call *call)
{
    for (int i = read_by(call); i < slices_of(call); i++)
        for (int j = 0; j < slices_of(call); j++)
            for (int way = 0; way < 3 && j != i; way++) {
                lend(call);
                uint8_t *begin = slice[j].at, *end = begin + slice[j].length * slice[j].size;
                if (way < 2)
                    slice[i].at = aligned(way == 0 ? begin : end - slice[i].size, slice[i].size);
                else
                    slice[j].at = slice[i].at + slice[i].length * slice[i].size - slice[j].size;
                expect_abort(call, "an overlap is not noticed", i);
            }
}

static void expect_no_press(const struct call *call, const char *what, int i)
{
    static uint32_t before[SLICES * ROOM / 4];
    memcpy(before, room, sizeof room);
    // A look-up has no answer number: it shows 0, as it does where there is nothing to read.
    if (call->make() != (call->of_nothing == 0 ? 0 : DV_NO_SUCH_PRESS))
        wrong(call, what, i);
    if (memcmp(before, room, sizeof room) != 0)
        wrong(call, "a press that there is not has something written", i);
}

// No press has these numbers, of which the low bits of some are those of a press. Whatever else is wrong, that is told.
static void try_no_press(const struct call *call)
{
    static const size_t none[] = {DV_WIDE_PRESS + 1, 1 << 8, 1 << 16, SIZE_MAX / 2 + 1, SIZE_MAX};
    memset(room, 0xa5, sizeof room);
    for (size_t n = 0; n < sizeof none / sizeof *none; n++) {
        press = none[n];
        lend(call);
        expect_no_press(call, "a press that there is not is taken", 0);
        for (int i = 0; i < slices_of(call); i++) {
            lend(call);
            slice[i].length = 0;
            expect_no_press(call, "a press that there is not is told after what is wrong in a slice", i);
        }
        for (int i = 0; i < slices_of(call); i++)
            slice[i] = (struct slice){NULL, 0, 1};
        expect_no_press(call, "a press that there is not is told after what is wrong in all slices", 0);
    }
}

// The sentence of the header on overlap, by the call itself.
#undef dv_beside
static void show_overlap(void)
{
    static const uint8_t f[] = {1, 4, 'N', 'a', 'v', 'y', 1, 0, 1, 0, 0, 0};
    static const uint8_t g[] = {1, 3, 'R', 'e', 'd', 1, 0, 1, 0, 0, 0};
    static const uint8_t wrong_ink[] = {2, 4, 'N', 'a', 'v', 'y', 3, 'N', 'a', 'v'};
    uint8_t out[64];
    memcpy(out, g, sizeof g);
    uint64_t answer = dv_beside(f, sizeof f, out, sizeof g, out, sizeof out);
    if (dv_number(answer) != DV_ACCEPTED || memcmp(out, wrong_ink, sizeof wrong_ink) != 0) {
        fprintf(stderr, "checked: an output over the second book does not do what the header says\n");
        exit(1);
    }
}

int main(void)
{
    for (size_t i = 0; i < calls_count; i++) {
        for (press = DV_PRESS; press <= (calls[i].takes == PRESS ? DV_WIDE_PRESS : DV_PRESS); press++) {
            lend(&calls[i]);
            if (aborts(&calls[i]))
                wrong(&calls[i], "right use does not pass", 0);
            try_null(&calls[i]);
            try_alignment(&calls[i]);
            try_length(&calls[i]);
            try_overlap(&calls[i]);
        }
        if (calls[i].takes == PRESS)
            try_no_press(&calls[i]);
    }
    show_overlap();
    printf("checked: %u misuses noticed, right use passes, an empty slice may be null, no press has another number\n",
           misuses);
    return 0;
}

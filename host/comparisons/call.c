// One call on both engines, and what is said where they differ.
#define _DEFAULT_SOURCE // sigaction
#include "call.h"

#include <signal.h>
#include <stdio.h>
#include <string.h>
#include <unistd.h>

#include "../shared/chance.h"
#include "lent.h"
#include "tally.h"

enum { ENGINES = 2 };

static const struct engine *const engine[ENGINES] = {&library, &independent};

static struct call call;
static const struct engine *asked;
static struct lent in[SLICES], out[ENGINES][SLICES];
static uint8_t noise[2 * ROOMY_WORK * sizeof(uint32_t)];
// What the slices that may be written held before the call.
static const uint8_t *before;

void wrong(const char *what)
{
    fprintf(stderr, "compare: %s\nin %s on press %zu, numbers %zu, %zu and %zu, slices of %zu and %zu entries, ", what,
            call.name, call.press, call.number[0], call.number[1], call.number[2], call.output[0].entries,
            call.output[1].entries);
    say_kind();
    for (int i = 0; i < SLICES; i++)
        if (call.input[i].at != NULL) {
            fprintf(stderr, "input %d, %zu bytes:", i + 1, call.input[i].length);
            for (size_t j = 0; j < call.input[i].length; j++)
                fprintf(stderr, " %u", call.input[i].at[j]);
            fprintf(stderr, "\n");
        }
    _exit(1);
}

static void wrong_by(const char *what)
{
    char line[200];
    snprintf(line, sizeof line, "%s %s %s", asked == NULL ? "an" : "the", asked == NULL ? "engine" : asked->name, what);
    wrong(line);
}

// Some emulators come here with the stack out of line, which printing does not bear.
__attribute__((force_align_arg_pointer)) static void stopped(int signal)
{
    (void)signal;
    wrong_by("touched memory outside the lent slices");
}

void calls_begin(void)
{
    static const int signals[] = {SIGSEGV, SIGBUS, SIGILL, SIGFPE};
    struct sigaction action = {.sa_handler = stopped};
    for (size_t i = 0; i < sizeof signals / sizeof *signals; i++)
        sigaction(signals[i], &action, NULL);
    for (size_t i = 0; i < sizeof noise; i++)
        noise[i] = (uint8_t)chance_bits();
    for (int i = 0; i < SLICES; i++)
        in[i] = lent_room(sizeof(struct run));
    for (int i = 0; i < ENGINES; i++)
        for (int j = 0; j < SLICES; j++)
            out[i][j] = lent_room(ROOMY_WORK * sizeof(uint32_t));
}

void forget_call(void)
{
    call = (struct call){.name = "a call by itself"};
    asked = NULL;
}

static void compare_answers(uint64_t ours, uint64_t theirs)
{
    if (ours == theirs)
        return;
    char line[300];
    snprintf(line, sizeof line,
             "the library answers 0x%llx, or %u blaming %u at %zu, count %zu, "
             "the independent engine 0x%llx, or %u blaming %u at %zu, count %zu",
             (unsigned long long)ours, dv_number(ours), dv_blamed(ours), dv_place(ours), dv_count(ours),
             (unsigned long long)theirs, dv_number(theirs), dv_blamed(theirs), dv_place(theirs), dv_count(theirs));
    wrong(line);
}

static void compare_slices(const uint8_t *ours, const uint8_t *theirs, struct output output)
{
    if (memcmp(ours, theirs, output.entries * output.size) == 0)
        return;
    size_t at = 0;
    while (ours[at] == theirs[at])
        at++;
    char line[200];
    snprintf(line, sizeof line, "byte %zu of entry %zu of a slice is %u by the library, %u by the independent engine",
             at % output.size, at / output.size, ours[at], theirs[at]);
    wrong(line);
}

// What was lent of this may not have been written.
static void expect_unwritten(const struct lent *lent, struct input input)
{
    if (input.at == NULL)
        return;
    if (!canaries_stand(lent))
        wrong_by("wrote before a lent slice");
    if (memcmp(lent->slice, input.at, input.length) != 0)
        wrong_by("wrote to an input");
}

static uint64_t ask(struct lent *outputs)
{
    struct loan loan = {.press = call.press};
    memcpy(loan.number, call.number, sizeof loan.number);
    for (int i = 0; i < SLICES; i++) {
        const void *held = call.output[i].held;
        lend(&outputs[i], held != NULL ? held : before, call.output[i].entries * call.output[i].size);
        loan.in[i] = in[i].slice;
        loan.in_len[i] = call.input[i].length;
        loan.out[i] = outputs[i].slice;
        loan.out_len[i] = call.output[i].entries;
    }
    // The same input given twice is lent as one slice.
    if (call.input[1].at == call.input[0].at)
        loan.in[1] = loan.in[0];
    uint64_t answer = call.ask(asked, &loan);
    for (int i = 0; i < SLICES; i++) {
        if (!canaries_stand(&outputs[i]))
            wrong_by("wrote before a lent slice");
        expect_unwritten(&in[i], call.input[i]);
    }
    return answer;
}

uint64_t shown_by_both(struct call made)
{
    uint64_t answer[ENGINES];
    call = made;
    before = noise + chance_below(sizeof noise / 2);
    for (int i = 0; i < SLICES; i++)
        if (call.input[i].at != NULL)
            lend(&in[i], call.input[i].at, call.input[i].length);
    for (int i = 0; i < ENGINES; i++) {
        asked = engine[i];
        answer[i] = ask(out[i]);
    }
    compare_answers(answer[0], answer[1]);
    for (int i = 0; i < SLICES; i++)
        compare_slices(out[0][i].slice, out[1][i].slice, call.output[i]);
    count_comparison();
    return answer[0];
}

uint64_t answered_by_both(struct call made)
{
    uint64_t answer = shown_by_both(made);
    count_answer(dv_number(answer));
    return answer;
}

struct input all_of(const struct bytes *bytes)
{
    return bytes == NULL ? (struct input){NULL, 0} : (struct input){bytes->at, bytes->length};
}

const void *held_after(int slice)
{
    return out[0][slice].slice;
}

const void *held_before(void)
{
    return before;
}

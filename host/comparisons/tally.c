#include "tally.h"

#include <stdbool.h>
#include <stdio.h>
#include <stdlib.h>

#include "../shared/chance.h"
#include "call.h"

enum { ENOUGH = 50, LAST_ANSWER = DV_NO_SUCH_PRESS };

static const char *kind;
static uint64_t seed_of_run;
static unsigned long comparisons, answers[LAST_ANSWER + 1], reasons[DV_REASON_NO_PIECE + 1];

void say_kind(void)
{
    fprintf(stderr, "among the %s, seed %llu\n", kind, (unsigned long long)seed_of_run);
}

void count_comparison(void)
{
    comparisons++;
}

// 14 is no answer any more.
static bool is_answer(unsigned number)
{
    return number <= LAST_ANSWER && number != 14;
}

void count_answer(unsigned number)
{
    if (!is_answer(number))
        wrong("both engines answer with a number that is no answer");
    answers[number]++;
}

void count_reason(unsigned reason)
{
    reasons[reason]++;
}

static void expect_enough(unsigned long count, const char *what, unsigned number)
{
    if (count >= ENOUGH)
        return;
    fprintf(stderr, "compare: only %lu comparisons met %s %u\n", count, what, number);
    exit(1);
}

// Each kind has chance of its own, so that a new one changes no other.
static void seed_kind(void)
{
    uint64_t seed = seed_of_run;
    for (const char *letter = kind; *letter != '\0'; letter++)
        seed = seed * 31 + (unsigned char)*letter;
    chance_seed(seed);
}

void compare_kinds(uint64_t seed)
{
    size_t kinds;
    const struct entry *of = entries(&kinds);
    seed_of_run = seed;
    chance_seed(seed);
    calls_begin();
    printf("compare: seed %llu:", (unsigned long long)seed);
    for (size_t i = 0; i < kinds; i++) {
        unsigned long before = comparisons;
        kind = of[i].name;
        seed_kind();
        forget_call();
        of[i].act();
        printf("%s %s %lu", i == 0 ? "" : ",", kind, comparisons - before);
    }
    printf("\n");
    for (unsigned i = DV_ACCEPTED; i <= LAST_ANSWER; i++)
        if (is_answer(i))
            expect_enough(answers[i], "answer", i);
    for (unsigned i = DV_REASON_COLOUR; i <= DV_REASON_NO_PIECE; i++)
        expect_enough(reasons[i], "reason", i);
    printf("compare: %lu comparisons, no difference\n", comparisons);
}

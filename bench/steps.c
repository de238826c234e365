/* What asking and logging cost: the library's step, its explained step, and a step with a saving behind it, side by side in one run, on the same
 * samples. Prints nanoseconds a step, best of the rounds, the ratios, and the stack that a first step from fresh, plain or explained, and a saving
 * take. `steps WHICH N` only makes N steps of one kind (p plain, e explained, l logged), for counting instructions. */
#define _XOPEN_SOURCE 600
#include <stdio.h>
#include <stdlib.h>
#include <string.h>
#include <time.h>
#include <ucontext.h>

#include "saltdelta.h"

enum { ROUNDS = 9, STEPS = 200000 };

static const char sheet[] =
    "(trip (uv1 8800 2100))\n(trip (uv2 5000 200))\n(trip (ov1 11000 1300))\n(trip (ov2 12000 16))\n"
    "(trip (uf1 58500 30000))\n(trip (uf2 56500 16))\n(trip (of1 61200 30000))\n(trip (of2 62000 16))\n"
    "(enter (volts 9170 10500))\n(enter (hertz 59500 60100))\n(enter (wait 0 100))\n"
    "(var (9200 4400) (9800 0) (10200 0) (10800 -4400))\n(watt (10600 10000) (11000 2000))\n";

static saltdelta_settings settings;

/* Every eighth sample is in mandatory operation, and two of 64 are in a droop event. */
static void sample(uint32_t *x, unsigned long i) {
    static const uint32_t nominal[7] = {1000, 1010, 990, 60000, 1, 10000, 9000};
    memcpy(x, nominal, sizeof nominal);
    x[0] = i % 8 == 0 ? 700 : (uint32_t)(1000 + i % 7);
    x[3] = i % 64 > 61 ? 60100 : 60000;
}

static unsigned plain(unsigned long steps) {
    saltdelta_board board = saltdelta_fresh();
    saltdelta_report report = saltdelta_fresh_report();
    uint32_t x[7];
    for (unsigned long i = 0; i < steps; i++) {
        sample(x, i);
        saltdelta_step(&board, &settings, x, 7, &report);
    }
    return report.watts;
}

static unsigned explained(unsigned long steps) {
    saltdelta_board board = saltdelta_fresh();
    saltdelta_explained report = saltdelta_fresh_explained();
    uint32_t x[7];
    for (unsigned long i = 0; i < steps; i++) {
        sample(x, i);
        saltdelta_step_explained(&board, &settings, x, 7, &report);
    }
    return report.report.watts;
}

static unsigned logged(unsigned long steps) {
    saltdelta_board board = saltdelta_fresh();
    saltdelta_report report = saltdelta_fresh_report();
    uint32_t x[7];
    uint8_t image[SALTDELTA_IMAGE];
    for (unsigned long i = 0; i < steps; i++) {
        sample(x, i);
        saltdelta_step(&board, &settings, x, 7, &report);
        saltdelta_save(&board, image, sizeof image);
    }
    return image[41] * 256U + image[42];
}

typedef unsigned (*kind)(unsigned long);
static const kind kinds[3] = {plain, explained, logged};

/* ---- the stack, by what is left of a pattern on a stack of its own */

static saltdelta_board lent_board;
static saltdelta_report lent_report;
static saltdelta_explained lent_explained;
static uint8_t lent_buffer[SALTDELTA_IMAGE];
static uint32_t lent_sample[7];
static volatile uint32_t answered;

static void no_call(void) { answered = 1; }
static void a_step(void) { answered = saltdelta_step(&lent_board, &settings, lent_sample, 7, &lent_report); }
static void an_explained_step(void) { answered = saltdelta_step_explained(&lent_board, &settings, lent_sample, 7, &lent_explained); }
static void a_saving(void) { answered = saltdelta_save(&lent_board, lent_buffer, sizeof lent_buffer); }

typedef void (*call)(void);
static const call calls[3] = {a_step, an_explained_step, a_saving};

static uint8_t stack[1 << 16];
static ucontext_t here, there;

static size_t used(call made, int pattern) {
    size_t untouched = 0;
    lent_board = saltdelta_fresh();
    memset(stack, pattern, sizeof stack);
    getcontext(&there);
    there.uc_stack.ss_sp = stack;
    there.uc_stack.ss_size = sizeof stack;
    there.uc_link = &here;
    makecontext(&there, made, 0);
    swapcontext(&here, &there);
    while (untouched < sizeof stack && stack[untouched] == pattern)
        untouched++;
    return sizeof stack - untouched;
}

/* Bytes below the caller's frame, return address included. */
static size_t taken(call made) {
    size_t most = 0;
    for (int pattern = 1; pattern < 256; pattern += 85) {
        const size_t bytes = used(made, pattern) - used(no_call, pattern);
        most = bytes > most ? bytes : most;
    }
    return most;
}

/* ---- the time */

static double timed(kind steps, unsigned *watts) {
    struct timespec from, to;
    clock_gettime(CLOCK_MONOTONIC, &from);
    *watts = steps(STEPS);
    clock_gettime(CLOCK_MONOTONIC, &to);
    return ((double)(to.tv_sec - from.tv_sec) * 1e9 + (double)(to.tv_nsec - from.tv_nsec)) / STEPS;
}

int main(int count, char **words) {
    double best[3] = {0, 0, 0};
    unsigned watts[3] = {0, 0, 0};
    size_t stacks[3];
    saltdelta_read_sheet(&settings, (const uint8_t *)sheet, sizeof sheet - 1);
    if (count == 3) {
        printf("%u\n", kinds[words[1][0] == 'e' ? 1 : words[1][0] == 'l' ? 2 : 0](strtoul(words[2], NULL, 10)));
        return 0;
    }
    for (int round = 0; round < ROUNDS; round++)
        for (int i = 0; i < 3; i++) {
            const double ns = timed(kinds[i], &watts[i]);
            if (round == 0 || ns < best[i])
                best[i] = ns;
        }
    printf("step %.1f ns, explained step %.1f ns, ratio %.3f; step and saving %.1f ns, ratio %.3f; watts %u, %u and %u\n", best[0], best[1],
           best[1] / best[0], best[2], best[2] / best[0], watts[0], watts[1], watts[2]);
    sample(lent_sample, 1);
    for (int i = 0; i < 3; i++)
        stacks[i] = taken(calls[i]);
    printf("stack in bytes: step %zu, explained step %zu, saving %zu\n", stacks[0], stacks[1], stacks[2]);
    return watts[0] != watts[1] || watts[0] != watts[2];
}

#define _POSIX_C_SOURCE 199309L
#include "timing.h"

#include <stdio.h>
#include <stdlib.h>
#include <string.h>
#include <time.h>

enum { FILLED = 165, BEYOND = 64, SHORTEST_NS = 100000, MOST_FIGURES = 128 };

int runs = 10;

static double least[MOST_FIGURES][MOST_SIDES];
static int figure, rounds;

void next_round(void) { figure = 0, rounds++; }

// Keeps the least of a figure's times over all rounds.
static void keep_least(int sides, double *ns) {
    if (figure == MOST_FIGURES) exit(1);
    for (int side = 0; side < sides; side++) {
        if (rounds == 0 || ns[side] < least[figure][side]) least[figure][side] = ns[side];
        ns[side] = least[figure][side];
    }
    figure++;
}

static double now(void) {
    struct timespec time;
    clock_gettime(CLOCK_MONOTONIC, &time);
    return (double)time.tv_sec * 1e9 + (double)time.tv_nsec;
}

// How fast a call is hangs on where its stack lies, so each run puts it elsewhere.
static double time_calls(side_call *call, const void *input, int side, struct answer *answer, size_t times, int run) {
    volatile uint8_t above[1 + run * 80 % 4096];
    above[0] = (uint8_t)run, (void)above;
    double start = now();
    for (size_t i = 0; i < times; i++) call(input, side, answer);
    return (now() - start) / (double)times;
}

// An output buffer with room beyond, filled so that an untouched byte shows and every page is there.
static void *filled(size_t bytes) {
    void *out = malloc(bytes + BEYOND);
    if (!out) exit(1);
    return memset(out, FILLED, bytes + BEYOND);
}

static void hold(const char *name, const struct answer *proved, const struct answer *plain, int side, size_t bytes) {
    if (proved->reply[0]) {
        printf("%s: refused, number %llu\n", name, (unsigned long long)proved->reply[0]);
        exit(1);
    }
    if (memcmp(proved->reply, plain->reply, sizeof proved->reply) || memcmp(proved->out, plain->out, bytes + BEYOND)) {
        printf("%s: the answers of the library and of twin %d differ\n", name, side);
        exit(1);
    }
}

void time_sides(const char *name, side_call *call, const void *input, int sides, size_t bytes, double *ns) {
    struct answer answers[MOST_SIDES];
    size_t times[MOST_SIDES];
    for (int side = 0; side < sides; side++) {
        memset(answers[side].reply, 0, sizeof answers[side].reply);
        answers[side].out = filled(bytes);
        ns[side] = time_calls(call, input, side, &answers[side], 1, 0);
        times[side] = 1 + (size_t)(SHORTEST_NS / ns[side]);
    }
    for (int run = 0; run < runs; run++)
        for (int side = 0; side < sides; side++) {
            double took = time_calls(call, input, side, &answers[side], times[side], run);
            if (took < ns[side]) ns[side] = took;
        }
    for (int side = 1; side < sides; side++) hold(name, &answers[0], &answers[side], side, bytes);
    for (int side = 0; side < sides; side++) free(answers[side].out);
    keep_least(sides, ns);
}

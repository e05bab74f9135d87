// Times the sides of a call, the proved one and its twins, and holds their answers to each other.
#ifndef TIMING_H
#define TIMING_H

#include <stddef.h>
#include <stdint.h>

#include "calls.h"

enum { MOST_SIDES = 4 };

// What one side leaves: its reply and its output.
struct answer {
    uint64_t reply[MOST_REPLY];
    void *out;
};

// Makes the call on one side; side 0 is the proved one.
typedef void side_call(const void *input, int side, struct answer *answer);

// The least time of a call in ns so far, for each side, over many runs in turn. An output takes so many bytes. Ends the program with
// status 1 where a side's reply or output is not that of side 0, or where side 0 refuses.
void time_sides(const char *name, side_call *call, const void *input, int sides, size_t bytes, double *ns);

// Begins anew with the first figure: each is then the least of all rounds, so that a busy minute does not settle it.
void next_round(void);

// How many runs a figure has in each round.
extern int runs;

#endif

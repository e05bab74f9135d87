// What the twins share: limits, refusals, and an opened file's columns.
#ifndef TWIN_H
#define TWIN_H

#include <stddef.h>
#include <stdint.h>
#include <string.h>

#include "calls.h"

enum { MOST_ROWS = 1048576, MOST_COLUMNS = 32, MOST_TESTS = 16, WIDEST = 32, ENTRY = 8, TRAILER = 16 };

struct column {
    const uint8_t *slices;  // where slice 1 starts; the others follow, each of as many bytes as there are rows
    unsigned width, bytes, pad;
};

static inline unsigned bytes_of(unsigned width) { return (width + 7) / 8; }

static inline void refuse(uint64_t *reply, uint64_t number, uint64_t place, uint64_t need) {
    reply[0] = number, reply[1] = place, reply[2] = need;
}

// The column of a file that was opened to this reply.
struct column column_of(const uint8_t *file, size_t len, const uint64_t opened[5], size_t column);

#endif

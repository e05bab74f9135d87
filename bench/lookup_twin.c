// The lookup in plain C: a loop for each number of slices. Rows are judged first, since a refused call writes nothing.
#include "twin.h"

// Whether some row number is not below the rows.
static int some_missing(const uint32_t *list, size_t nlist, uint32_t rows) {
    uint32_t missing = 0;
    for (size_t i = 0; i < nlist; i++) missing |= list[i] >= rows;
    return missing != 0;
}

static size_t first_missing(const uint32_t *list, size_t nlist, uint32_t rows) {
    size_t i = 0;
    while (i < nlist && list[i] < rows) i++;
    return i;
}

static inline __attribute__((always_inline)) void put_codes(struct column column, unsigned bytes, size_t rows,
                                                            const uint32_t *list, size_t nlist, uint64_t *restrict out) {
    for (size_t i = 0; i < nlist; i++) {
        uint32_t number = 0;
        for (unsigned slice = 0; slice < bytes; slice++) number = number << 8 | column.slices[slice * rows + list[i]];
        out[i] = number >> column.pad;
    }
}

static void put_all(struct column column, size_t rows, const uint32_t *list, size_t nlist, uint64_t *out) {
    switch (column.bytes) {
    case 1: return put_codes(column, 1, rows, list, nlist, out);
    case 2: return put_codes(column, 2, rows, list, nlist, out);
    case 3: return put_codes(column, 3, rows, list, nlist, out);
    default: return put_codes(column, 4, rows, list, nlist, out);
    }
}

void c_lookup(const uint8_t *file, size_t len, size_t column, const uint32_t *rows, size_t nrows, uint64_t *out, size_t nout,
              uint64_t reply[4]) {
    uint64_t opened[BSL_OPEN_REPLY];
    memset(reply, 0, BSL_LOOKUP_REPLY * sizeof *reply);
    c_open(file, len, opened);
    if (opened[0]) return refuse(reply, opened[0], opened[1], 0);
    if (column >= opened[4]) return refuse(reply, 12, 0, 0);
    uint32_t limit = (uint32_t)opened[3];
    if (some_missing(rows, nrows, limit)) return refuse(reply, 15, first_missing(rows, nrows, limit), 0);
    if (nout < nrows) return refuse(reply, 10, 0, nrows);
    put_all(column_of(file, len, opened, column), limit, rows, nrows, out);
    reply[3] = nrows;
}

// Telling the widths in plain C.
#include "twin.h"

void c_widths(const uint8_t *file, size_t len, uint8_t *out, size_t nout, uint64_t reply[4]) {
    uint64_t opened[BSL_OPEN_REPLY];
    memset(reply, 0, BSL_WIDTHS_REPLY * sizeof *reply);
    c_open(file, len, opened);
    if (opened[0]) return refuse(reply, opened[0], opened[1], 0);
    size_t columns = opened[4];
    if (nout < columns) return refuse(reply, 10, 0, columns);
    const uint8_t *directory = file + len - TRAILER - ENTRY * columns;
    for (size_t column = 0; column < columns; column++) out[column] = directory[ENTRY * column];
    reply[3] = columns;
}

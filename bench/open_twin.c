// Opening in plain C.
#include "twin.h"

static uint32_t number4(const uint8_t *at) {
    return at[0] | (uint32_t)at[1] << 8 | (uint32_t)at[2] << 16 | (uint32_t)at[3] << 24;
}

static uint32_t number2(const uint8_t *at) { return at[0] | (uint32_t)at[1] << 8; }

// Slices of all columns, or the place of the first unfit one.
static int judge(const uint8_t *directory, size_t rows, size_t columns, size_t *slices, size_t *place) {
    size_t before = 0;
    for (size_t column = 0; column < columns; column++) {
        const uint8_t *entry = directory + ENTRY * column;
        uint32_t head = number4(entry);  // width, then three spare bytes
        if (head - 1 >= WIDEST || number4(entry + 4) != rows * before) {
            *place = column;
            return 0;
        }
        before += bytes_of(head);
    }
    *slices = before;
    return 1;
}

void c_open(const uint8_t *file, size_t len, uint64_t reply[5]) {
    memset(reply, 0, BSL_OPEN_REPLY * sizeof *reply);
    if (len < TRAILER) return refuse(reply, 1, 0, 0);
    const uint8_t *trailer = file + len - TRAILER;
    if (memcmp(trailer + 12, "BSL1", 4)) return refuse(reply, 1, 0, 0);
    size_t rows = number4(trailer), columns = number2(trailer + 4), directory = number4(trailer + 8);
    if (number2(trailer + 6) != 1) return refuse(reply, 2, 0, 0);
    if (rows > MOST_ROWS) return refuse(reply, 3, 0, 0);
    if (columns == 0 || columns > MOST_COLUMNS) return refuse(reply, 4, 0, 0);
    if (directory + ENTRY * columns + TRAILER != len) return refuse(reply, 5, 0, 0);
    size_t slices = 0, place = 0;
    if (!judge(file + directory, rows, columns, &slices, &place)) return refuse(reply, 6, place, 0);
    if (rows * slices != directory) return refuse(reply, 7, 0, 0);
    reply[3] = rows, reply[4] = columns;
}

struct column column_of(const uint8_t *file, size_t len, const uint64_t opened[5], size_t column) {
    const uint8_t *entry = file + len - TRAILER - ENTRY * (opened[4] - column);
    unsigned width = entry[0], bytes = bytes_of(width);
    return (struct column){file + number4(entry + 4), width, bytes, 8 * bytes - width};
}

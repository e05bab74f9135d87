// Writing in plain C: by blocks of rows, so that codes come from memory once, and slice after slice from a copy of one column's
// codes. Codes are judged first, since a refused call writes nothing.
#include "twin.h"

enum { BLOCK = 1024 };

// What is handed over.
struct table {
    size_t rows, columns;
    const uint8_t *widths;
    const uint64_t *codes;
};

// Judging

static size_t first_unfit(const uint8_t *widths, size_t columns) {
    size_t column = 0;
    while (column < columns && (uint8_t)(widths[column] - 1) < WIDEST) column++;
    return column;
}

// Whether every code fits: all codes of a column, joined bit by bit, do. Eight rows at a time.
static int all_fit(const struct table *table) {
    uint64_t seen[8 * MOST_COLUMNS] = {0}, beyond = 0;
    size_t columns = table->columns, period = 8 * columns, codes = table->rows * columns, i = 0;
    for (; i + period <= codes; i += period)
        for (size_t k = 0; k < period; k++) seen[k] |= table->codes[i + k];
    for (size_t k = 0; i + k < codes; k++) seen[k] |= table->codes[i + k];
    for (size_t k = 0; k < period; k++) beyond |= seen[k] >> table->widths[k % columns];
    return beyond == 0;
}

static size_t first_too_large(const struct table *table) {
    size_t i = 0;
    while (!(table->codes[i] >> table->widths[i % table->columns])) i++;
    return i;
}

// Writing

static void put_number(uint8_t *at, size_t number, unsigned bytes) {
    for (unsigned i = 0; i < bytes; i++) at[i] = (uint8_t)(number >> 8 * i);
}

// A block of one column: its slices stand as many bytes apart as there are rows.
static void put_block(const struct table *table, size_t column, size_t first, size_t n, uint8_t *out) {
    uint32_t stored[BLOCK];
    unsigned width = table->widths[column], bytes = bytes_of(width), pad = 8 * bytes - width;
    const uint64_t *codes = table->codes + first * table->columns + column;
    for (size_t row = 0; row < n; row++) stored[row] = (uint32_t)codes[row * table->columns];
    for (unsigned slice = 0; slice < bytes; slice++) {
        uint8_t *part = out + slice * table->rows + first;
        unsigned shift = 8 * (bytes - 1 - slice);
        for (size_t row = 0; row < n; row++) part[row] = (uint8_t)(stored[row] << pad >> shift);
    }
}

static void put_body(const struct table *table, uint8_t *out) {
    for (size_t first = 0; first < table->rows; first += BLOCK) {
        size_t n = table->rows - first < BLOCK ? table->rows - first : BLOCK, slices = 0;
        for (size_t column = 0; column < table->columns; column++) {
            put_block(table, column, first, n, out + slices * table->rows);
            slices += bytes_of(table->widths[column]);
        }
    }
}

static void put_end(const struct table *table, uint8_t *out, size_t body) {
    uint8_t *entry = out + body;
    for (size_t column = 0, slices = 0; column < table->columns; column++, entry += ENTRY) {
        put_number(entry, table->widths[column], 4);
        put_number(entry + 4, slices * table->rows, 4);
        slices += bytes_of(table->widths[column]);
    }
    put_number(entry, table->rows, 4), put_number(entry + 4, table->columns, 2), put_number(entry + 6, 1, 2);
    put_number(entry + 8, body, 4), memcpy(entry + 12, "BSL1", 4);
}

void c_write(size_t rows, const uint8_t *widths, size_t columns, const uint64_t *codes, size_t ncodes, uint8_t *out, size_t nout,
             uint64_t reply[4]) {
    struct table table = {rows, columns, widths, codes};
    memset(reply, 0, BSL_WRITE_REPLY * sizeof *reply);
    if (rows > MOST_ROWS) return refuse(reply, 3, 0, 0);
    if (columns == 0 || columns > MOST_COLUMNS) return refuse(reply, 4, 0, 0);
    size_t unfit = first_unfit(widths, columns), body = 0;
    if (unfit < columns) return refuse(reply, 6, unfit, 0);
    if (ncodes != rows * columns) return refuse(reply, 9, 0, 0);
    if (!all_fit(&table)) return refuse(reply, 8, first_too_large(&table), 0);
    for (size_t column = 0; column < columns; column++) body += rows * bytes_of(widths[column]);
    size_t need = body + ENTRY * columns + TRAILER;
    if (nout < need) return refuse(reply, 10, 0, need);
    put_body(&table, out), put_end(&table, out, body);
    reply[3] = need;
}

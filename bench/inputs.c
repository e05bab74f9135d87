#include "inputs.h"

#include <stdio.h>
#include <stdlib.h>
#include <string.h>

#include "calls.h"

static uint64_t state;

void same_inputs(void) { state = 88172645463325252u; }

static uint64_t chance(void) {
    state ^= state << 13, state ^= state >> 7, state ^= state << 17;
    return state;
}

static void *room(size_t bytes) {
    void *at = malloc(bytes ? bytes : 1);
    if (!at) exit(1);
    return at;
}

// Fills the pads by chance, as a file from elsewhere may have them.
static void fill_pads(struct register_input *input) {
    uint8_t *last = input->file;
    for (size_t column = 0; column < input->columns; column++, last += input->rows) {
        unsigned bytes = (input->widths[column] + 7u) / 8, pad = 8 * bytes - input->widths[column];
        last += (bytes - 1) * input->rows;
        for (size_t row = 0; row < input->rows; row++) last[row] |= (uint8_t)(chance() >> 20 & ((1u << pad) - 1));
    }
}

struct register_input make_register(size_t rows, const uint8_t *widths, size_t columns) {
    struct register_input input = {.rows = rows, .columns = columns, .ncodes = rows * columns};
    uint64_t reply[BSL_WRITE_REPLY];
    memcpy(input.widths, widths, columns);
    input.codes = room(input.ncodes * sizeof *input.codes);
    for (size_t i = 0; i < input.ncodes; i++) input.codes[i] = chance() >> 7 & ((1ull << widths[i % columns]) - 1);
    c_write(rows, widths, columns, input.codes, input.ncodes, NULL, 0, reply);
    input.len = reply[2];
    input.file = room(input.len);
    c_write(rows, widths, columns, input.codes, input.ncodes, input.file, input.len, reply);
    fill_pads(&input);
    return input;
}

void free_register(struct register_input *input) { free(input->codes), free(input->file); }

uint8_t *make_bits(size_t rows, enum spread spread) {
    uint8_t *bits = room(rows / 8);
    for (size_t i = 0; i < rows / 8; i++) {
        uint64_t drawn = chance();
        uint8_t few = (drawn >> 20 & 7) == 0 ? (uint8_t)(1u << (drawn >> 24 & 7)) : 0;
        bits[i] = spread == EVERY ? 255 : spread == HALF ? (uint8_t)(drawn >> 32) : few;
    }
    return bits;
}

uint32_t *make_random_rows(size_t rows) {
    uint32_t *list = room(rows * sizeof *list);
    for (size_t i = 0; i < rows; i++) list[i] = (uint32_t)((chance() >> 20) % rows);
    return list;
}

uint32_t *make_rising_rows(size_t rows, size_t *many) {
    uint32_t *list = room(rows * sizeof *list);
    *many = 0;
    for (size_t row = 0; row < rows; row++) {
        list[*many] = (uint32_t)row;
        *many += chance() >> 40 & 1;
    }
    return list;
}

static int meets(uint64_t code, uint64_t kind, uint64_t literal) {
    switch (kind) {
    case 0: return code < literal;
    case 1: return code <= literal;
    case 2: return code > literal;
    case 3: return code >= literal;
    case 4: return code == literal;
    default: return code != literal;
    }
}

static int meets_all(const uint64_t *row, const uint64_t *asked) {
    for (uint64_t t = 0; t < asked[4]; t++) {
        const uint64_t *test = &asked[5 + 3 * t];
        if (!meets(row[test[0]], test[1], test[2])) return 0;
    }
    return 1;
}

uint8_t *find_row_by_row(const struct register_input *input, const char *text) {
    uint64_t asked[BSL_READ_REPLY];
    uint8_t *bits = room(input->rows / 8 + 1);
    memset(bits, 0, input->rows / 8 + 1);
    c_read((const uint8_t *)text, strlen(text), asked);
    for (size_t row = 0; row < input->rows; row++)
        bits[row / 8] |= (uint8_t)(meets_all(input->codes + row * input->columns, asked) << row % 8);
    return bits;
}

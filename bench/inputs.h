// What the calls are timed on: registers of uniform codes, lists of rows and bits, all by chance from a fixed seed.
#ifndef INPUTS_H
#define INPUTS_H

#include <stddef.h>
#include <stdint.h>

enum { FULL = 1048576, MOST_WIDTHS = 32 };

// Begins anew with the seed, so that the same inputs follow.
void same_inputs(void);

struct register_input {
    size_t rows, columns, ncodes, len;
    uint8_t widths[MOST_WIDTHS];
    uint64_t *codes;  // row after row
    uint8_t *file;    // as the writer's twin writes it, but for its pads: they hold bits by chance
};

struct register_input make_register(size_t rows, const uint8_t *widths, size_t columns);
void free_register(struct register_input *input);

// A bit a row: every one set, every other by chance, or one in 64 by chance.
enum spread { EVERY, HALF, FEW, SPREADS };
uint8_t *make_bits(size_t rows, enum spread spread);

// As many row numbers as there are rows, by chance and with repeats.
uint32_t *make_random_rows(size_t rows);

// Row numbers that rise, every other row by chance. Answers how many.
uint32_t *make_rising_rows(size_t rows, size_t *many);

// The rows that meet a query's tests, as bits, found row by row from the codes and not from the file.
uint8_t *find_row_by_row(const struct register_input *input, const char *text);

#endif

// Each call with its arguments bound: side 0 is the library's, side 1 its twin.
#ifndef SIDES_H
#define SIDES_H

#include "inputs.h"
#include "timing.h"

struct scan_input {
    const struct register_input *parts;
    char text[256];
};

// Bits of so many rows, a call for each of the parts.
struct list_input {
    size_t rows, parts;
    const uint8_t *bits;
};

struct lookup_input {
    const struct register_input *parts;
    size_t column, nrows;
    const uint32_t *rows;
};

side_call open_side;    // of a struct register_input; no output
side_call widths_side;  // of a struct register_input; output: the widths
side_call write_side;   // of a struct register_input; output: the file
side_call read_side;    // of a text that ends with a 0; no output
side_call scan_side;    // of a struct scan_input; output: a bit a row; twins 2 and 3: by segment, without vectors
side_call list_side;    // of a struct list_input; output: the rows
side_call lookup_side;  // of a struct lookup_input; output: the codes

#endif

// Makes one call so many times, of the library or of its twin in C: what bench/instructions counts.
// usage: counted CALLS CALL SIDE     CALL: open, widths, read, scan, list, lookup or write; SIDE: 0 the library, 1 the twin
#include <stdlib.h>
#include <string.h>

#include "calls.h"

// A short register with every width, and one of so many rows and four columns of 17 bits.
enum { SHORT = 10, COLUMNS = 32, ROWS = 1024, FOUR = 4 };

static uint8_t file[65536], widths[COLUMNS], long_file[65536], bits[ROWS / 8];
static uint32_t rows[ROWS];
static uint64_t codes[ROWS * FOUR], reply[BSL_READ_REPLY], out[ROWS];
static const uint8_t seventeen[FOUR] = {17, 17, 17, 17};
static const char text[] = "segment 64\n0 < 65000\n1 < 65000\n2 < 65000\n3 < 65000\n";

// A code by its place, so that half of all rows have a bit more or less than another.
static uint64_t code_at(size_t place) { return (place * 2654435761u >> 7) & 0x1FFFF; }

int main(int words, char **word) {
    if (words != 4) return 2;
    for (int i = 0; i < COLUMNS; i++) widths[i] = (uint8_t)(i + 1);
    bsl_write(SHORT, widths, COLUMNS, codes, SHORT * COLUMNS, file, sizeof file, reply);
    const size_t length = (size_t)reply[BSL_ANSWER];
    for (size_t i = 0; i < ROWS * FOUR; i++) codes[i] = code_at(i);
    bsl_write(ROWS, seventeen, FOUR, codes, ROWS * FOUR, long_file, sizeof long_file, reply);
    const size_t longer = (size_t)reply[BSL_ANSWER];
    for (size_t i = 0; i < ROWS; i++) rows[i] = (uint32_t)i;
    for (size_t i = 0; i < ROWS / 8; i++) bits[i] = (uint8_t)code_at(i);
    const int calls = atoi(word[1]), twin = atoi(word[3]);
    // the call is chosen before the loop, so that choosing it is not counted
    open_call *const open = twin ? c_open : bsl_open;
    widths_call *const measure = twin ? c_widths : bsl_widths;
    read_call *const read = twin ? c_read : bsl_read;
    scan_call *const scan = twin ? c_scan_by_segment : bsl_scan;
    list_call *const list = twin ? c_list : bsl_list;
    lookup_call *const look_up = twin ? c_lookup : bsl_lookup;
    write_call *const write = twin ? c_write : bsl_write;
    if (!strcmp(word[2], "open"))
        for (int i = 0; i < calls; i++) open(file, length, reply);
    if (!strcmp(word[2], "widths"))
        for (int i = 0; i < calls; i++) measure(file, length, widths, COLUMNS, reply);
    if (!strcmp(word[2], "read"))
        for (int i = 0; i < calls; i++) read((const uint8_t *)text, sizeof text - 1, reply);
    if (!strcmp(word[2], "scan"))
        for (int i = 0; i < calls; i++) scan(long_file, longer, (const uint8_t *)text, sizeof text - 1, bits, sizeof bits, reply);
    if (!strcmp(word[2], "list"))
        for (int i = 0; i < calls; i++) list(ROWS, bits, sizeof bits, (uint32_t *)out, ROWS, reply);
    if (!strcmp(word[2], "lookup"))
        for (int i = 0; i < calls; i++) look_up(long_file, longer, 1, rows, ROWS, out, ROWS, reply);
    if (!strcmp(word[2], "write"))
        for (int i = 0; i < calls; i++) write(ROWS, seventeen, FOUR, codes, ROWS * FOUR, long_file, sizeof long_file, reply);
    return reply[BSL_NUMBER] ? 1 : 0;
}

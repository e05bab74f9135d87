// The exported calls, by the library's header, and their plain C twins: the same arguments, answers and refusals.
#ifndef CALLS_H
#define CALLS_H

#include "../include/rutksmeln.h"

enum { MOST_REPLY = BSL_READ_REPLY };

typedef void open_call(const uint8_t *file, size_t len, uint64_t *reply);
typedef void widths_call(const uint8_t *file, size_t len, uint8_t *out, size_t nout, uint64_t *reply);
typedef void write_call(size_t rows, const uint8_t *widths, size_t columns, const uint64_t *codes, size_t ncodes, uint8_t *out,
                        size_t nout, uint64_t *reply);
typedef void read_call(const uint8_t *text, size_t len, uint64_t *reply);
typedef void scan_call(const uint8_t *file, size_t len, const uint8_t *text, size_t tlen, uint8_t *out, size_t nout,
                       uint64_t *reply);
typedef void list_call(size_t rows, const uint8_t *bits, size_t nbits, uint32_t *out, size_t nout, uint64_t *reply);
typedef void lookup_call(const uint8_t *file, size_t len, size_t column, const uint32_t *rows, size_t nrows, uint64_t *out,
                         size_t nout, uint64_t *reply);

extern open_call c_open;
extern widths_call c_widths;
extern write_call c_write;
extern read_call c_read;
extern scan_call c_scan;
extern list_call c_list;
extern lookup_call c_lookup;

// The scan's twin once more: with slice 1 taken segment by segment, and compiled without vectors.
extern scan_call c_scan_by_segment, c_scan_without_vectors;

#endif

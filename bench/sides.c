#include "sides.h"

#include <string.h>

void open_side(const void *input, int side, struct answer *answer) {
    const struct register_input *parts = input;
    (side ? c_open : bsl_open)(parts->file, parts->len, answer->reply);
}

void widths_side(const void *input, int side, struct answer *answer) {
    const struct register_input *parts = input;
    (side ? c_widths : bsl_widths)(parts->file, parts->len, answer->out, parts->columns, answer->reply);
}

void write_side(const void *input, int side, struct answer *answer) {
    const struct register_input *parts = input;
    (side ? c_write : bsl_write)(parts->rows, parts->widths, parts->columns, parts->codes, parts->ncodes, answer->out, parts->len,
                                 answer->reply);
}

void read_side(const void *input, int side, struct answer *answer) {
    (side ? c_read : bsl_read)(input, strlen(input), answer->reply);
}

void scan_side(const void *input, int side, struct answer *answer) {
    static scan_call *const calls[] = {bsl_scan, c_scan, c_scan_by_segment, c_scan_without_vectors};
    const struct scan_input *asked = input;
    const struct register_input *parts = asked->parts;
    calls[side](parts->file, parts->len, (const uint8_t *)asked->text, strlen(asked->text), answer->out, (parts->rows + 7) / 8,
                answer->reply);
}

void list_side(const void *input, int side, struct answer *answer) {
    const struct list_input *asked = input;
    size_t rows = asked->rows;
    for (size_t part = 0; part < asked->parts; part++)
        (side ? c_list : bsl_list)(rows, asked->bits + part * (rows / 8), rows / 8, (uint32_t *)answer->out + part * rows, rows,
                                   answer->reply);
}

void lookup_side(const void *input, int side, struct answer *answer) {
    const struct lookup_input *asked = input;
    const struct register_input *parts = asked->parts;
    (side ? c_lookup : bsl_lookup)(parts->file, parts->len, asked->column, asked->rows, asked->nrows, answer->out, asked->nrows,
                                   answer->reply);
}

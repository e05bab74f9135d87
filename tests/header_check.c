// The header and the archive belong together: each call is made, from C and, compiled as such, from C++, and what the header says of
// texts and of nothing lent is tried. Two rows of 11 bits, codes 5 and 1024. Ends with status 1 where an answer is another.
#include "rutksmeln.h"
// a second time, which must change nothing
#include "rutksmeln.h"

#include <stdio.h>
#include <string.h>

static const uint8_t file[28] = {0x00, 0x80, 0xA0, 0x00,
                                 11, 0, 0, 0, 0, 0, 0, 0,
                                 2, 0, 0, 0, 1, 0, 1, 0, 4, 0, 0, 0, 'B', 'S', 'L', '1'};
static const char text[] = "segment 8\n0 >= 5\n0 != 1024\n";

static int faults = 0;

static void same(const char *what, uint64_t expected, uint64_t answered) {
    if (expected == answered) return;
    printf("%s: expected %llu, answered %llu\n", what, (unsigned long long)expected, (unsigned long long)answered);
    faults++;
}

static void open_and_write(void) {
    uint64_t opened[BSL_OPEN_REPLY];
    bsl_open(file, sizeof file, opened);
    same("open: number", 0, opened[BSL_NUMBER]);
    same("open: rows", 2, opened[BSL_ANSWER]);
    same("open: columns", 1, opened[BSL_ANSWER + 1]);
    bsl_open(file, sizeof file - 1, opened);
    same("open without the last byte: number", BSL_NO_REGISTER, opened[BSL_NUMBER]);

    const uint8_t widths[1] = {11};
    const uint64_t codes[2] = {5, 1024};
    uint8_t out[sizeof file + 1];
    uint64_t written[BSL_WRITE_REPLY];
    memset(out, 77, sizeof out);
    bsl_write(2, widths, 1, codes, 2, out, sizeof out, written);
    same("write: bytes", sizeof file, written[BSL_ANSWER]);
    same("write: the file", 0, (uint64_t)(memcmp(out, file, sizeof file) != 0));
    same("write: the byte behind it", 77, out[sizeof file]);
    bsl_write(2, widths, 1, codes, 2, out, 0, written);
    same("write into nothing: number", BSL_OUTPUT_TOO_SHORT, written[BSL_NUMBER]);
    same("write into nothing: need", sizeof file, written[BSL_NEED]);
}

// What the refusal of a call has, in the order of its elements.
static void refused(const char *what, uint64_t number, uint64_t place, uint64_t need, const uint64_t *reply) {
    same(what, number, reply[BSL_NUMBER]);
    same(what, place, reply[BSL_PLACE]);
    same(what, need, reply[BSL_NEED]);
    same(what, 0, reply[BSL_ANSWER]);
}

static void widths_of_two_columns(void) {
    const uint8_t widths[2] = {11, 32};
    const uint64_t codes[2] = {5, 1024};
    uint8_t parts[64], out[BSL_MOST_COLUMNS];
    uint64_t written[BSL_WRITE_REPLY], told[BSL_WIDTHS_REPLY];
    bsl_write(1, widths, 2, codes, 2, parts, sizeof parts, written);
    size_t length = (size_t)written[BSL_ANSWER];
    memset(out, 77, sizeof out);
    bsl_widths(parts, length, out, 1, told);
    refused("widths into one element", BSL_OUTPUT_TOO_SHORT, 0, 2, told);
    same("widths into one element: out", 77, out[0]);
    bsl_widths(parts, length - 1, out, sizeof out, told);
    refused("widths of no register", BSL_NO_REGISTER, 0, 0, told);
    parts[length - 16 - 8] = BSL_MOST_WIDTH + 1;
    bsl_widths(parts, length, out, sizeof out, told);
    refused("widths with an unfit column", BSL_UNFIT_COLUMN, 1, 0, told);
    same("widths with an unfit column: out", 77, out[0]);
    parts[length - 16 - 8] = BSL_MOST_WIDTH;
    bsl_widths(parts, length, out, 2, told);
    same("widths into as many: number", BSL_ACCEPTED, told[BSL_NUMBER]);
    same("widths: columns", 2, told[BSL_ANSWER]);
    same("widths: the first", 11, out[0]);
    same("widths: the second", 32, out[1]);
    same("widths: the byte behind", 77, out[2]);
}

static void read_and_scan(void) {
    const uint8_t *query = (const uint8_t *)text;
    uint64_t asked[BSL_READ_REPLY];
    bsl_read(query, sizeof text - 1, asked);
    same("read: size", 8, asked[BSL_ANSWER]);
    same("read: count", 2, asked[BSL_ANSWER + 1]);
    same("read: first comparison", BSL_AT_LEAST, asked[BSL_SLOTS + BSL_COMPARISON]);
    same("read: second column", 0, asked[BSL_SLOTS + BSL_SLOT + BSL_COLUMN]);
    same("read: second comparison", BSL_DIFFERS, asked[BSL_SLOTS + BSL_SLOT + BSL_COMPARISON]);
    same("read: second literal", 1024, asked[BSL_SLOTS + BSL_SLOT + BSL_LITERAL]);
    same("read: last literal", 0, asked[BSL_SLOTS + BSL_SLOT * (BSL_MOST_TESTS - 1) + BSL_LITERAL]);
    same("read: elements", BSL_SLOTS + BSL_SLOT * BSL_MOST_TESTS, BSL_READ_REPLY);
    bsl_read(query, 0, asked);
    same("read nothing: number", BSL_MALFORMED_TEXT, asked[BSL_NUMBER]);

    uint8_t bits[1] = {77};
    uint64_t scanned[BSL_SCAN_REPLY];
    bsl_scan(file, sizeof file, query, sizeof text - 1, bits, 1, scanned);
    same("scan: matches", 1, scanned[BSL_ANSWER]);
    same("scan: total", 8, scanned[BSL_ANSWER + 1]);
    same("scan: second count", 4, scanned[BSL_COUNTS + 1]);
    same("scan: last count", 0, scanned[BSL_COUNTS + BSL_MOST_TESTS - 1]);
    same("scan: elements", BSL_COUNTS + BSL_MOST_TESTS, BSL_SCAN_REPLY);
    same("scan: bits", 1, bits[0]);
}

// Texts that look right, each with the line that is malformed.
static void malformed_texts(void) {
    static const struct {
        const char *text;
        uint64_t line;
    } malformed[] = {
        {"segment 8\r\n", 0},
        {"segment 8\n0 < 5\r\n", 1},
        {"\xEF\xBB\xBFsegment 8\n", 0},
        {"segment 8\n0 < 5", 1},
        {"segment 8\n\n0 < 5\n", 1},
        {"segment 8\n0 < 5\n\n", 2},
        {"segment  8\n", 0},
        {"segment\t8\n", 0},
        {"segment 8 \n", 0},
        {"segment 8\n 0 < 5\n", 1},
        {"segment 08\n", 0},
        {"segment 8\n0 < 05\n", 1},
        {"segment 8\n0 < +5\n", 1},
        {"segment 8\n0 < -5\n", 1},
        {"segment 8\n0 < 4294967296\n", 1},
        {"segment 8\n0 == 5\n", 1},
        {"segment 8\n0 <> 5\n", 1},
        {"Segment 8\n", 0},
    };
    uint64_t asked[BSL_READ_REPLY];
    for (size_t i = 0; i < sizeof malformed / sizeof *malformed; i++) {
        bsl_read((const uint8_t *)malformed[i].text, strlen(malformed[i].text), asked);
        refused(malformed[i].text, BSL_MALFORMED_TEXT, malformed[i].line, 0, asked);
    }
    bsl_read((const uint8_t *)text, sizeof text, asked);
    refused("a text with its NUL", BSL_MALFORMED_TEXT, 3, 0, asked);
    static const char largest[] = "segment 4294967295\n0 < 4294967295\n";
    bsl_read((const uint8_t *)largest, sizeof largest - 1, asked);
    same("the largest numbers", BSL_ACCEPTED, asked[BSL_NUMBER]);
}

static void list_and_look_up(void) {
    const uint8_t bits[1] = {2};
    uint32_t rows[2] = {77, 77};
    uint64_t listed[BSL_LIST_REPLY];
    bsl_list(2, bits, 1, rows, 2, listed);
    same("list: rows listed", 1, listed[BSL_ANSWER]);
    same("list: the row", 1, rows[0]);
    same("list: behind it", 77, rows[1]);

    uint64_t codes[1] = {77}, looked_up[BSL_LOOKUP_REPLY];
    bsl_lookup(file, sizeof file, 0, rows, 1, codes, 1, looked_up);
    same("lookup: codes", 1, looked_up[BSL_ANSWER]);
    same("lookup: the code", 1024, codes[0]);
    bsl_lookup(file, sizeof file, 0, rows, 2, codes, 1, looked_up);
    refused("lookup of row 77", BSL_NO_SUCH_ROW, 1, 0, looked_up);
}

static void null_where_nothing_is_lent(void) {
    const uint8_t widths[1] = {32};
    uint8_t empty[24];
    uint64_t reply[BSL_READ_REPLY];
    bsl_open(NULL, 0, reply);
    same("open null: number", BSL_NO_REGISTER, reply[BSL_NUMBER]);
    bsl_widths(NULL, 0, NULL, 0, reply);
    same("widths null: number", BSL_NO_REGISTER, reply[BSL_NUMBER]);
    bsl_read(NULL, 0, reply);
    same("read null: number", BSL_MALFORMED_TEXT, reply[BSL_NUMBER]);
    bsl_write(0, NULL, 0, NULL, 0, NULL, 0, reply);
    same("write null: number", BSL_UNFIT_COLUMN_COUNT, reply[BSL_NUMBER]);
    bsl_write(0, widths, 1, NULL, 0, NULL, 0, reply);
    same("write into null: need", sizeof empty, reply[BSL_NEED]);
    bsl_write(0, widths, 1, NULL, 0, empty, sizeof empty, reply);
    same("write no rows: bytes", sizeof empty, reply[BSL_ANSWER]);
    bsl_widths(empty, sizeof empty, NULL, 0, reply);
    refused("widths into null", BSL_OUTPUT_TOO_SHORT, 0, 1, reply);
    bsl_scan(empty, sizeof empty, (const uint8_t *)"segment 8\n", 10, NULL, 0, reply);
    same("scan no rows: number", BSL_ACCEPTED, reply[BSL_NUMBER]);
    bsl_scan(NULL, 0, NULL, 0, NULL, 0, reply);
    same("scan null: number", BSL_MALFORMED_TEXT, reply[BSL_NUMBER]);
    bsl_list(0, NULL, 0, NULL, 0, reply);
    same("list no rows: number", BSL_ACCEPTED, reply[BSL_NUMBER]);
    bsl_lookup(empty, sizeof empty, 0, NULL, 0, NULL, 0, reply);
    same("lookup no rows: number", BSL_ACCEPTED, reply[BSL_NUMBER]);
    bsl_lookup(NULL, 0, 0, NULL, 0, NULL, 0, reply);
    same("lookup null: number", BSL_NO_REGISTER, reply[BSL_NUMBER]);
}

int main(void) {
    open_and_write();
    widths_of_two_columns();
    read_and_scan();
    malformed_texts();
    list_and_look_up();
    null_where_nothing_is_lent();
    return faults ? 1 : 0;
}

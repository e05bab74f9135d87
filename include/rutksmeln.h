// Rutksmeln for C and C++: which rows of a build register meet a query, and what they hold.
//
// A register is a file of rows and columns. A column is 1 to 32 bits wide, its width, and holds a code in each row: a whole number below
// 2^width. A query is a text of tests; a row is found when it meets all of them. Rows, columns, tests and lines are numbered from 0.
//
// bsl_write makes a register. bsl_open tells its rows and columns, bsl_widths how wide the columns are. bsl_scan marks the rows that a
// query finds, a bit for each; bsl_list makes row numbers of the bits; bsl_lookup gives the codes of a column in these rows. bsl_read shows
// what the text of a query asks. examples/c/recall.c is a whole program.
//
// LINKING
// The calls are in target/staticlib/libexports.a, which `./archive` writes:
//     gcc -Iinclude program.c target/staticlib/libexports.a
// It is made for Linux on plain x86-64, with the calling convention of System V. It needs memcpy and memset, and nothing else. It is
// position independent, so that it may also become a shared object:
//     gcc -shared -o librutksmeln.so -Wl,--whole-archive target/staticlib/libexports.a -Wl,--no-whole-archive
//
// WHAT EVERY CALL KEEPS TO
// - All memory is the caller's. A call uses what it is lent until it returns; it keeps no pointer and allocates nothing.
// - A lent part is a pointer, aligned for its type, and the number of its elements. Only these are read or written. Where the number is 0
//   the pointer is not followed, and may be null.
// - `out` and `reply` are written: they must overlap neither each other nor anything else that is lent to the same call.
// - Every element of the reply is written, at every call. It begins with a refusal's number, place and need:
//     accepted   the three are 0, and the answer follows
//     refused    the number is not 0, every element of the answer is 0, and no element of `out` has changed
//   Place and need are 0 where a number has none.
// - Of `out`, only the elements that the answer speaks of are written. What lies behind them stays as it was.
// - No call has a state: calls on different memory may run at the same time.
// - Nothing is asked of a caller but that pointers and lengths are true. Every file, text and number is answered.
//
// To learn how long `out` must be, call with a length of 0: the refusal BSL_OUTPUT_TOO_SHORT has it in its need. A length of 0 that is
// enough is accepted.
//
// THE TEXT OF A QUERY
//     segment 32       rows taken at a time: 8, 16, 32 or 64. With fewer, no more bytes are counted, and it takes longer.
//     0 >= 1812        a test: column, sign, literal. The code of column 0 is at least 1812.
//     0 <= 1827
//     3 != 2
// There are 0 to 16 tests; with none every row is found. To the byte:
//     text    =  "segment" space number end, then for each test: number space sign space number end
//     sign    =  <  or  <=  or  >  or  >=  or  =  or  !=
//     number  =  0, or decimal digits of which the first is not 0; below 2^32
//     space   =  one byte 32
//     end     =  one byte 10, a line feed; the last line has it too
// A text that looks right is malformed by
// - lines that end in CR LF
// - a byte order mark in front
// - a last line without its line feed
// - an empty line, also as the last
// - two spaces, a tab, or a space before or behind what a line says
// - a number with leading zeros, with + or -, or of 2^32 or more
// - a sign such as == or <>, or "Segment" with a capital
// - a NUL, which is no part of the text: its length is that of the lines
#ifndef RUTKSMELN_H
#define RUTKSMELN_H

#include <stddef.h>
#include <stdint.h>

#ifdef __cplusplus
extern "C" {
#endif

// What there is at most: rows, columns, bits of a column, tests of a query. The least are 0 rows, 1 column, 1 bit and 0 tests.
enum { BSL_MOST_ROWS = 1048576, BSL_MOST_COLUMNS = 32, BSL_MOST_WIDTH = 32, BSL_MOST_TESTS = 16 };

// The numbers of the refusals: what is wrong, and what to do. Each call names those that it has, in the order in which they are tried;
// the first that holds is answered, with the lowest place.
enum bsl_refusal {
    BSL_ACCEPTED = 0,
    // The file has under 16 bytes, or does not end in BSL1. It is no register, or was cut short: fetch it again.
    BSL_NO_REGISTER = 1,
    // The file's version is not 1. Have it written in version 1.
    BSL_OTHER_VERSION = 2,
    // There are more than BSL_MOST_ROWS rows. Divide the register.
    BSL_TOO_MANY_ROWS = 3,
    // There is no column, or more than BSL_MOST_COLUMNS. Divide the columns.
    BSL_UNFIT_COLUMN_COUNT = 4,
    // The directory is not where the file's length puts it. Bytes are missing or too many: fetch the file again.
    BSL_DIRECTORY_MISPLACED = 5,
    // A width is 0 or over BSL_MOST_WIDTH, or, in a file, the column's entry is unfit. Place: the column. Mend what writes that column.
    BSL_UNFIT_COLUMN = 6,
    // The slices do not fill the file up to its directory. Bytes are missing or too many: fetch the file again.
    BSL_BODY_MISFIT = 7,
    // A code is not below 2^width of its column. Place: its index in the codes. Widen the column, or mend the code.
    BSL_CODE_TOO_LARGE = 8,
    // The codes are not rows x columns. Hand over a code for every cell.
    BSL_UNFIT_CODE_COUNT = 9,
    // `out` is too short. Need: the elements that it must have. Lend that many.
    BSL_OUTPUT_TOO_SHORT = 10,
    // There are more than BSL_MOST_TESTS tests. Ask in two queries, and take the rows that both find.
    BSL_TOO_MANY_TESTS = 11,
    // The register has no such column. Place: in a scan the test, in a lookup 0. Count columns from 0.
    BSL_NO_SUCH_COLUMN = 12,
    // A literal is not below 2^width of its column. Place: the test. It can match no row, or every row: ask for less.
    BSL_LITERAL_TOO_LARGE = 13,
    // The segment size is not 8, 16, 32 or 64. Choose one of them.
    BSL_UNFIT_SEGMENT_SIZE = 14,
    // A row number is not below the rows. Place: its index in the list. Count rows from 0.
    BSL_NO_SUCH_ROW = 15,
    // The bits are not rows / 8 bytes, rounded up, or one past the last row is set. Hand over the bytes that a scan of this register left.
    BSL_UNFIT_BITS = 16,
    // The text is malformed. Place: the first such line. Mend it; THE TEXT OF A QUERY, above, says by what a line is malformed.
    BSL_MALFORMED_TEXT = 17
};

// Where the refusal stands in every reply, and where the answer begins.
enum { BSL_NUMBER = 0, BSL_PLACE = 1, BSL_NEED = 2, BSL_ANSWER = 3 };

// The number of elements of each reply.
enum {
    BSL_OPEN_REPLY = 5,
    BSL_WIDTHS_REPLY = 4,
    BSL_WRITE_REPLY = 4,
    BSL_READ_REPLY = 53,
    BSL_SCAN_REPLY = 21,
    BSL_LIST_REPLY = 4,
    BSL_LOOKUP_REPLY = 4
};

// Where the slots begin in the reply of bsl_read, the elements of a slot, and where in a slot each stands. Test t of a query has the
// column reply[BSL_SLOTS + BSL_SLOT * t + BSL_COLUMN].
enum { BSL_SLOTS = 5, BSL_SLOT = 3, BSL_COLUMN = 0, BSL_COMPARISON = 1, BSL_LITERAL = 2 };

// A comparison in a slot: < <= > >= = !=
enum { BSL_LESS = 0, BSL_AT_MOST = 1, BSL_MORE = 2, BSL_AT_LEAST = 3, BSL_EQUAL = 4, BSL_DIFFERS = 5 };

// Where the counts begin in the reply of bsl_scan. Test t of a query has the count reply[BSL_COUNTS + t].
enum { BSL_COUNTS = 5 };

// Opens a register.
//   file    lent to be read: the whole file
//   reply   number, place, need, rows, columns
// Numbers: 1 to 7.
void bsl_open(const uint8_t *file, size_t length, uint64_t reply[5]);

// Tells how wide the columns of a register are.
//   file    lent to be read: the whole file
//   out     lent to be written: the bits of each column, 1 to 32; BSL_MOST_COLUMNS elements are always enough
//   reply   number, place, need, columns written
// Numbers, in this order: 1 to 7, 10 (need: the columns).
void bsl_widths(const uint8_t *file, size_t length, uint8_t *out, size_t out_length, uint64_t reply[4]);

// Writes a register.
//   rows    how many
//   widths  lent to be read: the bits of each column
//   codes   lent to be read: row after row, in each row a code for every column
//   out     lent to be written: the file, from its first byte on
//   reply   number, place, need, bytes written
// Numbers, in this order: 3, 4, 6, 9, 8, 10 (need: the bytes of the file).
void bsl_write(size_t rows, const uint8_t *widths, size_t columns, const uint64_t *codes, size_t codes_length, uint8_t *out,
               size_t out_length, uint64_t reply[4]);

// Reads the text of a query. Which columns and segment sizes there are it does not judge; the scan does.
//   text    lent to be read: no NUL at its end
//   reply   number, place, need, segment size, count of tests, then for each of 16 slots the column, the comparison (BSL_LESS to
//           BSL_DIFFERS) and the literal; a slot behind the count is 0, 0, 0
// Numbers, in this order: 17, 11.
void bsl_read(const uint8_t *text, size_t length, uint64_t reply[53]);

// Scans a register for the rows that meet every test of a query.
//   file    lent to be read: the whole file
//   text    lent to be read: the query, as for bsl_read
//   out     lent to be written: a bit for each row, that of row r having the value 2^(r mod 8) in byte r / 8; a bit of the last byte
//           that belongs to no row is 0
//   reply   number, place, need, rows found, total of the counts, then for each of 16 slots the bytes of its column that were counted for
//           that test; 0 behind the last test
// Numbers, in this order: 17 and 11 of the text, 1 to 7 of the file, 14, for each test in turn 12 and 13, and 10 (need: rows / 8, rounded
// up).
void bsl_scan(const uint8_t *file, size_t length, const uint8_t *text, size_t text_length, uint8_t *out, size_t out_length,
              uint64_t reply[21]);

// Lists the rows whose bit is set, rising.
//   rows    how many the register has
//   bits    lent to be read: the bytes that a scan wrote, neither fewer nor more
//   out     lent to be written: the row numbers, from 0
//   reply   number, place, need, rows listed
// Numbers, in this order: 3, 16, 10 (need: the bits that are set).
void bsl_list(size_t rows, const uint8_t *bits, size_t bits_length, uint32_t *out, size_t out_length, uint64_t reply[4]);

// Looks up the code of a column in each row of a list.
//   file    lent to be read: the whole file
//   column  from 0
//   rows    lent to be read: row numbers in any order, also more than once
//   out     lent to be written: a code for each of them, in the order of the list
//   reply   number, place, need, codes written
// Numbers, in this order: 1 to 7 of the file, 12 (place 0), 15, 10 (need: the rows of the list).
void bsl_lookup(const uint8_t *file, size_t length, size_t column, const uint32_t *rows, size_t rows_length, uint64_t *out,
                size_t out_length, uint64_t reply[4]);

#ifdef __cplusplus
}
#endif

#endif

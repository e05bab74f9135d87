// The scan in plain C, written to be fast: the schedule of the library, and the same answers. Two facts a row, each a byte, 0 or
// 255: whether it is equal so far on a test, and whether it is still in. Bytes are compared with ranges, so no pad is cleared, and
// no store hangs on a condition, so that a compiler can make vectors of the row loops.
//
// Slice 1 stands apart: before it every row is equal and in, and every test counts it. It is taken for a block of rows, test after
// test; only segments in which a test counts slice 2 go further, and there the segment size is a constant in every loop.
#include "twin.h"

enum { MOST_BYTES = 4, MOST_SIZE = 64, MOST_BLOCK = 4096 };

// Rows of a block. With BY_SEGMENT slice 1, too, is taken segment by segment.
#ifdef BY_SEGMENT
#define BLOCK(size) (size)
#else
#define BLOCK(size) ((void)(size), MOST_BLOCK)
#endif

#define INLINE static inline __attribute__((always_inline))

// The bytes that are, less low and wrapping, at most span.
struct range {
    uint8_t low, span;
};

struct test {
    const uint8_t *slices;
    unsigned bytes;
    int strict;  // equal to the end is no match
    struct range equal[MOST_BYTES], stays[MOST_BYTES];
};

struct plan {
    size_t rows, count;
    struct test tests[MOST_TESTS];
};

// After slice 1: rows that are still in, rows equal on a test that has more slices, rows equal to the end on a strict test, and
// rows equal to the end on another, which nobody asks for.
struct block {
    uint8_t in[MOST_BLOCK], more[MOST_BLOCK], fails[MOST_BLOCK], holds[MOST_BLOCK];
};

struct segment {
    uint8_t equal[MOST_TESTS][MOST_SIZE], in[MOST_SIZE];
};

// The plan

enum { LESS, AT_MOST, MORE, AT_LEAST, EQUAL };

// The bytes that do not rule out a row that is equal so far.
static struct range staying(uint64_t kind, uint8_t low, uint8_t high) {
    if (kind == LESS || kind == AT_MOST) return (struct range){0, high};
    if (kind == MORE || kind == AT_LEAST) return (struct range){low, (uint8_t)(255 - low)};
    if (kind == EQUAL) return (struct range){low, (uint8_t)(high - low)};
    return (struct range){0, 255};
}

static struct test plan_test(struct column column, uint64_t kind, uint64_t literal) {
    struct test test = {.slices = column.slices, .bytes = column.bytes};
    test.strict = kind != AT_MOST && kind != AT_LEAST && kind != EQUAL;
    uint64_t least = literal << column.pad, most = least + (1u << column.pad) - 1;
    for (unsigned slice = 0; slice < column.bytes; slice++) {
        unsigned shift = 8 * (column.bytes - 1 - slice);
        uint8_t low = (uint8_t)(least >> shift), high = (uint8_t)(most >> shift);
        test.equal[slice] = (struct range){low, (uint8_t)(high - low)};
        test.stays[slice] = staying(kind, low, high);
    }
    return test;
}

// Rows

INLINE uint8_t within(uint8_t byte, struct range range) { return (uint8_t)(byte - range.low) <= range.span ? 255 : 0; }

INLINE uint64_t eight(const uint8_t *rows) {
    uint64_t word;
    memcpy(&word, rows, sizeof word);
    return word;
}

// Whether some row is set in both.
INLINE int meet(const uint8_t *a, const uint8_t *b, size_t n) {
    uint64_t some = 0;
    for (size_t row = 0; row < n; row += 8) some |= eight(a + row) & eight(b + row);
    return some != 0;
}

// Writes eight rows to a byte, the first as its least significant bit. Answers how many are set.
INLINE uint64_t put_bits(const uint8_t *in, size_t n, uint8_t *out) {
    uint64_t matches = 0;
    for (size_t row = 0; row < n; row += 8) {
        uint64_t ones = eight(in + row) & 0x0101010101010101u;
        out[row / 8] = (uint8_t)(ones * 0x0102040810204080u >> 56);
        matches += ones * 0x0101010101010101u >> 56;
    }
    return matches;
}

// Slice 1 of a block

INLINE void first_slice(const struct test *test, size_t first, size_t n, uint8_t *restrict in, uint8_t *restrict equal) {
    const uint8_t *part = test->slices + first;
    struct range equals = test->equal[0], stays = test->stays[0];
#pragma GCC unroll 1
    for (size_t row = 0; row < n; row++) {
        in[row] &= within(part[row], stays);
        equal[row] |= within(part[row], equals);
    }
}

INLINE void first_slices(const struct plan *plan, size_t first, size_t n, struct block *block) {
    memset(block->in, 255, n), memset(block->more, 0, n), memset(block->fails, 0, n);
    for (size_t t = 0; t < plan->count; t++) {
        const struct test *test = &plan->tests[t];
        if (test->bytes > 1) first_slice(test, first, n, block->in, block->more);
        else first_slice(test, first, n, block->in, test->strict ? block->fails : block->holds);
    }
}

INLINE void drop(uint8_t *restrict in, const uint8_t *restrict gone, size_t n) {
#pragma GCC unroll 1
    for (size_t row = 0; row < n; row++) in[row] &= (uint8_t)~gone[row];
}

// The later slices of a segment

INLINE void equal_rows(const struct test *test, size_t first, size_t n, uint8_t *equal) {
    const uint8_t *part = test->slices + first;
    struct range equals = test->equal[0];
#pragma GCC unroll 1
    for (size_t row = 0; row < n; row++) equal[row] = within(part[row], equals);
}

// A row that the slice rules out leaves `left`; `in` stays for the tests that take the slice after this one.
INLINE void next_slice(const struct test *test, const uint8_t *part, unsigned slice, size_t n, uint8_t *equal, uint8_t *left) {
    struct range equals = test->equal[slice], stays = test->stays[slice];
#pragma GCC unroll 1
    for (size_t row = 0; row < n; row++) {
        left[row] &= within(part[row], stays) | (uint8_t)~equal[row];
        equal[row] &= within(part[row], equals);
    }
}

// Takes a slice for every test that counts it. Answers whether one did.
INLINE int take_slice(const struct plan *plan, unsigned slice, size_t first, size_t n, struct segment *segment, uint64_t *counts) {
    uint8_t left[MOST_SIZE];
    int open = 0;
    memcpy(left, segment->in, n);
    for (size_t t = 0; t < plan->count; t++) {
        const struct test *test = &plan->tests[t];
        if (slice >= test->bytes || !meet(segment->equal[t], segment->in, n)) continue;
        next_slice(test, test->slices + slice * plan->rows + first, slice, n, segment->equal[t], left);
        counts[t] += n, open = 1;
    }
    memcpy(segment->in, left, n);
    return open;
}

// Goes on after slice 1 until no test counts a slice. The rows that match stay in.
INLINE void later_slices(const struct plan *plan, size_t first, size_t n, uint8_t *in, uint64_t *counts) {
    struct segment segment;
    if (n % 8) memset(&segment, 0, sizeof segment);
    memcpy(segment.in, in, n);
    for (size_t t = 0; t < plan->count; t++) equal_rows(&plan->tests[t], first, n, segment.equal[t]);
    unsigned slice = 1;
    while (slice < MOST_BYTES && take_slice(plan, slice, first, n, &segment, counts)) slice++;
    for (size_t t = 0; t < plan->count; t++)
        if (plan->tests[t].strict) drop(segment.in, segment.equal[t], n);
    memcpy(in, segment.in, n);
}

#define LATER(size) \
    static void later_##size(const struct plan *plan, size_t first, size_t n, uint8_t *in, uint64_t *counts) { \
        if (n == size) later_slices(plan, first, size, in, counts); \
        else later_slices(plan, first, n, in, counts); \
    }
LATER(8)
LATER(16)
LATER(32)
LATER(64)

// All rows

typedef void later_call(const struct plan *plan, size_t first, size_t n, uint8_t *in, uint64_t *counts);

// A block of n rows; past them no row is in.
INLINE uint64_t scan_block(const struct plan *plan, size_t first, size_t n, size_t size, later_call *later, struct block *block,
                           uint64_t *counts, uint8_t *out) {
    first_slices(plan, first, n, block);
    if (n % size) memset(block->in + n, 0, size - n % size);
    for (size_t at = 0; at < n; at += size)
        if (meet(block->more + at, block->in + at, size))
            later(plan, first + at, n - at < size ? n - at : size, block->in + at, counts);
    drop(block->in, block->fails, n);
    return put_bits(block->in, n, out + first / 8);
}

INLINE uint64_t scan_rows(const struct plan *plan, size_t size, later_call *later, uint64_t *counts, uint8_t *out) {
    size_t first = 0;
    uint64_t matches = 0;
    struct block block;
    for (; first + BLOCK(size) <= plan->rows; first += BLOCK(size))
        matches += scan_block(plan, first, BLOCK(size), size, later, &block, counts, out);
    if (first < plan->rows) matches += scan_block(plan, first, plan->rows - first, size, later, &block, counts, out);
    return matches;
}

static uint64_t scan_by(const struct plan *plan, size_t size, uint64_t *counts, uint8_t *out) {
    for (size_t t = 0; t < plan->count; t++) counts[t] = plan->rows;
    switch (size) {
    case 8: return scan_rows(plan, 8, later_8, counts, out);
    case 16: return scan_rows(plan, 16, later_16, counts, out);
    case 32: return scan_rows(plan, 32, later_32, counts, out);
    default: return scan_rows(plan, 64, later_64, counts, out);
    }
}

// The call

static int unfit_size(uint64_t size) { return size != 8 && size != 16 && size != 32 && size != 64; }

// Plans every test. Answers 0, or the number of the refusal and its place.
static uint64_t plan_tests(const uint8_t *file, size_t len, const uint64_t opened[5], const uint64_t asked[53], struct plan *plan,
                           size_t *place) {
    for (size_t t = 0; t < plan->count; t++) {
        const uint64_t *test = &asked[5 + 3 * t];
        *place = t;
        if (test[0] >= opened[4]) return 12;
        struct column column = column_of(file, len, opened, test[0]);
        if (test[2] >> column.width) return 13;
        plan->tests[t] = plan_test(column, test[1], test[2]);
    }
    return 0;
}

void c_scan(const uint8_t *file, size_t len, const uint8_t *text, size_t tlen, uint8_t *out, size_t nout, uint64_t reply[21]) {
    uint64_t asked[BSL_READ_REPLY], opened[BSL_OPEN_REPLY];
    memset(reply, 0, BSL_SCAN_REPLY * sizeof *reply);
    c_read(text, tlen, asked);
    if (asked[0]) return refuse(reply, asked[0], asked[1], 0);
    c_open(file, len, opened);
    if (opened[0]) return refuse(reply, opened[0], opened[1], 0);
    if (unfit_size(asked[3])) return refuse(reply, 14, 0, 0);
    struct plan plan = {.rows = opened[3], .count = asked[4]};
    size_t place = 0, number = plan_tests(file, len, opened, asked, &plan, &place);
    if (number) return refuse(reply, number, place, 0);
    size_t need = (plan.rows + 7) / 8;
    if (nout < need) return refuse(reply, 10, 0, need);
    reply[3] = scan_by(&plan, asked[3], reply + 5, out);
    for (size_t t = 0; t < plan.count; t++) reply[4] += reply[5 + t];
}

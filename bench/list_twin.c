// The row list in plain C. Rows are counted first, since a list that does not fit is refused and nothing is written.
#include "twin.h"

// The places of each byte's set bits, rising, then zeros; and how many there are.
static uint32_t places[256][8];
static uint8_t ones[256];

__attribute__((constructor)) static void fill_tables(void) {
    for (unsigned byte = 0; byte < 256; byte++)
        for (unsigned place = 0; place < 8; place++)
            if (byte >> place & 1) places[byte][ones[byte]++] = place;
}

static uint64_t eight(const uint8_t *bits) {
    uint64_t word;
    memcpy(&word, bits, sizeof word);
    return word;
}

static size_t ones_of_eight(uint64_t word) {
    word -= word >> 1 & 0x5555555555555555u;
    word = (word & 0x3333333333333333u) + (word >> 2 & 0x3333333333333333u);
    return ((word + (word >> 4)) & 0x0f0f0f0f0f0f0f0fu) * 0x0101010101010101u >> 56;
}

static size_t count(const uint8_t *bits, size_t nbits) {
    size_t i = 0, many = 0;
    for (; i + 8 <= nbits; i += 8) many += ones_of_eight(eight(bits + i));
    for (; i < nbits; i++) many += ones[bits[i]];
    return many;
}

// Writes the rows of the bytes from i on, each byte's exactly.
static void put_exactly(const uint8_t *bits, size_t nbits, size_t i, uint32_t *out) {
    for (; i < nbits; i++) {
        for (unsigned k = 0; k < ones[bits[i]]; k++) out[k] = (uint32_t)(8 * i) + places[bits[i]][k];
        out += ones[bits[i]];
    }
}

// Writes eight rows for a byte, whatever it holds; the next byte's are written over those it does not have. Ends where eight
// would not fit the list.
static void put_by_bytes(const uint8_t *bits, size_t nbits, size_t many, uint32_t *out) {
    size_t i = 0, at = 0;
    for (; i < nbits && at + 8 <= many; i++) {
        const uint32_t *row = places[bits[i]];
#pragma GCC unroll 1
        for (unsigned k = 0; k < 8; k++) out[at + k] = (uint32_t)(8 * i) + row[k];
        at += ones[bits[i]];
    }
    put_exactly(bits, nbits, i, out + at);
}

// Goes from set bit to set bit: for bits that are few.
static void put_by_words(const uint8_t *bits, size_t nbits, uint32_t *out) {
    size_t i = 0;
    for (; i + 8 <= nbits; i += 8)
        for (uint64_t word = eight(bits + i); word; word &= word - 1) *out++ = (uint32_t)(8 * i) + (uint32_t)__builtin_ctzll(word);
    put_exactly(bits, nbits, i, out);
}

void c_list(size_t rows, const uint8_t *bits, size_t nbits, uint32_t *out, size_t nout, uint64_t reply[4]) {
    memset(reply, 0, BSL_LIST_REPLY * sizeof *reply);
    if (rows > MOST_ROWS) return refuse(reply, 3, 0, 0);
    if (nbits != (rows + 7) / 8 || (rows % 8 && bits[nbits - 1] >> rows % 8)) return refuse(reply, 16, 0, 0);
    size_t many = count(bits, nbits);
    if (nout < many) return refuse(reply, 10, 0, many);
    if (many < rows / 16) put_by_words(bits, nbits, out);
    else put_by_bytes(bits, nbits, many, out);
    reply[3] = many;
}

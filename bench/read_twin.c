// Reading a query's text in plain C.
#include "twin.h"

// What is left of the text.
struct cursor {
    const uint8_t *at, *end;
};

static int take(struct cursor *text, uint8_t byte) {
    if (text->at == text->end || *text->at != byte) return 0;
    text->at++;
    return 1;
}

// A decimal below 2^32 without leading zeros, and the byte after it.
static int number(struct cursor *text, uint8_t after, uint64_t *value) {
    const uint8_t *first = text->at;
    uint64_t sum = 0;
    for (; text->at < text->end && (uint8_t)(*text->at - '0') < 10; text->at++) {
        sum = sum * 10 + (*text->at - '0');
        if (sum >> 32) return 0;
    }
    size_t digits = (size_t)(text->at - first);
    if (digits == 0 || (digits > 1 && *first == '0')) return 0;
    *value = sum;
    return take(text, after);
}

// A comparison as a number, in the order < <= > >= = !=, and the space after it.
static int sign(struct cursor *text, uint64_t *kind) {
    if (take(text, '<')) *kind = take(text, '=');
    else if (take(text, '>')) *kind = 2 + take(text, '=');
    else if (take(text, '=')) *kind = 4;
    else if (take(text, '!') && take(text, '=')) *kind = 5;
    else return 0;
    return take(text, ' ');
}

static int line(struct cursor *text, uint64_t test[3]) {
    return number(text, ' ', &test[0]) && sign(text, &test[1]) && number(text, '\n', &test[2]);
}

static void refuse_text(uint64_t *reply, uint64_t refusal, uint64_t place) {
    memset(reply, 0, BSL_READ_REPLY * sizeof *reply);
    refuse(reply, refusal, place, 0);
}

void c_read(const uint8_t *text, size_t len, uint64_t reply[53]) {
    memset(reply, 0, BSL_READ_REPLY * sizeof *reply);
    if (len < 8 || memcmp(text, "segment ", 8)) return refuse_text(reply, 17, 0);
    struct cursor rest = {text + 8, text + len};
    if (!number(&rest, '\n', &reply[3])) return refuse_text(reply, 17, 0);
    uint64_t count = 0, beyond[3];
    for (; rest.at < rest.end; count++)
        if (!line(&rest, count < MOST_TESTS ? &reply[5 + 3 * count] : beyond)) return refuse_text(reply, 17, count + 1);
    if (count > MOST_TESTS) return refuse_text(reply, 11, 0);
    reply[4] = count;
}

// Which pickups does a query find? Scans a register, lists the rows found, and prints the first column of each.
// Ends with status 0, or 1 after a refusal, or 2 where a file cannot be read, the output cannot be written or memory is short; what went
// wrong goes to stderr.
// usage: recall QUERY [REGISTER]     REGISTER: examples/recall/parts.bsl when none is named
#include <inttypes.h>
#include <stdio.h>
#include <stdlib.h>

#include "rutksmeln.h"

struct bytes {
    uint8_t *at;
    size_t length;
};

// Memory for so many elements, also for none.
static void *room(size_t elements, size_t size) {
    void *given = calloc(elements ? elements : 1, size);
    if (!given) {
        fputs("recall: no memory\n", stderr);
        exit(2);
    }
    return given;
}

static void unreadable(const char *path) {
    perror(path);
    exit(2);
}

static struct bytes whole_file(const char *path) {
    FILE *file = fopen(path, "rb");
    if (!file || fseek(file, 0, SEEK_END)) unreadable(path);
    long length = ftell(file);
    if (length < 0 || fseek(file, 0, SEEK_SET)) unreadable(path);
    struct bytes read = {room((size_t)length, 1), (size_t)length};
    if (fread(read.at, 1, read.length, file) != read.length) unreadable(path);
    fclose(file);
    return read;
}

// Goes on after an accepted call; ends the program after a refused one.
static void accepted(const char *call, const uint64_t *reply) {
    if (!reply[BSL_NUMBER]) return;
    fprintf(stderr, "%s refused: number %" PRIu64 ", place %" PRIu64 "\n", call, reply[BSL_NUMBER], reply[BSL_PLACE]);
    exit(1);
}

static void unwritable(void) {
    perror("recall: standard output");
    exit(2);
}

// A full disk may show only when the last bytes leave, so closing is looked at too.
static void print_rows(const uint32_t *found, const uint64_t *codes, size_t matches) {
    if (printf("matches %zu\n", matches) < 0) unwritable();
    for (size_t i = 0; i < matches; i++)
        if (printf("row %" PRIu32 ": %" PRIu64 "\n", found[i], codes[i]) < 0) unwritable();
    if (fflush(stdout) || fclose(stdout)) unwritable();
}

int main(int words, char **word) {
    if (words != 2 && words != 3) {
        fputs("usage: recall QUERY [REGISTER]\n", stderr);
        return 2;
    }
    struct bytes query = whole_file(word[1]);
    struct bytes parts = whole_file(words == 3 ? word[2] : "examples/recall/parts.bsl");

    uint64_t opened[BSL_OPEN_REPLY];
    bsl_open(parts.at, parts.length, opened);
    accepted("open", opened);
    size_t rows = (size_t)opened[BSL_ANSWER];

    struct bytes bits = {room((rows + 7) / 8, 1), (rows + 7) / 8};
    uint64_t scanned[BSL_SCAN_REPLY];
    bsl_scan(parts.at, parts.length, query.at, query.length, bits.at, bits.length, scanned);
    accepted("scan", scanned);
    size_t matches = (size_t)scanned[BSL_ANSWER];

    uint32_t *found = room(matches, sizeof *found);
    uint64_t listed[BSL_LIST_REPLY];
    bsl_list(rows, bits.at, bits.length, found, matches, listed);
    accepted("list", listed);

    uint64_t *codes = room(matches, sizeof *codes);
    uint64_t looked_up[BSL_LOOKUP_REPLY];
    bsl_lookup(parts.at, parts.length, 0, found, matches, codes, matches, looked_up);
    accepted("lookup", looked_up);

    print_rows(found, codes, matches);

    free(codes);
    free(found);
    free(bits.at);
    free(parts.at);
    free(query.at);
    return 0;
}

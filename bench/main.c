// Prints how long each exported call takes beside its plain C twin, or beside an earlier state of itself that stands in its place (OTHER
// says which), as tables. A difference between their answers ends the run with status 1.
// usage: bench [RUNS]
#include <stdarg.h>
#include <stdio.h>
#include <stdlib.h>
#include <string.h>

#include "sides.h"

enum { ROUNDS = 5 };

static int rounds_left = ROUNDS;

// Prints, in the last round.
static void say(const char *format, ...) {
    va_list words;
    va_start(words, format);
    if (rounds_left == 1) vprintf(format, words);
    va_end(words);
}

static const uint8_t four_of_17[] = {17, 17, 17, 17}, mixed[] = {12, 17, 9, 24}, looked_up[] = {8, 17, 32};
static const char four_less[] = "0 < 65000\n1 < 65000\n2 < 65000\n3 < 65000\n";

static void print_head(const char *first, const char *const *columns, size_t n) {
    say("\n| %s |", first);
    for (size_t i = 0; i < n; i++) say(" %s |", columns[i]);
    say("\n|---|");
    for (size_t i = 0; i < n; i++) say("---|");
    say("\n");
}

static void print_pair(const char *name, const double *ns, double many) {
    say("| %s | %.2f | %.2f | %.2f |\n", name, ns[0] / many, ns[1] / many, ns[0] / ns[1]);
}

// Scan

struct workload {
    const char *name;
    const uint8_t *widths;
    const char *tests;
};

enum { WORKLOADS = 4 };

static const struct workload workloads[WORKLOADS] = {
    {"(a) four tests `<`, 17 bits", four_of_17, four_less},
    {"(b) few rows match", mixed, "0 = 1822\n1 >= 4096\n2 <= 400\n3 != 70000\n"},
    {"(c) nearly all match", mixed, "0 != 1822\n1 >= 100\n2 != 7\n3 > 1000\n"},
    {"(d) one test `<`, 17 bits", four_of_17, "0 < 65000\n"},
};

static struct scan_input ask(const struct register_input *parts, size_t size, const char *tests) {
    struct scan_input input = {.parts = parts};
    snprintf(input.text, sizeof input.text, "segment %zu\n%s", size, tests);
    return input;
}

// Holds the library's bits to those found row by row. Answers the matches.
static unsigned long long hold_to_rows(const char *name, const struct scan_input *input) {
    size_t bytes = (input->parts->rows + 7) / 8;
    struct answer answer = {.out = malloc(bytes)};
    uint8_t *found = find_row_by_row(input->parts, input->text);
    scan_side(input, 0, &answer);
    if (memcmp(answer.out, found, bytes)) {
        printf("%s: the library's bits are not those found row by row\n", name);
        exit(1);
    }
    free(answer.out), free(found);
    return answer.reply[3];
}

static void print_scan(const char *name, size_t size, const double *ns) {
    say("| %s, %zu |", name, size);
    say(" %.2f | %.2f | %.2f | %.2f | %.2f |\n", ns[0] / FULL, ns[1] / FULL, ns[0] / ns[1], ns[2] / FULL, ns[0] / ns[2]);
}

// Answers how many rows match.
static unsigned long long time_workload(const struct workload *workload, double without_vectors[4]) {
    struct register_input parts = make_register(FULL, workload->widths, 4);
    int sides = without_vectors ? 4 : 3;
    unsigned long long matches = 0;
    for (int i = 0; i < 4; i++) {
        double ns[MOST_SIDES];
        struct scan_input input = ask(&parts, 8u << i, workload->tests);
        matches = hold_to_rows(workload->name, &input);
        time_sides(workload->name, scan_side, &input, sides, FULL / 8, ns);
        print_scan(workload->name, 8u << i, ns);
        if (without_vectors) without_vectors[i] = ns[3] / FULL;
    }
    free_register(&parts);
    return matches;
}

static void time_scan(void) {
    static const char *const columns[] = {"proved", OTHER, "ratio", "C by segment", "ratio"};
    double plain[4];
    unsigned long long matches[WORKLOADS];
    print_head("scan, segment, ns a row", columns, 5);
    for (int i = 0; i < WORKLOADS; i++) matches[i] = time_workload(&workloads[i], i ? NULL : plain);
    say("\nRows that match: %llu, %llu, %llu, %llu.\n", matches[0], matches[1], matches[2], matches[3]);
    say("C with -fno-tree-vectorize, workload (a), segments 8 16 32 64: %.2f %.2f %.2f %.2f\n", plain[0], plain[1], plain[2],
           plain[3]);
}

// The other calls

static const char *const pair_columns[] = {"proved", OTHER, "ratio"};

static void time_lookup(void) {
    struct register_input parts = make_register(FULL, looked_up, 3);
    size_t many[2] = {FULL};
    uint32_t *lists[2] = {make_random_rows(FULL), make_rising_rows(FULL, &many[1])};
    print_head("lookup, ns a code", pair_columns, 3);
    for (int rising = 0; rising < 2; rising++)
        for (size_t column = 0; column < 3; column++) {
            struct lookup_input input = {&parts, column, many[rising], lists[rising]};
            double ns[2];
            char name[64];
            snprintf(name, sizeof name, "%s rows, %u bits", rising ? "rising" : "random", (unsigned)looked_up[column]);
            time_sides(name, lookup_side, &input, 2, many[rising] * sizeof(uint64_t), ns);
            print_pair(name, ns, (double)many[rising]);
        }
    free(lists[0]), free(lists[1]), free_register(&parts);
}

static void time_list(void) {
    static const char *const names[SPREADS] = {"every row", "half of them, by chance", "one in 64"};
    print_head("list, ns a row", pair_columns, 3);
    for (enum spread spread = EVERY; spread < SPREADS; spread++) {
        double ns[2];
        uint8_t *bits = make_bits(FULL, spread);
        struct list_input input = {FULL, 1, bits};
        time_sides(names[spread], list_side, &input, 2, FULL * sizeof(uint32_t), ns);
        print_pair(names[spread], ns, FULL);
        free(bits);
    }
}

static void time_write(void) {
    double ns[2];
    struct register_input parts = make_register(FULL, four_of_17, 4);
    print_head("write, ns a row", pair_columns, 3);
    time_sides("write", write_side, &parts, 2, parts.len, ns);
    print_pair("four columns of 17 bits", ns, FULL);
    free_register(&parts);
}

static void time_small(void) {
    double ns[2];
    uint8_t widths[MOST_WIDTHS];
    memset(widths, 17, sizeof widths);
    struct register_input parts = make_register(64, widths, MOST_WIDTHS);
    print_head("ns a call", pair_columns, 3);
    time_sides("open", open_side, &parts, 2, 0, ns);
    print_pair("open, 32 columns", ns, 1);
    time_sides("widths", widths_side, &parts, 2, MOST_WIDTHS, ns);
    print_pair("widths, 32 columns", ns, 1);
    struct scan_input input = ask(&parts, 64, four_less);
    time_sides("read", read_side, input.text, 2, 0, ns);
    print_pair("read, four tests", ns, 1);
    free_register(&parts);
}

// Growth. The list goes over as many bits at every size, in more calls where it is short: a processor learns the turns of a short
// one by heart, and no longer shows what they cost.

enum { SIZES = 5, GROWING = 5, LEAST_ROWS = 4096 };

static const char *const growing[GROWING] = {"scan (a), segment 8", "scan (a), segment 64", "lookup, rising rows, 17 bits",
                                             "list, half by chance", "write, four of 17 bits"};

static void time_size(size_t rows, double ns[GROWING][2]) {
    struct register_input parts = make_register(rows, four_of_17, 4);
    size_t many;
    uint32_t *list = make_rising_rows(rows, &many);
    uint8_t *bits = make_bits(FULL, HALF);
    struct scan_input small = ask(&parts, 8, four_less), large = ask(&parts, 64, four_less);
    struct lookup_input lookup = {&parts, 0, many, list};
    struct list_input listed = {rows, FULL / rows, bits};
    hold_to_rows(growing[0], &small);
    time_sides(growing[0], scan_side, &small, 2, rows / 8, ns[0]);
    time_sides(growing[1], scan_side, &large, 2, rows / 8, ns[1]);
    time_sides(growing[2], lookup_side, &lookup, 2, many * sizeof(uint64_t), ns[2]);
    time_sides(growing[3], list_side, &listed, 2, FULL * sizeof(uint32_t), ns[3]);
    time_sides(growing[4], write_side, &parts, 2, parts.len, ns[4]);
    const double elements[GROWING] = {(double)rows, (double)rows, (double)many, FULL, (double)rows};
    for (int i = 0; i < GROWING; i++) ns[i][0] /= elements[i], ns[i][1] /= elements[i];
    free(list), free(bits), free_register(&parts);
}

static void time_growth(void) {
    static const char *const columns[] = {"4,096 rows", "16,384", "65,536", "262,144", "1,048,576"};
    double ns[SIZES][GROWING][2];
    for (int i = 0; i < SIZES; i++) time_size((size_t)LEAST_ROWS << 2 * i, ns[i]);
    print_head("ns a row (lookup: a code)", columns, SIZES);
    for (int call = 0; call < GROWING; call++)
        for (int side = 0; side < 2; side++) {
            say("| %s%s |", growing[call], side ? ", " OTHER : "");
            for (int i = 0; i < SIZES; i++) say(" %.2f |", ns[i][call][side]);
            say("\n");
        }
}

static void time_round(void) {
    fprintf(stderr, "round %d of %d\n", ROUNDS - rounds_left + 1, ROUNDS);
    same_inputs();
    time_scan(), time_lookup(), time_list(), time_write(), time_small(), time_growth();
    next_round();
}

int main(int words, char **word) {
    int all = words > 1 ? atoi(word[1]) : 50;
    runs = all / ROUNDS > 0 ? all / ROUNDS : 1;
    printf("%d rows, least of %d runs in %d rounds, the sides in turn. Output buffers are filled before the first call of a\n"
           "side in a round, and not cleared between calls; each side has its own.\n", FULL, runs * ROUNDS, ROUNDS);
    for (; rounds_left; rounds_left--) time_round();
    puts("\nAll replies and outputs agree; the scan's bits agree with a search row by row.");
    return 0;
}

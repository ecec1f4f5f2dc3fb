/* Nanoseconds a byte of three calls, the least of many runs: `speed FILE`, a file of at least 64 KiB of UTF-8. For c/check-windows. */
#include "noddychest.h"

#include <stdio.h>
#include <stdlib.h>
#include <string.h>
#include <time.h>

enum { LEN = 1 << 16, RUNS = 4000 };

static uint8_t in[LEN], out[3 * LEN];
static nody_piece_t pieces[LEN];

static void validate(void) {
    if (nody_utf8_valid_up_to(in, LEN) != LEN) exit(1);
}

static void recode(void) {
    size_t written;
    if (nody_recode(NODY_UTF8, NODY_UTF16LE, in, LEN, out, sizeof out, &written) != NODY_STATUS_DONE) exit(1);
}

static void decode(void) {
    nody_bytes_t left = nody_bytes(in, LEN);
    if (nody_utf8_pieces(&left, pieces, LEN) == 0) exit(1);
}

static double seconds(void) {
    struct timespec now;
    clock_gettime(CLOCK_MONOTONIC, &now);
    return (double)now.tv_sec + 1e-9 * (double)now.tv_nsec;
}

static double least(void (*call)(void)) {
    double found = 1e9;
    for (int i = 0; i < RUNS; i++) {
        double begun = seconds();
        call();
        double took = seconds() - begun;
        if (took < found) found = took;
    }
    return 1e9 * found / LEN;
}

int main(int argc, char **argv) {
    FILE *file = argc == 2 ? fopen(argv[1], "rb") : NULL;
    if (!file || fread(in, 1, LEN, file) != LEN) return 2;
    /* (of a character that the end divides each byte becomes a question mark) */
    for (size_t end; (end = nody_utf8_valid_up_to(in, LEN)) < LEN;) in[end] = '?';
    double first = least(validate), second = least(recode), third = least(decode);
    printf("%.4f %.4f %.4f\n", first, second, third);
    return 0;
}

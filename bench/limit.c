/* What the machine can do at best: nanoseconds for each byte to read bytes once, and to copy them, at some sizes. */
#define _POSIX_C_SOURCE 200809L
#include <stdint.h>
#include <stdio.h>
#include <stdlib.h>
#include <string.h>
#include <time.h>

static double seconds(void) {
    struct timespec now;
    clock_gettime(CLOCK_MONOTONIC, &now);
    return (double)now.tv_sec + 1e-9 * (double)now.tv_nsec;
}

/* A sum of all words, which the compiler does in lanes; eight sums, so that none waits for another. */
static uint64_t sum(const uint64_t *words, size_t count) {
    uint64_t all[8] = {0}, total = 0;
    for (size_t i = 0; i < count; i += 8)
        for (size_t k = 0; k < 8; k++) all[k] += words[i + k];
    for (size_t k = 0; k < 8; k++) total += all[k];
    return total;
}

int main(int argc, char **argv) {
    static const size_t sizes[] = {16 << 10, 128 << 10, 1 << 20, 64 << 20};
    int rounds = argc == 2 ? atoi(argv[1]) : 20;
    volatile uint64_t kept = 0;
    puts("bytes            read      copy");
    for (size_t k = 0; k < sizeof sizes / sizeof *sizes; k++) {
        size_t len = sizes[k], times = ((size_t)64 << 20) / len;
        uint64_t *from = malloc(len), *to = malloc(len);
        double read = 1e9, copy = 1e9;
        if (from == NULL || to == NULL) return 3;
        memset(from, 1, len);
        memset(to, 2, len);
        for (int round = 0; round < rounds; round++) {
            double begun = seconds();
            for (size_t i = 0; i < times; i++) kept += sum(from, len / 8);
            double taken = (seconds() - begun) / (double)(len * times);
            if (taken < read) read = taken;
            begun = seconds();
            for (size_t i = 0; i < times; i++) {
                memcpy(to, from, len);
                kept += to[i % (len / 8)];
            }
            taken = (seconds() - begun) / (double)(len * times);
            if (taken < copy) copy = taken;
        }
        printf("%-11zu %9.3f %9.3f\n", len, 1e9 * read, 1e9 * copy);
        free(from);
        free(to);
    }
    printf("ns per byte, the best of %d rounds\n", rounds);
    return 0;
}

/* Writes the last N characters of a file: back N FILE. Only the last 4 N bytes of the file are read. The status is 2 for wrong
 * arguments, and 3 if a read or a write failed or there was no memory. */
#include "noddychest.h"

#include <errno.h>
#include <stdio.h>
#include <stdlib.h>
#include <string.h>

static int fails(const char *why, const char *name) {
    fprintf(stderr, "back: %s: %s%s%s\n", name, why, errno ? ": " : "", errno ? strerror(errno) : "");
    return 3;
}

/* The number that a word is, or 0 with `*is_number` 0. */
static size_t number_of(const char *word, int *is_number) {
    char *end;
    unsigned long n = strtoul(word, &end, 10);
    *is_number = *word >= '0' && *word <= '9' && *end == 0;
    return *is_number ? (size_t)n : 0;
}

int main(int argc, char **argv) {
    int is_number = 0;
    size_t n = argc == 3 ? number_of(argv[1], &is_number) : 0;
    if (!is_number) {
        fprintf(stderr, "usage: %s N FILE\n", argv[0]);
        return 2;
    }
    FILE *file = fopen(argv[2], "rb");
    if (!file || fseek(file, 0, SEEK_END) != 0) return fails("cannot open it", argv[2]);
    long size = ftell(file);
    if (size < 0) return fails("cannot tell its size", argv[2]);
    size_t len = n > (size_t)size / 4 ? (size_t)size : 4 * n;
    uint8_t *bytes = malloc(len + 1);
    if (!bytes) return fails("no memory", argv[2]);
    if (fseek(file, size - (long)len, SEEK_SET) != 0 || fread(bytes, 1, len, file) != len) return fails("cannot read it", argv[2]);
    fclose(file);
    nody_bytes_t before = nody_bytes(bytes, len);
    while (n-- > 0 && nody_utf8_next_back(&before).kind != NODY_KIND_NONE) {
    }
    fwrite(bytes + before.len, 1, len - before.len, stdout);
    free(bytes);
    if (fflush(stdout) != 0 || ferror(stdout)) return fails("cannot write", "standard output");
    return 0;
}

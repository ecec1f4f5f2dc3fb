/* Lists shards of a file that can be converted separately: shards ENCODING COUNT FILE. A line for each, with its number from 0, its offset
 * and its length, for `xargs` and `dd`: c/README.md has the lines. The status is 2 for wrong arguments, and 3 if the file
 * cannot be read or a write failed.
 */
#define _POSIX_C_SOURCE 200809L
#include "noddychest.h"

#include <errno.h>
#include <fcntl.h>
#include <stdio.h>
#include <stdlib.h>
#include <string.h>
#include <sys/mman.h>
#include <sys/stat.h>

enum { NO_ENCODING = 3 };

static nody_encoding_t encoding_of(const char *name) {
    if (strcmp(name, "utf8") == 0) return NODY_UTF8;
    if (strcmp(name, "utf16le") == 0) return NODY_UTF16LE;
    if (strcmp(name, "utf16be") == 0) return NODY_UTF16BE;
    return (nody_encoding_t)NO_ENCODING;
}

/* A number from 1 to a million, or 0 if the word is none. */
static size_t count_of(const char *word) {
    char *end;
    unsigned long count = strtoul(word, &end, 10);
    return *word >= '0' && *word <= '9' && *end == 0 && count <= 1000000 ? (size_t)count : 0;
}

static int fails(const char *name) {
    fprintf(stderr, "shards: %s: %s\n", name, strerror(errno));
    return 3;
}

int main(int argc, char **argv) {
    struct stat about;
    size_t count = argc == 4 ? count_of(argv[2]) : 0, len, begin = 0;
    void *bytes = NULL;
    if (count == 0 || encoding_of(argv[1]) == NO_ENCODING) {
        fprintf(stderr, "usage: %s ENCODING COUNT FILE, where ENCODING is utf8, utf16le or utf16be, and COUNT 1 to 1000000\n", argv[0]);
        return 2;
    }
    int file = open(argv[3], O_RDONLY);
    if (file < 0 || fstat(file, &about) != 0) return fails(argv[3]);
    len = (size_t)about.st_size;
    if (len > 0 && (bytes = mmap(NULL, len, PROT_READ, MAP_PRIVATE, file, 0)) == MAP_FAILED) return fails(argv[3]);
    for (size_t i = 0; i < count; i++) {
        size_t at = i + 1 < count ? (i + 1) * (len / count) : len;
        size_t end = nody_shard_end(encoding_of(argv[1]), bytes, len, at);
        printf("%zu %zu %zu\n", i, begin, end - begin);
        begin = end;
    }
    return fflush(stdout) == 0 && !ferror(stdout) ? 0 : fails("standard output");
}

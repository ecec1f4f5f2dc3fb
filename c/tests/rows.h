/* Rows of text with `|` between their columns, and a count of what holds. Lines that begin with `#` are no rows. */
#ifndef NODDYCHEST_ROWS_H
#define NODDYCHEST_ROWS_H

#include <stdint.h>
#include <stdio.h>
#include <stdlib.h>
#include <string.h>

enum { COLUMNS = 12 };

struct rows {
    FILE *file;
    char *line;
    size_t room;
    char *column[COLUMNS]; /* "" if there are fewer */
};

static unsigned long passed, failed;

static inline void expect(int holds, const char *what, const char *which) {
    if (holds) {
        passed++;
    } else if (failed++ < 20) {
        printf("FAILED: %s: %.300s\n", what, which);
    }
}

static inline int tell(void) {
    printf("%lu passed, %lu failed\n", passed, failed);
    return failed != 0;
}

static inline void stop(const char *why, const char *which) {
    fprintf(stderr, "%s: %s\n", why, which);
    exit(2);
}

static inline struct rows open_rows(const char *folder, const char *name) {
    static char path[4096];
    struct rows rows = {NULL, NULL, 0, {NULL}};
    snprintf(path, sizeof path, "%s/%s", folder, name);
    if (!(rows.file = fopen(path, "r"))) stop("cannot read", path);
    return rows;
}

/* Takes the next row, or closes the file and returns 0. */
static inline int next_row(struct rows *rows) {
    ssize_t len;
    while ((len = getline(&rows->line, &rows->room, rows->file)) >= 0) {
        char *at = rows->line;
        if (*at == '#') continue;
        if (len > 0 && at[len - 1] == '\n') at[len - 1] = 0;
        for (int i = 0; i < COLUMNS; i++) {
            char *end = at ? strchr(at, '|') : NULL;
            rows->column[i] = at ? at : "";
            if (end) *end = 0;
            at = end ? end + 1 : NULL;
        }
        return 1;
    }
    fclose(rows->file);
    free(rows->line);
    return 0;
}

static inline void *block_of(size_t len) {
    void *block = malloc(len ? len : 1);
    if (!block) stop("no memory", "for a row");
    return block;
}

/* The bytes of a column in hexadecimal, in a block of just that length, so that a tool sees who reads after it. */
static inline uint8_t *bytes_of(const char *digits, size_t *len) {
    uint8_t *bytes = block_of(*len = strlen(digits) / 2);
    for (size_t i = 0; i < *len; i++) {
        unsigned byte;
        if (sscanf(digits + 2 * i, "%2x", &byte) != 1) stop("no hexadecimal", digits);
        bytes[i] = (uint8_t)byte;
    }
    return bytes;
}

/* Code units from hexadecimal, four digits each. */
static inline uint16_t *units_of(const char *digits, size_t *len) {
    uint16_t *units = block_of((*len = strlen(digits) / 4) * sizeof *units);
    for (size_t i = 0; i < *len; i++) {
        unsigned unit;
        if (sscanf(digits + 4 * i, "%4x", &unit) != 1) stop("no hexadecimal", digits);
        units[i] = (uint16_t)unit;
    }
    return units;
}

#endif

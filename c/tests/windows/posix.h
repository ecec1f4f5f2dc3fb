/* What the tests of this folder's parent ask of POSIX, for Windows' C library: they are compiled with `-include` of this file. */
#ifndef NODDYCHEST_POSIX_H
#define NODDYCHEST_POSIX_H

#define __USE_MINGW_ANSI_STDIO 1
#include <io.h>
#include <stdio.h>
#include <stdlib.h>
#include <string.h>
#include <sys/types.h>
#include <unistd.h>

/* (io.h has a call of this name) */
#define tell tell_counts
/* (an `unsigned long` has 32 bits there, and the rows have numbers of 64) */
#define strtoul strtoull

static inline ssize_t getline(char **line, size_t *room, FILE *file) {
    size_t len = 0;
    for (int byte; (byte = getc(file)) != EOF;) {
        if (len + 2 > *room) *line = realloc(*line, *room = 2 * *room + 128);
        (*line)[len++] = (char)byte;
        if (byte == '\n') break;
    }
    if (len == 0) return -1;
    (*line)[len] = 0;
    return (ssize_t)len;
}

/* A stream into memory: it goes to a temporary file, which is read back once it is closed. */
static struct {
    FILE *file;
    char **bytes;
    size_t *len;
} memory_streams[8];

static inline FILE *open_memstream(char **bytes, size_t *len) {
    for (int i = 0; i < 8; i++)
        if (!memory_streams[i].file) {
            memory_streams[i].bytes = bytes;
            memory_streams[i].len = len;
            return memory_streams[i].file = tmpfile();
        }
    return NULL;
}

static inline int close_stream(FILE *file) {
    for (int i = 0; i < 8; i++)
        if (memory_streams[i].file == file) {
            size_t len = (size_t)ftell(file);
            rewind(file);
            *memory_streams[i].bytes = calloc(1, len + 1);
            *memory_streams[i].len = fread(*memory_streams[i].bytes, 1, len, file);
            memory_streams[i].file = NULL;
        }
    return fclose(file);
}
#define fclose close_stream
#endif

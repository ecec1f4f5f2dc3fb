/* Transcodes a file in several threads: threads FROM TO COUNT FILE >RECODED. The file is cut into blocks where nody_shard_end says, so each is
 * converted separately. A thread takes the next block, converts it, waits until all blocks before it are written, and writes it. So the
 * output is that of one thread, and the memory does not grow with the file. The status is 2 for wrong arguments, and 3 if the file
 * cannot be read, a write failed or there was no memory. (the file is mapped: it must not become shorter)
 */
#define _POSIX_C_SOURCE 200809L
#include "noddychest.h"

#include <errno.h>
#include <fcntl.h>
#include <pthread.h>
#include <stdio.h>
#include <stdlib.h>
#include <string.h>
#include <sys/mman.h>
#include <sys/stat.h>
#include <unistd.h>

enum { BLOCK = 1 << 20, MOST_THREADS = 256, NO_ENCODING = 3 };

/* What is recoded. */
static nody_encoding_t from, to;
static const uint8_t *bytes;
static size_t len;

/* The block to take next, the block to write next, and whether that failed. */
static pthread_mutex_t lock = PTHREAD_MUTEX_INITIALIZER;
static pthread_cond_t written_one = PTHREAD_COND_INITIALIZER;
static size_t taken, written;
static int error;

static nody_encoding_t encoding_of(const char *name) {
    if (strcmp(name, "utf8") == 0) return NODY_UTF8;
    if (strcmp(name, "utf16le") == 0) return NODY_UTF16LE;
    if (strcmp(name, "utf16be") == 0) return NODY_UTF16BE;
    return (nody_encoding_t)NO_ENCODING;
}

/* Where a block begins, which is where the one before it ends. */
static size_t begin_of(size_t block) {
    return block > len / BLOCK ? len : nody_shard_end(from, bytes, len, block * BLOCK);
}

static size_t take(void) {
    pthread_mutex_lock(&lock);
    size_t block = error ? SIZE_MAX : taken++;
    pthread_mutex_unlock(&lock);
    return block;
}

static void write_in_turn(size_t block, const uint8_t *out, size_t size, int failure) {
    pthread_mutex_lock(&lock);
    while (written != block) pthread_cond_wait(&written_one, &lock);
    if (!error && failure) error = failure;
    while (!error && size > 0) {
        ssize_t count = write(STDOUT_FILENO, out, size);
        if (count > 0) out += count, size -= (size_t)count;
        else if (errno != EINTR) error = errno;
    }
    written++;
    pthread_cond_broadcast(&written_one);
    pthread_mutex_unlock(&lock);
}

static void *work(void *unused) {
    size_t room = nody_recoded_len_max(from, to, BLOCK + 3), block, size;
    uint8_t *out = malloc(room);
    while ((block = take()) <= len / BLOCK) {
        size_t begin = begin_of(block), end = begin_of(block + 1);
        if (out) nody_recode(from, to, bytes + begin, end - begin, out, room, &size);
        write_in_turn(block, out, out ? size : 0, out ? 0 : ENOMEM);
    }
    free(out);
    return unused;
}

static int fails(const char *name, int why) {
    fprintf(stderr, "threads: %s: %s\n", name, strerror(why));
    return 3;
}

int main(int argc, char **argv) {
    pthread_t threads[MOST_THREADS];
    struct stat about;
    long count = argc == 5 ? strtol(argv[3], NULL, 10) : 0, started = 0;
    if (count < 1 || count > MOST_THREADS || (from = encoding_of(argv[1])) == NO_ENCODING || (to = encoding_of(argv[2])) == NO_ENCODING) {
        fprintf(stderr, "usage: %s FROM TO COUNT FILE, where FROM and TO are utf8, utf16le or utf16be, and COUNT 1 to 256\n", argv[0]);
        return 2;
    }
    int file = open(argv[4], O_RDONLY);
    if (file < 0 || fstat(file, &about) != 0) return fails(argv[4], errno);
    len = (size_t)about.st_size;
    void *mapped = len ? mmap(NULL, len, PROT_READ, MAP_PRIVATE, file, 0) : NULL;
    if (mapped == MAP_FAILED) return fails(argv[4], errno);
    bytes = mapped;
    while (started + 1 < count && pthread_create(&threads[started], NULL, work, NULL) == 0) started++;
    work(NULL);
    while (started > 0) pthread_join(threads[--started], NULL);
    return error ? fails("standard output", error) : 0;
}

/* What a program is linked with to see it fail. FAULT has a word and a number N:
 *   memory N        the Nth allocation fails
 *   short N         a read or a write moves N bytes at the most
 *   unread N        of each N reads the last is interrupted, before it moves a byte
 *   unwritten N     the same of writes
 * `make check` gives the calls of the program these names. */
#define _XOPEN_SOURCE 700
#include <errno.h>
#include <stdlib.h>
#include <string.h>
#include <unistd.h>

void *faulty_malloc(size_t size);
void *faulty_realloc(void *block, size_t size);
ssize_t faulty_read(int file, void *bytes, size_t len);
ssize_t faulty_pread(int file, void *bytes, size_t len, off_t at);
ssize_t faulty_write(int file, const void *bytes, size_t len);

/* The number after the word in FAULT, or 0 if FAULT has another word. */
static unsigned long number_of(const char *word) {
    const char *fault = getenv("FAULT");
    size_t len = strlen(word);
    return fault && strncmp(fault, word, len) == 0 ? strtoul(fault + len, NULL, 10) : 0;
}

static int is_refused(void) {
    static unsigned long asked;
    return ++asked == number_of("memory ");
}

void *faulty_malloc(size_t size) {
    return is_refused() ? NULL : malloc(size);
}

void *faulty_realloc(void *block, size_t size) {
    return is_refused() ? NULL : realloc(block, size);
}

static int is_interrupted(const char *word) {
    static unsigned long calls;
    unsigned long each = number_of(word);
    if (!each || ++calls % each) return 0;
    errno = EINTR;
    return 1;
}

static size_t most_of(size_t len) {
    unsigned long most = number_of("short ");
    return most && most < len ? most : len;
}

ssize_t faulty_read(int file, void *bytes, size_t len) {
    return is_interrupted("unread ") ? -1 : read(file, bytes, most_of(len));
}

ssize_t faulty_pread(int file, void *bytes, size_t len, off_t at) {
    return is_interrupted("unread ") ? -1 : pread(file, bytes, most_of(len), at);
}

ssize_t faulty_write(int file, const void *bytes, size_t len) {
    return is_interrupted("unwritten ") ? -1 : write(file, bytes, most_of(len));
}

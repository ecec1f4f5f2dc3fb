/* What the programs ask of the system, over the C library: memory, `errno`, the words that they were started with, and on
 * x86-64 what the processor can do.
 *
 * Names and answers are as the kit's own C code has them, for which the assembly was made. Reading and writing are calls of
 * read(2) and write(2). The `main` of the assembly is called `noddychest_main` here (names.sed): it ignores SIGPIPE, so
 * that a write to a closed pipe fails by an error, tests the processor, and runs the program. */
#include <errno.h>
#include <stdbool.h>
#include <stddef.h>
#include <stdlib.h>
#include <string.h>
#include <sys/types.h>

/* Whether there is memory, and where. It goes back in two registers, on Windows too, whose own calls have no such answers. Without
 * memory the address is no block, and not NULL. */
struct tried {
    bool is_there;
    void *block;
};

#ifdef _WIN32
#define IN_REGISTERS __attribute__((sysv_abi))
#else
#define IN_REGISTERS
#endif

static struct tried tried(void *block) {
    static char nothing;
    struct tried it = {block != NULL, block ? block : &nothing};
    return it;
}

/* The C library aligns a block for any type, and `align` is at most that. A block of no bytes has `align` bytes, since NULL
 * may stand for one of none. Where rattle_realloc finds no memory, the old block stays as it was. */
IN_REGISTERS struct tried rattle_alloc(size_t size, size_t align) {
    return tried(malloc(size ? size : align));
}

IN_REGISTERS struct tried rattle_realloc(void *block, size_t kept, size_t size, size_t align) {
    (void)kept;
    return tried(realloc(block, size ? size : align));
}

void rattle_dealloc(void *block) {
    free(block);
}

int rattle_errno(void) {
    return errno;
}

void rattle_set_errno(int error) {
    errno = error;
}

static size_t count;
static char **words;

/* Copies a word, the program's own name first, and answers its length: -1 where there is none, -2 where it has no room. */
ssize_t rattle_arg(size_t number, unsigned char *out, size_t room) {
    if (number >= count) return -1;
    size_t len = strlen(words[number]);
    memcpy(out, words[number], len < room ? len : room);
    return len <= room ? (ssize_t)len : -2;
}

#ifdef __x86_64__
#include <cpuid.h>

/* As glibc does from 2.33 on: eight numbers, of which the last four are what can be used of EAX, EBX, ECX and EDX, for the
 * leaf 1 (number 0) and the leaf 0x80000001 (number 2). */
const unsigned *noddychest_features(unsigned number) {
    static unsigned all[8];
    unsigned *can = all + 4;
    if (!__get_cpuid(number == 0 ? 1 : 0x80000001, &can[0], &can[1], &can[2], &can[3])) memset(all, 0, sizeof all);
    return all;
}
#endif

int noddychest_main(void);

#ifdef _WIN32
#include <fcntl.h>
#include <io.h>

/* Windows' C library counts the bytes of a call in an `unsigned`, and its answer is an `int`. Fewer than asked is always right. */
enum { MOST = 1 << 30 };

static unsigned at_most(size_t len) {
    return len < MOST ? (unsigned)len : MOST;
}

ssize_t noddychest_read(int file, void *into, size_t room) {
    return _read(file, into, at_most(room));
}

ssize_t noddychest_write(int file, const void *from, size_t len) {
    return _write(file, from, at_most(len));
}

/* There is no SIGPIPE: a write to a closed pipe fails by an error anyway. */
void *noddychest_signal(int number, void *handler) {
    (void)number;
    (void)handler;
    return NULL;
}

/* Else the C library would change line feeds, and end the input at a byte 1A. */
static void set_binary(void) {
    for (int file = 0; file < 3; file++) _setmode(file, _O_BINARY);
}
#else
static void set_binary(void) {
}
#endif

int main(int argc, char **argv) {
    set_binary();
    count = (size_t)argc;
    words = argv;
    return noddychest_main();
}

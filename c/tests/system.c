/* Tests the functions of generated/system.c, one by one, with allocations that fail and with words of each size. */
#include "rows.h"

#include <errno.h>
#include <stdbool.h>

static bool is_refused;

static void *ask(size_t size) {
    return is_refused ? NULL : malloc(size);
}

static void *ask_again(void *block, size_t size) {
    return is_refused ? NULL : realloc(block, size);
}

int asked_main(int argc, char **argv);

/* The file itself, with these two in place of the C library's, and its `main` as a function. */
#define malloc ask
#define realloc ask_again
#define main asked_main
#include "../../generated/system.c"
#undef malloc
#undef realloc
#undef main

int noddychest_main(void) {
    return 7;
}

static void memory(void) {
    struct tried first = rattle_alloc(100, 16), none = rattle_alloc(0, 8), more;
    expect(first.is_there && first.block && ((uintptr_t)first.block & 15) == 0, "rattle_alloc", "100 bytes");
    expect(none.is_there && none.block && ((uintptr_t)none.block & 7) == 0, "rattle_alloc", "no byte");
    memset(first.block, 'x', 100);
    is_refused = true;
    more = rattle_alloc(100, 1);
    expect(!more.is_there && more.block, "rattle_alloc", "refused");
    more = rattle_realloc(first.block, 100, 1000, 16);
    expect(!more.is_there && more.block && more.block != first.block, "rattle_realloc", "refused");
    is_refused = false;
    more = rattle_realloc(first.block, 100, 100000, 16);
    expect(more.is_there && ((char *)more.block)[0] == 'x' && ((char *)more.block)[99] == 'x', "rattle_realloc", "after it was refused");
    memset(more.block, 'y', 100000);
    more = rattle_realloc(more.block, 100000, 0, 16);
    expect(more.is_there && more.block, "rattle_realloc", "no byte");
    rattle_dealloc(more.block);
    rattle_dealloc(none.block);
}

static void errors(void) {
    rattle_set_errno(EINTR);
    expect(errno == EINTR && rattle_errno() == EINTR, "rattle_set_errno", "EINTR");
    rattle_set_errno(0);
    expect(errno == 0 && rattle_errno() == 0, "rattle_set_errno", "0");
}

static void arguments(void) {
    static unsigned char out[200000];
    static char long_word[100001], *many[10001], *few[] = {"name", "", "abc", long_word, NULL}, *no[] = {NULL};
    memset(long_word, 'w', 100000);
    for (int i = 0; i < 10000; i++) many[i] = i % 2 ? "odd" : "even";
    expect(asked_main(0, no) == 7 && rattle_arg(0, out, 9) == -1, "rattle_arg", "no words");
    expect(asked_main(4, few) == 7 && rattle_arg(0, out, 9) == 4 && memcmp(out, "name", 4) == 0, "rattle_arg", "the name");
    expect(rattle_arg(1, out, 0) == 0, "rattle_arg", "an empty word");
    expect(rattle_arg(2, out, 3) == 3 && memcmp(out, "abc", 3) == 0, "rattle_arg", "a word that just fits");
    out[2] = 'z';
    expect(rattle_arg(2, out, 2) == -2 && memcmp(out, "abz", 3) == 0, "rattle_arg", "a word with no room");
    expect(rattle_arg(3, out, 99999) == -2 && rattle_arg(3, out, 100000) == 100000 && memcmp(out, long_word, 100000) == 0, "rattle_arg", "100 kB");
    expect(rattle_arg(4, out, 9) == -1 && rattle_arg(SIZE_MAX, out, 9) == -1, "rattle_arg", "after the last");
    expect(asked_main(10000, many) == 7 && rattle_arg(9999, out, 9) == 3 && rattle_arg(10000, out, 9) == -1, "rattle_arg", "10,000 words");
}

int main(void) {
    memory();
    errors();
    arguments();
#ifdef __x86_64__
    expect((noddychest_features(0)[6] & 1) && noddychest_features(0)[7], "noddychest_features", "SSE3");
    expect(noddychest_features(2)[6] & 1, "noddychest_features", "LAHF");
#endif
    return tell();
}

/* Lists the pieces of standard input, as the program `pieces` does: offset, length, and scalar or error. The status is 1 if
 * there is a fault, 2 for wrong arguments, and 3 if a read or a write failed or there was no memory. */
#include "noddychest.h"

#include <stdio.h>
#include <stdlib.h>

enum { ROOM = 256 };

static int fails(const char *why) {
    fprintf(stderr, "pieces: %s\n", why);
    return 3;
}

static uint8_t *read_all(size_t *len) {
    size_t room = 4096;
    uint8_t *bytes = malloc(room);
    *len = 0;
    while (bytes) {
        size_t count = fread(bytes + *len, 1, room - *len, stdin);
        *len += count;
        if (count == 0) return bytes;
        if (*len == room) {
            uint8_t *more = realloc(bytes, room *= 2);
            if (!more) free(bytes);
            bytes = more;
        }
    }
    return NULL;
}

/* Lists all pieces, and returns whether one is a fault. */
static int list(nody_bytes_t left) {
    size_t count, place = 0;
    int faults = 0;
    nody_piece_t pieces[ROOM];
    while ((count = nody_utf8_pieces(&left, pieces, ROOM)) > 0) {
        for (size_t i = 0; i < count; i++) {
            printf("%lu %lu ", (unsigned long)place, (unsigned long)pieces[i].len);
            place += pieces[i].len;
            if (pieces[i].kind == NODY_KIND_OK) {
                printf("%06lx\n", (unsigned long)pieces[i].scalar);
            } else {
                puts(nody_kind_name(pieces[i].kind));
                faults = 1;
            }
        }
    }
    return faults;
}

int main(int argc, char **argv) {
    size_t len;
    if (argc > 1) {
        fprintf(stderr, "usage: %s <FILE\n", argv[0]);
        return 2;
    }
    uint8_t *bytes = read_all(&len);
    if (!bytes) return fails("no memory");
    if (ferror(stdin)) return fails("cannot read");
    int faults = list(nody_bytes(bytes, len));
    free(bytes);
    if (fflush(stdout) != 0 || ferror(stdout)) return fails("cannot write");
    return faults;
}

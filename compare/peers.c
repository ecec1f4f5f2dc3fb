/* Reads random bytes by ICU's macros from the front and from the end, and counts the inputs on which the pieces differ.
 *
 * usage: peers COUNT */
#include <stdio.h>
#include <stdlib.h>
#include <unicode/utf8.h>
#include <unicode/uversion.h>

enum { LEN = 8 };

/* First, continuation and impossible bytes, those at the edges of their ranges among them. */
static const uint8_t edges[] = {0x41, 0x80, 0x82, 0x8f, 0x90, 0x9f, 0xa0, 0xbf, 0xc0, 0xc2, 0xdf, 0xe0, 0xe2, 0xed, 0xef, 0xf0, 0xf1, 0xf4, 0xf5, 0xff};

int main(int argc, char **argv) {
    long count = argc == 2 ? atol(argv[1]) : 0, differ = 0;
    uint64_t chance = 1;
    for (long k = 0; k < count; k++) {
        uint8_t bytes[LEN];
        int32_t starts[LEN + 1], from_back[LEN + 1], pieces = 0, back = 0, at = 0;
        UChar32 c;
        for (int i = 0; i < LEN; i++) {
            chance = chance * 6364136223846793005u + 1442695040888963407u;
            bytes[i] = edges[(chance >> 33) % sizeof edges];
        }
        while (at < LEN) {
            starts[pieces++] = at;
            U8_NEXT(bytes, at, LEN, c);
        }
        for (at = LEN; at > 0;) {
            U8_PREV(bytes, 0, at, c);
            from_back[back++] = at;
        }
        int same = pieces == back;
        for (int i = 0; same && i < pieces; i++) same = starts[i] == from_back[back - 1 - i];
        differ += !same;
    }
    printf("ICU %s: %ld inputs, %ld differ\n", U_ICU_VERSION, count, differ);
    return differ != 0;
}

/* What the program `pieces` prints of text, in C: for each character its offset, its length and its scalar in hexadecimal. The
 * digits of the offset are counted up, and all goes through one buffer. Text is decoded by utf8proc; if there is none, it
 * stops with status 2. */
#include <stdint.h>
#include <stdio.h>
#include <stdlib.h>
#include <string.h>
#include <unistd.h>
#include <utf8proc.h>

enum { BUFFER = 1 << 16, LONGEST = 64, DIGITS = 20 };

static char buffer[BUFFER + LONGEST], hexadecimal[256][2];

/* The offset in decimal digits, of which those from `first` on are written. */
static char digits[DIGITS];
static size_t first = DIGITS - 1;

static void count_up(size_t len) {
    size_t place = DIGITS - 1;
    int last = digits[place] + (int)len;
    digits[place] = (char)last;
    if (last <= '9') return;
    digits[place] = (char)(last - 10);
    while (digits[--place] == '9') digits[place] = '0';
    digits[place]++;
    if (place < first) first = place;
}

static void write_all(const char *bytes, size_t len) {
    while (len != 0) {
        ssize_t written = write(1, bytes, len);
        if (written <= 0) exit(3);
        bytes += written;
        len -= (size_t)written;
    }
}

static char *put_line(char *at, size_t len, int32_t scalar) {
    size_t count = DIGITS - first;
    memcpy(at, digits + first, count <= 8 ? 8 : DIGITS);
    at += count;
    at[0] = ' ', at[1] = (char)('0' + len), at[2] = ' ';
    memcpy(at + 3, hexadecimal[scalar >> 16], 2);
    memcpy(at + 5, hexadecimal[scalar >> 8 & 255], 2);
    memcpy(at + 7, hexadecimal[scalar & 255], 2);
    at[9] = '\n';
    return at + 10;
}

/* All of the standard input; `len` is how many bytes it has. */
static uint8_t *read_all(size_t *len) {
    size_t room = 1 << 20;
    uint8_t *bytes = malloc(room);
    for (ssize_t got; bytes != NULL && (got = read(0, bytes + *len, room - *len)) > 0;) {
        *len += (size_t)got;
        if (*len == room) bytes = realloc(bytes, room *= 2);
    }
    return bytes;
}

int main(void) {
    size_t len = 0;
    uint8_t *bytes = read_all(&len);
    char *at = buffer;
    if (bytes == NULL) return 3;
    for (int i = 0; i < 256; i++) hexadecimal[i][0] = "0123456789abcdef"[i >> 4], hexadecimal[i][1] = "0123456789abcdef"[i & 15];
    memset(digits, '0', DIGITS);
    for (size_t place = 0; place < len;) {
        int32_t scalar;
        ssize_t one = utf8proc_iterate(bytes + place, (ssize_t)(len - place), &scalar);
        if (one < 0) return 2;
        at = put_line(at, (size_t)one, scalar);
        count_up((size_t)one);
        place += (size_t)one;
        if (at >= buffer + BUFFER) write_all(buffer, (size_t)(at - buffer)), at = buffer;
    }
    write_all(buffer, (size_t)(at - buffer));
    return 0;
}

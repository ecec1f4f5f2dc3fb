/* Output in a buffer, and names as messages show them. */
#include "nody.h"

#include <stdlib.h>
#include <string.h>

enum { ROOM = 1 << 16 };

struct output err;

bool open_output(struct output *out, int file) {
    out->file = file;
    out->error = 0;
    out->len = 0;
    out->is_shown = isatty(file) > 0;
    out->room = malloc(ROOM);
    return out->room != NULL;
}

void close_output(struct output *out) {
    free(out->room);
}

/* After a call that failed, whether it can be tried again: a signal interrupted it; or somebody made the descriptor one that does not block,
 * and now it is ready. */
bool has_waited(int file, short event) {
    struct pollfd it = {file, event, 0};
    if (errno == EINTR) return true;
    if (errno != EAGAIN) return false;
    return poll(&it, 1, -1) > 0 || errno == EINTR;
}

/* Writes all bytes, or keeps the error of the first write that failed. */
static void write_all(struct output *out, const char *bytes, size_t len) {
    if (out->is_shown && len > 0) hide_progress();
    while (len > 0 && !out->error) {
        ssize_t count = write(out->file, bytes, len);
        if (count > 0) {
            bytes += count;
            len -= (size_t)count;
        } else if (count == 0 || !has_waited(out->file, POLLOUT)) {
            out->error = count == 0 ? EIO : errno;
        }
    }
}

bool flush_output(struct output *out) {
    write_all(out, out->room, out->len);
    out->len = 0;
    return out->error == 0;
}

void put(struct output *out, const void *bytes, size_t len) {
    if (len > ROOM - out->len) flush_output(out);
    if (len > ROOM) {
        write_all(out, bytes, len);
    } else {
        memcpy(out->room + out->len, bytes, len);
        out->len += len;
    }
}

void put_text(struct output *out, const char *text) {
    put(out, text, strlen(text));
}

void put_byte(struct output *out, char byte) {
    put(out, &byte, 1);
}

void put_number(struct output *out, uint64_t number) {
    char digits[20];
    size_t at = sizeof digits;
    do digits[--at] = (char)('0' + number % 10);
    while ((number /= 10) > 0);
    put(out, digits + at, sizeof digits - at);
}

/* A number with commas, as 1,203. */
void put_grouped(struct output *out, uint64_t number) {
    if (number < 1000) {
        put_number(out, number);
        return;
    }
    put_grouped(out, number / 1000);
    put_byte(out, ',');
    for (unsigned unit = 100; unit > 0; unit /= 10) put_byte(out, (char)('0' + number % 1000 / unit % 10));
}

void put_member(struct output *out, const char *before, uint64_t number) {
    put_text(out, before);
    put_number(out, number);
}

/* A number in hexadecimal, with at least `digits` digits. */
void put_hex(struct output *out, uint64_t number, int digits) {
    int more = digits;
    while (more < 16 && number >> (4 * more)) more++;
    while (more-- > 0) put_byte(out, "0123456789abcdef"[number >> (4 * more) & 15]);
}

static bool is_control(uint32_t scalar) {
    return scalar < 0x20 || (scalar >= 0x7F && scalar < 0xA0);
}

/* Whether a character can be shown on a line of its own: no control, no mark of direction, no other end of a line. */
bool is_shown(uint32_t scalar) {
    if (is_control(scalar) || scalar == 0xFEFF || scalar == 0x061C) return false;
    return !((scalar >= 0x200B && scalar <= 0x200F) || (scalar >= 0x2028 && scalar <= 0x202E) || (scalar >= 0x2060 && scalar <= 0x206F));
}

/* A text as JSON has it. Bytes of it that are not UTF-8 become U+FFFD. */
void put_json(struct output *out, const char *text) {
    nody_bytes_t left = nody_bytes((const uint8_t *)text, strlen(text));
    put_byte(out, '"');
    for (nody_piece_t piece; (piece = nody_utf8_next(&left)).kind != NODY_KIND_NONE;) {
        const char *bytes = (const char *)left.bytes - piece.len;
        if (piece.kind != NODY_KIND_OK) {
            put_text(out, "\xEF\xBF\xBD");
        } else if (is_control(piece.scalar)) {
            put_text(out, "\\u");
            put_hex(out, piece.scalar, 4);
        } else {
            if (piece.scalar == '"' || piece.scalar == '\\') put_byte(out, '\\');
            put(out, bytes, piece.len);
        }
    }
    put_byte(out, '"');
}

/* A piece of a name as messages show it: a character that can be shown, or each byte as a backslash and three octal digits. So no name
 * commands a terminal, or has the look of two lines. */
size_t show_piece(char *shown, const char *bytes, const nody_piece_t *piece) {
    if (piece->kind == NODY_KIND_OK && is_shown(piece->scalar)) {
        memcpy(shown, bytes, piece->len);
        return piece->len;
    }
    for (size_t i = 0; i < piece->len; i++) {
        unsigned byte = (unsigned char)bytes[i];
        char digits[] = {'\\', (char)('0' + (byte >> 6)), (char)('0' + (byte >> 3 & 7)), (char)('0' + (byte & 7))};
        memcpy(shown + sizeof digits * i, digits, sizeof digits);
    }
    return 4 * piece->len;
}

/* A name of a file, or another word that somebody else wrote. */
void put_name(struct output *out, const char *name) {
    char shown[SHOWN_ROOM];
    nody_bytes_t left = nody_bytes((const uint8_t *)name, strlen(name));
    for (nody_piece_t piece; (piece = nody_utf8_next(&left)).kind != NODY_KIND_NONE;)
        put(out, shown, show_piece(shown, (const char *)left.bytes - piece.len, &piece));
}

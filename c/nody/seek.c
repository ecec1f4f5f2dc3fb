/* What is looked for in a text: invalid bytes, words and bytes, and lines. What takes long can be stopped. */
#include "text.h"

#include <stdlib.h>
#include <string.h>

/* Bytes between two questions whether to stop. */
enum { PATIENCE = 1 << 26 };

/* Returns true if it is time to ask whether to stop, and `stop` returns true. */
static bool has_to_stop(uint64_t *since, size_t len, is_stopped *stop) {
    *since += len;
    if (*since < PATIENCE) return false;
    *since = 0;
    return stop();
}

/* The first invalid piece from an offset on, which is a boundary. */
int64_t next_invalid(struct text *text, uint64_t from, is_stopped *stop) {
    uint64_t since = 0;
    while (from < text->size) {
        size_t len;
        const uint8_t *bytes = bytes_of(text, from, NEAR_ROOM, &len);
        size_t end = from + len < text->size ? cut_before(text->encoding, bytes, len, len - MOST_HELD - 1) : len;
        if (len == 0) break;
        size_t at = valid_up_to(text->encoding, bytes, end);
        if (at < end) return (int64_t)(from + at);
        from += end;
        if (has_to_stop(&since, end, stop)) return STOPPED;
    }
    return NOT_FOUND;
}

/* The last invalid piece in bytes that begin and end between pieces; NOT_FOUND if there is none. */
static int64_t last_invalid(nody_encoding_t encoding, const uint8_t *bytes, size_t len) {
    int64_t last = NOT_FOUND;
    for (size_t at = 0; (at += valid_up_to(encoding, bytes + at, len - at)) < len;) {
        last = (int64_t)at;
        at += piece_at(encoding, bytes + at, len - at).len;
    }
    return last;
}

/* The last invalid piece before an offset, which is a boundary. */
int64_t previous_invalid(struct text *text, uint64_t before, is_stopped *stop) {
    uint64_t since = 0;
    while (before > 0) {
        size_t len;
        uint64_t from = boundary_of(text, before < NEAR_ROOM ? 0 : before - NEAR_ROOM + LEAD);
        const uint8_t *bytes = bytes_of(text, from, (size_t)(before - from), &len);
        int64_t last = last_invalid(text->encoding, bytes, len);
        if (last >= 0) return (int64_t)from + last;
        before = from;
        if (has_to_stop(&since, len, stop)) return STOPPED;
    }
    return NOT_FOUND;
}

static int digit_of(char letter) {
    const char *digits = "0123456789abcdef", *at = letter ? strchr(digits, letter >= 'A' && letter <= 'F' ? letter + 'a' - 'A' : letter) : NULL;
    return at ? (int)(at - digits) : -1;
}

/* Reads what was typed: text, which is looked for in the encoding of the input; or bytes, as \xE2\x82 or \xE282. Returns false if it is
 * neither. */
bool read_word(struct word_bytes *word, const char *typed, nody_encoding_t encoding) {
    size_t read, len = strlen(typed);
    word->len = 0;
    if (strncmp(typed, "\\x", 2) != 0) {
        nody_fault_t fault;
        return nody_recode_strict(NODY_UTF8, encoding, (const uint8_t *)typed, len, word->bytes, sizeof word->bytes, &read, &word->len, &fault) == NODY_STATUS_DONE && word->len > 0;
    }
    for (const char *at = typed; *at;) {
        if (strncmp(at, "\\x", 2) == 0 || *at == ' ') {
            at += *at == ' ' ? 1 : 2;
            continue;
        }
        int high = digit_of(at[0]), low = high < 0 ? -1 : digit_of(at[1]);
        if (low < 0 || word->len == sizeof word->bytes) return false;
        word->bytes[word->len++] = (uint8_t)(16 * high + low);
        at += 2;
    }
    return word->len > 0;
}

/* The first offset of a word in bytes, a multiple of the unit; NOT_FOUND if there is none. */
static int64_t find_word(const uint8_t *bytes, size_t len, const struct word_bytes *word, size_t unit) {
    for (size_t at = 0; at + word->len <= len; at++) {
        const uint8_t *first = memchr(bytes + at, word->bytes[0], len - at - word->len + 1);
        if (!first) break;
        at = (size_t)(first - bytes);
        if (at % unit == 0 && memcmp(first, word->bytes, word->len) == 0) return (int64_t)at;
    }
    return NOT_FOUND;
}

int64_t next_word(struct text *text, const struct word_bytes *word, uint64_t from, is_stopped *stop) {
    uint64_t since = 0;
    for (from += from % unit_of(text); from < text->size;) {
        size_t len;
        const uint8_t *bytes = bytes_of(text, from, NEAR_ROOM, &len);
        int64_t at = find_word(bytes, len, word, unit_of(text));
        if (at >= 0) return (int64_t)from + at;
        if (from + len >= text->size || len <= word->len) break;
        size_t step = (len - word->len + 1) & ~(size_t)1;
        from += step;
        if (has_to_stop(&since, step, stop)) return STOPPED;
    }
    return NOT_FOUND;
}

/* The offset after `lines` line feeds. */
static size_t after_lines(nody_encoding_t encoding, const uint8_t *bytes, size_t len, uint64_t lines) {
    size_t at = 0;
    while (lines > 0 && at < len) {
        nody_piece_t piece = piece_at(encoding, bytes + at, len - at);
        at += piece.len;
        lines -= piece.kind == NODY_KIND_OK && piece.scalar == '\n';
    }
    return at;
}

/* The front of a line, counted from a known one. */
int64_t offset_of_line(struct text *text, struct known *known, uint64_t line, is_stopped *stop) {
    uint64_t since = 0;
    if (line < known->line) known->offset = known->line = 0;
    while (known->line < line) {
        size_t len;
        const uint8_t *bytes = bytes_of(text, known->offset, NEAR_ROOM, &len);
        if (len > 1) len -= len % 2;
        uint64_t lines = count_line_feeds(text->encoding, bytes, len);
        if (len == 0) return NOT_FOUND;
        if (known->line + lines >= line) len = after_lines(text->encoding, bytes, len, line - known->line);
        known->line += known->line + lines >= line ? line - known->line : lines;
        known->offset += len;
        if (has_to_stop(&since, len, stop)) return STOPPED;
    }
    return (int64_t)known->offset;
}

/* Counts lines from what is known to an offset, at most `most` bytes in one call. Returns true once it is there. */
bool count_to(struct text *text, struct known *known, uint64_t offset, uint64_t most) {
    if (offset < known->offset && known->offset - offset > offset) known->offset = known->line = 0;
    while (known->offset != offset && most > 0) {
        bool is_back = offset < known->offset;
        uint64_t left = is_back ? known->offset - offset : offset - known->offset;
        size_t len = left < NEAR_ROOM ? (size_t)left : NEAR_ROOM, got;
        const uint8_t *bytes = bytes_of(text, is_back ? known->offset - len : known->offset, len, &got);
        if (got < len) break;
        uint64_t lines = count_line_feeds(text->encoding, bytes, len);
        known->line = is_back ? known->line - lines : known->line + lines;
        known->offset = is_back ? known->offset - len : known->offset + len;
        most -= len < most ? len : most;
    }
    return known->offset == offset;
}

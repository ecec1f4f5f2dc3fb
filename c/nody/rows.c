/* Rows of a text on a screen: from any offset, forward and backward, whatever the length of the lines. */
#include "text.h"

#include <string.h>

enum { TAB = 8 };

bool is_line_feed(const nody_piece_t *piece) {
    return piece->kind == NODY_KIND_OK && piece->scalar == '\n';
}

/* How many cells a piece takes at a column: an invalid byte two, as its digits; a control two, as ^[; another character that cannot be shown
 * as many as <U+202E>. */
size_t cells_of(const nody_piece_t *piece, size_t column) {
    if (piece->kind != NODY_KIND_OK) return 2 * piece->len;
    if (piece->scalar == '\n') return 0;
    if (piece->scalar == '\t') return TAB - column % TAB;
    if (piece->scalar < 0x20 || piece->scalar == 0x7F) return 2;
    if (!is_shown(piece->scalar)) return piece->scalar > 0xFFFF ? 9 : 8;
    return width_of(piece->scalar);
}

/* The end of the last line feed in some bytes, or 0. */
static size_t after_line_feed(const struct text *text, const uint8_t *bytes, size_t len) {
    size_t unit = unit_of(text), low = text->encoding == NODY_UTF16BE;
    if (unit == 1)
        while (len > 0 && bytes[len - 1] != '\n') len--;
    else
        for (len -= len % 2; len > 0 && !(bytes[len - 2 + low] == '\n' && bytes[len - 1 - low] == 0);) len -= 2;
    return len;
}

/* Returns true if a long line is cut at an offset, a multiple of CUT: there is no line feed so far before it. */
static bool is_cut_at(struct text *text, uint64_t cut) {
    size_t len;
    if (cut < FAR) return false;
    const uint8_t *bytes = bytes_of(text, cut - FAR, FAR, &len);
    return after_line_feed(text, bytes, len) == 0;
}

/* The front of the line that covers an offset, or the last cut of a long line before. */
static uint64_t part_of(struct text *text, uint64_t offset) {
    size_t len, back = offset < FAR + CUT ? (size_t)offset : FAR + CUT;
    const uint8_t *bytes = bytes_of(text, offset - back, back, &len);
    size_t after = after_line_feed(text, bytes, len);
    bool has_front = after > 0 || back == offset;
    uint64_t front = offset - back + after, cut = offset & ~(uint64_t)(CUT - 1);
    if (has_front && (cut < FAR || cut - FAR < front)) return front;
    uint64_t part = boundary_of(text, cut);
    return part <= offset ? part : boundary_of(text, cut - CUT);
}

/* The end of the row that begins there: after a line feed, at a cut, or when the cells are full. */
static uint64_t end_of_row(struct text *text, const struct rows *rows, uint64_t row) {
    uint64_t cut = (row & ~(uint64_t)(CUT - 1)) + CUT, at = row;
    for (size_t column = 0; at < text->size;) {
        nody_piece_t piece = piece_of(text, at);
        size_t cells = piece.kind == NODY_KIND_NONE ? 0 : cells_of(&piece, column);
        if (piece.kind == NODY_KIND_NONE) break;
        if (cells > rows->width - column && at > row) break;
        at += piece.len;
        if (is_line_feed(&piece)) break;
        if (at >= cut && at - piece.len <= cut) {
            uint64_t part = is_cut_at(text, cut) ? boundary_of(text, cut) : 0;
            if (part > row && part <= at) return part;
        }
        if (at > cut) cut += CUT;
        column += cells < rows->width ? cells : rows->width;
        if (column > rows->width) column = rows->width;
    }
    return at;
}

/* The row after one; the end of the text after the last. */
uint64_t next_row(struct text *text, struct rows *rows, uint64_t row) {
    if (rows->per_row == 0) return end_of_row(text, rows, row);
    return row + rows->per_row < text->size ? row + rows->per_row : text->size;
}

/* Finds the rows of the part of a line that covers an offset. */
static void find_rows(struct text *text, struct rows *rows, uint64_t offset) {
    const size_t most = sizeof rows->starts / sizeof *rows->starts;
    uint64_t row = rows->begin = part_of(text, offset);
    for (rows->count = 0; rows->count < most && row <= offset && row < text->size;) {
        rows->starts[rows->count++] = row;
        row = end_of_row(text, rows, row);
    }
    rows->end = row;
}

/* The row that covers an offset. That of the end is the last one, unless a line feed ends it. */
uint64_t row_of(struct text *text, struct rows *rows, uint64_t offset) {
    if (rows->per_row) return offset < text->size || text->size == 0 ? offset - offset % rows->per_row : (text->size - 1) / rows->per_row * rows->per_row;
    if (text->size == 0) return 0;
    if (offset >= text->size) offset = text->size - 1;
    if (rows->count == 0 || offset < rows->begin || offset >= rows->end) find_rows(text, rows, offset);
    size_t low = 0, high = rows->count;
    while (high - low > 1) {
        size_t middle = (low + high) / 2;
        if (rows->starts[middle] <= offset) low = middle;
        else high = middle;
    }
    return rows->starts[low];
}

/* Goes `count` rows backward. */
uint64_t back_rows(struct text *text, struct rows *rows, uint64_t row, size_t count) {
    while (count-- > 0 && row > 0) row = row_of(text, rows, row - 1);
    return row;
}

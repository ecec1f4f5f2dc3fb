/* Where a block may be cut, and the pieces of a block: in UTF-8, and in UTF-16 of both byte orders.
 *
  * All that knows how pieces are found is in this file, over the calls of noddychest.h. */
#include "nody.h"

static uint16_t unit_at(nody_encoding_t encoding, const uint8_t *bytes) {
    unsigned low = encoding == NODY_UTF16LE ? bytes[0] : bytes[1], high = encoding == NODY_UTF16LE ? bytes[1] : bytes[0];
    return (uint16_t)(high << 8 | low);
}

static bool is_leading(uint16_t unit) {
    return (unit & 0xFC00) == 0xD800;
}

/* How many bytes at the end, at most three, are pieces that later bytes may change: incomplete characters, and invalid bytes whose kind
 * depends on what follows. (nody_undecided_len returns 0 for F0 41, since a decoder names F0 without waiting; for nody_utf8_first it has
 * another kind at the end of the input, and this program prints the kinds of the latter) */
size_t undecided_len(nody_encoding_t encoding, const uint8_t *bytes, size_t len) {
    if (encoding != NODY_UTF8) return nody_undecided_len(encoding, bytes, len);
    for (size_t left = len < MOST_HELD ? len : MOST_HELD; left > 0; left--)
        if (nody_utf8_first(bytes + len - left, left).kind == NODY_KIND_TOO_FEW_BYTES) return left;
    return 0;
}

/* The last offset up to `at` at which a block may be cut, at most three bytes before: not inside a piece or a maximal subpart. It depends
 * only on these bytes, whatever lies before and after them. */
size_t cut_before(nody_encoding_t encoding, const uint8_t *bytes, size_t len, size_t at) {
    if (at >= len) return len;
    if (encoding != NODY_UTF8) return at >= 2 && is_leading(unit_at(encoding, bytes + at - 2)) ? at - 2 : at;
    for (size_t back = 0; back <= MOST_HELD && back <= at; back++)
        if ((bytes[at - back] & 0xC0) != 0x80) return at - back;
    return at;
}

/* The first piece, with its length in bytes in each encoding. */
nody_piece_t piece_at(nody_encoding_t encoding, const uint8_t *bytes, size_t len) {
    uint16_t units[2];
    if (encoding == NODY_UTF8) return nody_utf8_first(bytes, len);
    nody_piece_t piece = {len, 0, len ? NODY_KIND_INCOMPLETE : NODY_KIND_NONE};
    if (len < 2) return piece;
    units[0] = unit_at(encoding, bytes);
    units[1] = len < 4 ? 0 : unit_at(encoding, bytes + 2);
    piece = nody_utf16_first(units, len < 4 ? 1 : 2);
    piece.len *= 2;
    return piece;
}

size_t valid_up_to(nody_encoding_t encoding, const uint8_t *bytes, size_t len) {
    return encoding == NODY_UTF8 ? nody_utf8_valid_up_to(bytes, len) : nody_utf16_bytes_valid_up_to(encoding, bytes, len);
}

uint64_t count_line_feeds(nody_encoding_t encoding, const uint8_t *bytes, size_t len) {
    nody_position_t at = nody_position();
    nody_position_advance(&at, encoding, bytes, len);
    return at.line - 1;
}

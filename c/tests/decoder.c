/* Holds the decoder for input in parts against one written here, and against nody_utf8_pieces of the whole: each division of small
 * inputs with each room, and random inputs in parts and rooms of many lengths; all pieces, only the faults, and both in turn. Positions
 * are held against the pieces of all that was passed, counted from the front. The last line is 'N passed, M failed'.
 *
 * usage: decoder ROUNDS */
#include "noddychest.h"

#include <stdio.h>
#include <stdlib.h>
#include <string.h>

static long passed, failed;

static void expect(int holds, const char *what, unsigned long number) {
    if (holds) {
        passed++;
        return;
    }
    failed++;
    if (failed < 20) printf("FAILED: %s (%lu)\n", what, number);
}

/* ---- A decoder of its own: a merger, which names a byte that breaks a character as soon as it sees it ---- */

static unsigned asked(uint8_t byte) {
    return byte < 0x80 ? 1 : byte < 0xc2 ? 0 : byte < 0xe0 ? 2 : byte < 0xf0 ? 3 : byte < 0xf5 ? 4 : 0;
}

static nody_located_t fault(nody_kind_t kind, size_t len) {
    nody_located_t piece;
    memset(&piece, 0, sizeof piece);
    piece.kind = kind;
    piece.len = (uint8_t)len;
    return piece;
}

static nody_located_t character(uint32_t scalar, size_t len) {
    nody_located_t piece = fault(NODY_KIND_OK, len);
    piece.scalar = scalar;
    return piece;
}

static nody_located_t first_of_utf8(const uint8_t *bytes, size_t len) {
    static const uint32_t least[] = {0, 0, 0x80, 0x800, 0x10000};
    unsigned needs = asked(bytes[0]), k;
    uint32_t value;
    if (needs == 1) return character(bytes[0], 1);
    if (bytes[0] >= 0x80 && bytes[0] < 0xc0) return fault(NODY_KIND_UNEXPECTED_CONTINUATION_BYTE, 1);
    if (needs == 0) return fault(NODY_KIND_NON_UTF8_BYTE, 1);
    value = bytes[0] & (0xffu >> (needs + 1));
    for (k = 1; k < needs; k++) {
        if (k == len) return fault(NODY_KIND_TOO_FEW_BYTES, 1);
        if ((bytes[k] & 0xc0) != 0x80) return fault(NODY_KIND_INTERRUPTED_SEQUENCE, 1);
        value = value << 6 | (bytes[k] & 0x3f);
    }
    if (value < least[needs]) return fault(NODY_KIND_OVERLONG_ENCODING, 1);
    if (value >= 0xd800 && value < 0xe000) return fault(NODY_KIND_UTF16_RESERVED_CODEPOINT, 1);
    if (value > 0x10ffff) return fault(NODY_KIND_TOO_HIGH_CODEPOINT, 1);
    return character(value, needs);
}

static uint32_t unit_at(nody_encoding_t encoding, const uint8_t *bytes) {
    return encoding == NODY_UTF16BE ? (uint32_t)bytes[0] << 8 | bytes[1] : (uint32_t)bytes[1] << 8 | bytes[0];
}

static nody_located_t first_of_utf16(nody_encoding_t encoding, const uint8_t *bytes, size_t len) {
    uint32_t first, second;
    if (len < 2) return fault(NODY_KIND_INCOMPLETE, 1);
    first = unit_at(encoding, bytes);
    if (first < 0xd800 || first >= 0xe000) return character(first, 2);
    if (first >= 0xdc00) return fault(NODY_KIND_UNEXPECTED_TRAILING_SURROGATE, 2);
    if (len < 4) return fault(NODY_KIND_INCOMPLETE, 2);
    second = unit_at(encoding, bytes + 2);
    if (second < 0xdc00 || second >= 0xe000) return fault(NODY_KIND_UNMATCHED_LEADING_SURROGATE, 2);
    return character(0x10000 + ((first & 0x3ff) << 10) + (second & 0x3ff), 4);
}

/* All pieces of some bytes, from an offset on, and how many. */
static size_t located(nody_encoding_t encoding, uint64_t offset, const uint8_t *bytes, size_t len, nody_located_t *out) {
    size_t place = 0, count = 0;
    while (place < len) {
        out[count] = encoding == NODY_UTF8 ? first_of_utf8(bytes + place, len - place) : first_of_utf16(encoding, bytes + place, len - place);
        out[count].offset = offset + place;
        place += out[count++].len;
    }
    return count;
}

static int is_same(const nody_located_t *a, const nody_located_t *b, size_t count) {
    size_t k;
    for (k = 0; k < count; k++)
        if (a[k].offset != b[k].offset || a[k].scalar != b[k].scalar || a[k].len != b[k].len || a[k].kind != b[k].kind) return 0;
    return 1;
}

/* ---- What the library gives, however it is asked ---- */

enum { MOST = 4096 };

static nody_located_t want[MOST + 8], is[MOST + 8], room_of[MOST + 8];

/* Which pieces a call is asked for. */
enum asks { PIECES, FAULTS, IN_TURN };

/* How many pieces came so far, and whether all calls kept their promises. Where calls for all pieces and for faults come in turn, the
 * characters of the first are left out here. */
struct run {
    nody_decoder_t decoder;
    enum asks asks;
    unsigned long calls;
    size_t count;
    int kept;
};

static const nody_located_t MARK = {77, 77, 77, 77};

/* Whether the next call asks only for faults. */
static int asks_for_faults(struct run *run) {
    return run->asks == FAULTS || (run->asks == IN_TURN && ++run->calls % 2);
}

static void take(struct run *run, size_t written) {
    size_t k;
    for (k = 0; k < written; k++)
        if (run->asks == PIECES || room_of[k].kind != NODY_KIND_OK) is[run->count++] = room_of[k];
}

/* Feeds a part, with so much room for each call. */
static void feed(struct run *run, const uint8_t *part, size_t len, size_t room) {
    size_t place = 0, read, written, k;
    nody_status_t status;
    do {
        const uint8_t *rest = part ? part + place : part;
        int faults = asks_for_faults(run);
        for (k = 0; k < room + 2; k++) room_of[k] = MARK;
        status = (faults ? nody_decoder_feed_faults : nody_decoder_feed)(&run->decoder, rest, len - place, room_of, room, &read, &written);
        for (k = 0; k < written; k++)
            if (faults && room_of[k].kind == NODY_KIND_OK) run->kept = 0;
        if (status > NODY_STATUS_FULL || read > len - place || written > room || (status == NODY_STATUS_DONE && read != len - place) ||
            (status == NODY_STATUS_FULL && written != room) || run->decoder.count > 3 || !is_same(room_of + written, &MARK, 1) ||
            !is_same(room_of + room, &MARK, 1)) {
            run->kept = 0;
            return;
        }
        take(run, written);
        place += read;
    } while (status == NODY_STATUS_FULL);
}

static void finish(struct run *run, size_t room) {
    size_t written;
    nody_status_t status;
    do {
        status = (asks_for_faults(run) ? nody_decoder_finish_faults : nody_decoder_finish)(&run->decoder, room_of, room, &written);
        if (status > NODY_STATUS_FULL || written > room || (status == NODY_STATUS_FULL && written != room)) {
            run->kept = 0;
            return;
        }
        take(run, written);
    } while (status == NODY_STATUS_FULL);
    if (run->decoder.count) run->kept = 0;
}

static struct run started(nody_encoding_t encoding, uint64_t offset, enum asks asks) {
    struct run run;
    memset(&run, 0, sizeof run);
    run.decoder = nody_decoder(encoding);
    run.decoder.offset = offset;
    run.asks = asks;
    run.kept = 1;
    return run;
}

/* Whether what is held is the shortest end of what was fed that is not decided: some byte that may follow changes its first piece. */
static int holds_shortest(const struct run *run, nody_encoding_t encoding) {
    uint8_t bytes[8];
    nody_located_t alone[8], followed[8];
    int a, b;
    size_t held = run->decoder.count;
    if (!held) return 1;
    memcpy(bytes, run->decoder.held, held);
    located(encoding, 0, bytes, held, alone);
    for (a = 0; a < 256; a++)
        for (b = 0; b < 256; b += 85) {
            bytes[held] = (uint8_t)a;
            bytes[held + 1] = (uint8_t)b;
            located(encoding, 0, bytes, held + 2, followed);
            if (!is_same(alone, followed, 1)) return 1;
        }
    return 0;
}

/* The pieces that a run was asked for, of those that are wanted. */
static size_t asked_of(enum asks asks, size_t count) {
    size_t k, left = 0;
    for (k = 0; k < count; k++)
        if (asks == PIECES || want[k].kind != NODY_KIND_OK) want[left++] = want[k];
    return left;
}

static void check_done(struct run *run, nody_encoding_t encoding, uint64_t offset, const uint8_t *bytes, size_t len, const char *what, unsigned long number) {
    size_t count = asked_of(run->asks, located(encoding, offset, bytes, len, want));
    expect(run->kept && run->count == count && is_same(is, want, count) && run->decoder.offset == offset + len, what, number);
}

/* Each division of an input into three parts, with each room. */
static void check_divisions(nody_encoding_t encoding, const uint8_t *bytes, size_t len, enum asks asks, unsigned long number) {
    size_t i, j, room;
    for (i = 0; i <= len; i++)
        for (j = i; j <= len; j++)
            for (room = 1; room <= len + 1; room++) {
                struct run run = started(encoding, 0, asks);
                feed(&run, bytes, i, room);
                expect(holds_shortest(&run, encoding), "what is held is not decided", number);
                expect(nody_undecided_len(encoding, bytes, i) == run.decoder.count, "as many bytes are undecided", number);
                feed(&run, bytes + i, j - i, room);
                feed(&run, bytes + j, len - j, room);
                finish(&run, room);
                check_done(&run, encoding, 0, bytes, len, "three parts", number);
            }
}

/* Whether the position is the one after these bytes, counted piece by piece. */
static int is_after(nody_encoding_t encoding, const uint8_t *bytes, size_t len, const nody_position_t *at) {
    uint64_t line = 1, column = 1, byte_column = 1;
    size_t count = located(encoding, 0, bytes, len, want), k;
    for (k = 0; k < count; k++) {
        int ends_line = want[k].kind == NODY_KIND_OK && want[k].scalar == 0x0a;
        line += ends_line ? 1 : 0;
        column = ends_line ? 1 : column + 1;
        byte_column = ends_line ? 1 : byte_column + want[k].len;
    }
    return at->line == line && at->column == column && at->byte_column == byte_column && at->count <= 3;
}

/* Each division of an input into three parts. The middle of the first part, and an empty one, are passed too. */
static void check_positions(nody_encoding_t encoding, const uint8_t *bytes, size_t len, unsigned long number) {
    size_t i, j;
    for (i = 0; i <= len; i++)
        for (j = i; j <= len; j++) {
            nody_position_t at = nody_position();
            int is_right = nody_position_advance(&at, encoding, bytes, i) == NODY_STATUS_DONE && is_after(encoding, bytes, i, &at);
            is_right &= nody_position_advance(&at, encoding, bytes + i, j - i) == NODY_STATUS_DONE && is_after(encoding, bytes, j, &at);
            is_right &= nody_position_advance(&at, encoding, NULL, 0) == NODY_STATUS_DONE && is_after(encoding, bytes, j, &at);
            is_right &= nody_position_advance(&at, encoding, bytes + j, len - j) == NODY_STATUS_DONE && is_after(encoding, bytes, len, &at);
            expect(is_right, "the position after three parts", number);
        }
}

static uint64_t state = 20261127;

static uint32_t any(uint32_t below) {
    state = state * 6364136223846793005u + 1442695040888963407u;
    return (uint32_t)(state >> 33) % below;
}

/* Bytes that are text for the most part, so damaged, or anything. */
static size_t make_bytes(uint8_t *out, size_t len, nody_encoding_t encoding) {
    static const uint32_t FIRST[] = {0x20, 0xa0, 0x400, 0x4e00, 0x1f600};
    size_t place = 0;
    uint32_t kind = any(6), damage = any(3);
    while (place + 4 <= len) {
        uint32_t scalar = any(30) ? FIRST[kind < 5 ? (any(4) ? kind : any(5)) : any(5)] + any(60) : '\n';
        uint16_t units[2];
        size_t count, k;
        if (encoding == NODY_UTF8) place += nody_utf8_encode(scalar, out + place, 4);
        else {
            count = nody_utf16_encode(scalar, units, 2);
            for (k = 0; k < count; k++) {
                out[place++] = (uint8_t)(encoding == NODY_UTF16BE ? units[k] >> 8 : units[k]);
                out[place++] = (uint8_t)(encoding == NODY_UTF16BE ? units[k] : units[k] >> 8);
            }
        }
        if (damage == 1 && !any(20)) place -= place ? 1 : 0;
        if (damage == 2 && !any(3)) out[place++] = (uint8_t)any(256);
    }
    return place;
}

static void check_random(unsigned long rounds) {
    static uint8_t bytes[MOST];
    unsigned long round;
    for (round = 0; round < rounds; round++) {
        nody_encoding_t encoding = (nody_encoding_t)any(3);
        size_t len = make_bytes(bytes, any(4) ? any(300) : any(MOST - 8), encoding), place = 0, most = 1 + any(100), room = 1 + any(any(2) ? 8 : 400);
        uint64_t offset = any(3) ? 0 : (any(2) ? UINT64_MAX : (uint64_t)1 << 32) - any(200);
        struct run run = started(encoding, offset, (enum asks)any(3));
        nody_position_t at = nody_position();
        int is_right = 1;
        while (place < len) {
            size_t part = 1 + any((uint32_t)most);
            if (part > len - place) part = len - place;
            feed(&run, bytes + place, part, room);
            is_right &= nody_position_advance(&at, encoding, bytes + place, part) == NODY_STATUS_DONE;
            place += part;
            if (!any(5)) is_right &= is_after(encoding, bytes, place, &at);
            expect(nody_undecided_len(encoding, bytes, place) == run.decoder.count, "as many bytes are undecided as are held", round);
        }
        finish(&run, room);
        expect(is_right && is_after(encoding, bytes, len, &at), "the position after random parts", round);
        check_done(&run, encoding, offset, bytes, len, "random parts", round);
    }
}

/* The pieces are those of nody_utf8_pieces of the whole, but for the one kind at the end. */
static void check_slices(unsigned long rounds) {
    static uint8_t bytes[MOST];
    static nody_piece_t pieces[MOST];
    unsigned long round;
    for (round = 0; round < rounds; round++) {
        size_t len = make_bytes(bytes, any(600), NODY_UTF8), k, count, other = 0, place = 0;
        nody_bytes_t left = nody_bytes(bytes, len);
        struct run run = started(NODY_UTF8, 0, PIECES);
        feed(&run, bytes, len, MOST);
        finish(&run, 3);
        count = nody_utf8_pieces(&left, pieces, MOST);
        for (k = 0; k < count && k < run.count; k++) {
            int same = pieces[k].kind == is[k].kind;
            if (!same && !(pieces[k].kind == NODY_KIND_TOO_FEW_BYTES && is[k].kind == NODY_KIND_INTERRUPTED_SEQUENCE && len - place < 4)) other++;
            if (pieces[k].len != is[k].len || pieces[k].scalar != is[k].scalar || is[k].offset != place) other++;
            place += pieces[k].len;
        }
        expect(run.kept && count == run.count && !other, "the pieces of the whole", round);
    }
}

/* Long text with a fault here and there, most of which is scanned by SIMD, in parts and output buffers of many lengths. A piece that does
 * not fit in the buffer is reported once, and then read. */
static void check_long(unsigned long rounds) {
    enum { LONG = 1 << 16 };
    static uint8_t bytes[LONG];
    unsigned long round;
    for (round = 0; round < rounds; round++) {
        nody_encoding_t encoding = (nody_encoding_t)(round % 3);
        size_t len = 0, count = 0, found = 0, part, place, read, written;
        static size_t places[LONG];
        nody_decoder_t decoder = nody_decoder(encoding);
        nody_status_t status;
        int is_right = 1;
        while (len + 8 < LONG) {
            size_t step = len + any(3000), rest = LONG - 8 - len;
            while (len < step && len + 8 < LONG) {
                uint16_t units[2];
                uint32_t scalar = round % 2 ? 0x20 + any(60) : 0x1f600 - any(0x1f000 - 0xe000);
                size_t k, all = nody_utf16_encode(scalar, units, 2);
                if (encoding == NODY_UTF8) len += nody_utf8_encode(scalar, bytes + len, 4);
                for (k = 0; encoding != NODY_UTF8 && k < all; k++) {
                    bytes[len++] = (uint8_t)(encoding == NODY_UTF16BE ? units[k] >> 8 : units[k]);
                    bytes[len++] = (uint8_t)(encoding == NODY_UTF16BE ? units[k] : units[k] >> 8);
                }
            }
            if (rest < 3000) break;
            places[count++] = len;
            bytes[len++] = encoding == NODY_UTF16LE ? 0 : encoding == NODY_UTF16BE ? 0xdc : 0xff;
            if (encoding != NODY_UTF8) bytes[len++] = encoding == NODY_UTF16LE ? 0xdc : 0;
        }
        decoder.offset = ((uint64_t)1 << 32) - 100;
        for (place = 0; place < len; place += part) {
            size_t at = 0;
            part = 1 + any(9000);
            if (part > len - place) part = len - place;
            do {
                size_t room = any(3), k;
                status = nody_decoder_feed_faults(&decoder, bytes + place + at, part - at, room_of, room, &read, &written);
                for (k = 0; k < written; k++)
                    is_right &= found < count && room_of[k].offset == ((uint64_t)1 << 32) - 100 + places[found++] && room_of[k].kind != NODY_KIND_OK;
                at += read;
                if (status == NODY_STATUS_FULL) is_right &= decoder.offset == ((uint64_t)1 << 32) - 100 + places[found] && written == room;
            } while (status == NODY_STATUS_FULL);
            is_right &= at == part;
        }
        is_right &= nody_decoder_finish_faults(&decoder, room_of, 3, &written) == NODY_STATUS_DONE && !written && found == count;
        expect(is_right && decoder.offset == ((uint64_t)1 << 32) - 100 + len, "faults of long text", round);
    }
}

/* Where the caller changed what is held, the end has characters: faults alone leave them out. */
static void check_ends(void) {
    nody_decoder_t decoder = nody_decoder(NODY_UTF8), copy;
    nody_located_t room[3];
    size_t read = 5, written = 5;
    decoder.count = 3;
    memcpy(decoder.held, "a\xff" "b", 3);
    copy = decoder;
    expect(nody_decoder_finish_faults(&decoder, room, 1, &written) == NODY_STATUS_DONE && written == 1 && room[0].offset == 1 && decoder.offset == 3,
           "the fault of what is held", 0);
    expect(nody_decoder_finish_faults(&copy, room, 0, &written) == NODY_STATUS_FULL && !written && copy.offset == 1 && copy.count == 2,
           "the fault of what is held has no place", 0);
    decoder = nody_decoder((nody_encoding_t)3);
    room[0] = MARK;
    expect(nody_decoder_feed_faults(&decoder, (const uint8_t *)"\xff", 1, room, 3, &read, &written) == NODY_STATUS_REFUSED && !read && !written &&
               is_same(room, &MARK, 1), "faults of no encoding", 0);
    written = 5;
    expect(nody_decoder_finish_faults(&decoder, room, 3, &written) == NODY_STATUS_REFUSED && !written, "faults of no encoding at the end", 0);
    decoder = nody_decoder(NODY_UTF8);
    decoder.count = 4;
    expect(nody_decoder_feed_faults(&decoder, (const uint8_t *)"a", 1, room, 3, &read, &written) == NODY_STATUS_REFUSED, "faults where four bytes are held", 0);
    decoder = nody_decoder(NODY_UTF8);
    expect(nody_decoder_feed_faults(&decoder, NULL, 0, NULL, 0, &read, &written) == NODY_STATUS_DONE && !read && !written, "faults of nothing", 0);
    expect(nody_decoder_feed_faults(&decoder, (const uint8_t *)"\xe2\x82", 2, NULL, 0, &read, &written) == NODY_STATUS_DONE && read == 2 && decoder.count == 2,
           "held without room for faults", 0);
    expect(nody_decoder_feed_faults(&decoder, (const uint8_t *)"\xac", 1, NULL, 0, &read, &written) == NODY_STATUS_DONE && read == 1 && decoder.offset == 3,
           "a character takes no room", 0);
    expect(nody_decoder_finish_faults(&decoder, NULL, 0, &written) == NODY_STATUS_DONE && !written, "no fault at the end", 0);
}

/* Lines as long as no count of eight bits is, and what is refused. */
static void check_position_edges(void) {
    enum { LONG = 200000 };
    static uint8_t bytes[LONG];
    nody_position_t at = nody_position(), refused = at;
    size_t k;
    memset(bytes, '\n', LONG);
    expect(nody_position_advance(&at, NODY_UTF8, bytes, LONG) == NODY_STATUS_DONE && at.line == LONG + 1 && at.column == 1 && at.byte_column == 1, "line feeds", 0);
    for (k = 0; k < LONG; k += 2) bytes[k] = 0;
    at = nody_position();
    expect(nody_position_advance(&at, NODY_UTF16BE, bytes, LONG - 1) == NODY_STATUS_DONE && at.line == LONG / 2 && at.column == 2 && at.byte_column == 2, "line feeds of UTF-16", 0);
    expect(nody_position_advance(&at, NODY_UTF16BE, bytes + LONG - 1, 1) == NODY_STATUS_DONE && at.line == LONG / 2 + 1 && at.column == 1, "the last of them", 0);
    at = nody_position();
    expect(nody_position_advance(&at, NODY_UTF16LE, bytes, LONG) == NODY_STATUS_DONE && at.line == 1 && at.column == LONG / 2 + 1 && at.byte_column == LONG + 1, "units 0A00", 0);
    expect(nody_position_advance(&refused, (nody_encoding_t)3, bytes, LONG) == NODY_STATUS_REFUSED && refused.line == 1 && refused.column == 1, "no encoding of a position", 0);
    refused.count = 4;
    expect(nody_position_advance(&refused, NODY_UTF8, bytes, LONG) == NODY_STATUS_REFUSED && refused.line == 1 && refused.count == 4, "a position that holds four bytes", 0);
    at.line = at.column = at.byte_column = UINT64_MAX;
    at.count = 0;
    expect(nody_position_advance(&at, NODY_UTF8, (const uint8_t *)"ab", 2) == NODY_STATUS_DONE && at.line == UINT64_MAX && at.column == 1 && at.byte_column == 1, "columns modulo 2^64", 0);
    expect(nody_position_advance(&at, NODY_UTF8, (const uint8_t *)"\n", 1) == NODY_STATUS_DONE && at.line == 0 && at.column == 1, "lines modulo 2^64", 0);
    expect(sizeof at == 32, "the size of a position", 0);
}

static void check_edges(void) {
    nody_decoder_t decoder = nody_decoder((nody_encoding_t)3), copy;
    nody_located_t room[4] = {{77, 77, 77, 77}, {77, 77, 77, 77}, {77, 77, 77, 77}, {77, 77, 77, 77}};
    size_t read = 5, written = 5;
    expect(sizeof decoder <= 32 && sizeof *room == 16, "sizes", 0);
    expect(nody_decoder_feed(&decoder, (const uint8_t *)"a", 1, room, 4, &read, &written) == NODY_STATUS_REFUSED && !read && !written, "no encoding", 0);
    written = 5;
    expect(nody_decoder_finish(&decoder, room, 4, &written) == NODY_STATUS_REFUSED && !written && is_same(room, &MARK, 1), "no encoding at the end", 0);
    decoder = nody_decoder(NODY_UTF8);
    decoder.count = 4;
    expect(nody_decoder_feed(&decoder, (const uint8_t *)"a", 1, room, 4, &read, &written) == NODY_STATUS_REFUSED, "four bytes held", 0);
    decoder = nody_decoder(NODY_UTF8);
    expect(nody_decoder_feed(&decoder, NULL, 0, NULL, 0, &read, &written) == NODY_STATUS_DONE && !read && !written, "nothing", 0);
    expect(nody_decoder_finish(&decoder, NULL, 0, &written) == NODY_STATUS_DONE && !written, "nothing at the end", 0);
    expect(nody_decoder_feed(&decoder, (const uint8_t *)"\xe2\x82", 2, NULL, 0, &read, &written) == NODY_STATUS_DONE && read == 2, "held without room", 0);
    copy = decoder;
    expect(nody_decoder_feed(&decoder, (const uint8_t *)"\xac", 1, NULL, 0, &read, &written) == NODY_STATUS_FULL && !read, "full without room", 0);
    expect(nody_decoder_feed(&decoder, (const uint8_t *)"\xac", 1, room, 1, &read, &written) == NODY_STATUS_DONE && read == 1 && written == 1 &&
               room[0].scalar == 0x20ac && room[0].offset == 0 && room[0].len == 3, "a character in two parts", 0);
    expect(nody_decoder_finish(&copy, room, 4, &written) == NODY_STATUS_DONE && written == 2 && room[0].kind == NODY_KIND_TOO_FEW_BYTES &&
               room[1].kind == NODY_KIND_UNEXPECTED_CONTINUATION_BYTE && room[1].offset == 1, "a copy goes on by itself", 0);
    decoder = nody_decoder(NODY_UTF8);
    nody_decoder_feed(&decoder, (const uint8_t *)"\xf0\x41", 2, room, 4, &read, &written);
    expect(written == 2 && room[0].kind == NODY_KIND_INTERRUPTED_SEQUENCE && room[1].scalar == 0x41, "the one kind that differs", 0);
}

int main(int count, char **words) {
    static const uint8_t BYTES[] = {0x41, 0x80, 0xa0, 0xc3, 0xe0, 0xe2, 0xed, 0xf0, 0xf4, 0xff, 0xd8, 0xdc, 0x00};
    static const uint8_t LINES[] = {0x0a, 0x00, 0xd8, 0xdc, 0xf0, 0x9f, 0x41};
    unsigned long rounds = count > 1 ? strtoul(words[1], NULL, 10) : 1000, number;
    uint8_t bytes[4];
    size_t k;
    check_edges();
    for (number = 0; number < 13ul * 13 * 13 * 13; number += 1 + (rounds < 1000)) {
        unsigned long rest = number;
        for (k = 0; k < 4; k++, rest /= 13) bytes[k] = BYTES[rest % 13];
        check_divisions((nody_encoding_t)(number % 3), bytes, 4, PIECES, number);
        check_divisions((nody_encoding_t)(number % 3), bytes, 4, number % 2 ? FAULTS : IN_TURN, number);
    }
    for (number = 0; number < 7ul * 7 * 7 * 7 * 7 * 7; number += 1 + 4 * (rounds < 1000)) {
        unsigned long rest = number;
        uint8_t lines[6];
        for (k = 0; k < 6; k++, rest /= 7) lines[k] = LINES[rest % 7];
        check_positions((nody_encoding_t)(number % 3), lines, 6, number);
    }
    check_position_edges();
    check_ends();
    check_random(rounds);
    check_long(rounds < 60 ? rounds : 60 + rounds / 100);
    check_slices(rounds);
    printf("%ld passed, %ld failed\n", passed, failed);
    return failed != 0;
}

/* Holds the library against rows from standard input, FROM TO|INPUT|OUTPUT with the bytes in hexadecimal, and then against
 * itself in random parts and rooms: client COUNT. Prints what failed, and then `N passed, M failed`. */
#include "noddychest.h"
#include "rows.h"

#include <pthread.h>

enum { MOST = 4096, GUARD = 0xA5, GUARDS = 64 };

/* (of vectors, the input is shown) */
static const char *which = "";
#define expect(holds, what) expect(holds, what, which)

static uint32_t seed = 1;

static uint32_t below(uint32_t n) {
    seed ^= seed << 13;
    seed ^= seed >> 17;
    seed ^= seed << 5;
    return seed % n;
}

/* Feeds the bytes in parts, each into output buffers of size `room`; the first may have another size. A size of 0 means random ones.
 * Returns the length of the output, or MOST + 1 if a promise was broken. */
static size_t recode(uint8_t from, uint8_t to, const uint8_t *in, size_t len, uint8_t *out, size_t part, size_t first, size_t room) {
    nody_recoder_t recoder = nody_recoder(from, to);
    size_t made = 0, place = 0;
    uint8_t status = NODY_STATUS_DONE;
    int is_last = 0;
    while (!is_last || status == NODY_STATUS_FULL) {
        size_t read = 0, written, end = place + (part ? part : below(9));
        size_t size = first != MOST ? first : room ? room : below(12);
        uint8_t guarded[3 * MOST + 2 * GUARDS], *buffer = guarded + GUARDS;
        if (end > len) end = len;
        if (place == len) is_last = 1;
        first = MOST;
        memset(guarded, GUARD, size + 2 * GUARDS);
        status = is_last ? nody_recoder_finish(&recoder, buffer, size, &written)
                         : nody_recoder_feed(&recoder, in + place, end - place, buffer, size, &read, &written);
        if (status > NODY_STATUS_FULL || written > size || read > end - place) return MOST + 1;
        if (!is_last && status == NODY_STATUS_DONE && read != end - place) return MOST + 1;
        if (status == NODY_STATUS_FULL && size >= written + 4) return MOST + 1;
        for (size_t i = 0; i < GUARDS; i++)
            if (guarded[i] != GUARD || buffer[size + i] != GUARD) return MOST + 1;
        memcpy(out + made, buffer, written);
        made += written;
        place += read;
    }
    return made;
}

static int is_recoded(uint8_t from, uint8_t to, const uint8_t *in, size_t len, const uint8_t *want, size_t want_len, size_t part, size_t first, size_t room) {
    uint8_t out[6 * MOST];
    return recode(from, to, in, len, out, part, first, room) == want_len && memcmp(out, want, want_len) == 0;
}

/* Cuts the bytes in two, near each offset, and converts each side separately. */
static int shards_join(uint8_t from, uint8_t to, const uint8_t *in, size_t len, const uint8_t *want, size_t want_len) {
    for (size_t at = 0; at <= len + 1; at++) {
        size_t end = nody_shard_end(from, in, len, at), limit = at < len ? at : len, made;
        uint8_t out[6 * MOST];
        if (end > limit || limit > end + 3) return 0;
        made = recode(from, to, in, end, out, len + 1, MOST, want_len + 16);
        made += recode(from, to, in + end, len - end, out + made, len + 1, MOST, want_len + 16);
        if (made != want_len || memcmp(out, want, made) != 0) return 0;
    }
    return 1;
}

static uint8_t encoding_of(const char *name) {
    return name[3] == '8' ? NODY_UTF8 : name[5] == 'l' ? NODY_UTF16LE : NODY_UTF16BE;
}

static void vectors(void) {
    struct rows rows = {stdin, NULL, 0, {NULL}};
    while (next_row(&rows)) {
        size_t len, need;
        uint8_t *in = bytes_of(rows.column[1], &len), *want = bytes_of(rows.column[2], &need);
        uint8_t from = encoding_of(rows.column[0]), to = encoding_of(strchr(rows.column[0], ' ') + 1);
        which = rows.column[1];
        expect(need <= nody_recoded_len_max(from, to, len), "bound of the output");
        expect(need == nody_recoded_len(from, to, in, len), "length of the output");
        for (size_t first = 0; first <= need; first++)
            expect(is_recoded(from, to, in, len, want, need, len + 1, first, need + 16), "room of every size");
        expect(shards_join(from, to, in, len, want, need), "two shards");
        for (size_t room = 4; room < 13; room++) expect(is_recoded(from, to, in, len, want, need, 1, MOST, room), "byte by byte");
        free(in);
        free(want);
        which = "";
    }
}

static void random_cases(unsigned long count) {
    static const uint8_t bytes[] = {0x41, 0x7f, 0x80, 0xbf, 0xc2, 0xe0, 0xa0, 0xed, 0xf0, 0x90, 0xf4, 0xd8, 0xdc, 0x00, 0xff};
    while (count-- > 0) {
        uint8_t in[40], whole[6 * MOST], from = (uint8_t)below(3), to = (uint8_t)below(3);
        size_t len = below(sizeof in + 1), made;
        for (size_t i = 0; i < len; i++) in[i] = below(4) ? bytes[below(sizeof bytes)] : (uint8_t)below(256);
        made = recode(from, to, in, len, whole, len + 1, MOST, 3 * MOST);
        expect(made <= nody_recoded_len_max(from, to, len) && is_recoded(from, to, in, len, whole, made, 0, MOST, 0), "random parts and rooms");
    }
}

static int alike(nody_piece_t a, nody_piece_t b) { return a.scalar == b.scalar && a.kind == b.kind && a.len == b.len; }

static void scalars(void) {
    for (uint32_t s = 0; s < 0x110010; s++) {
        uint8_t code[4];
        uint16_t units[2];
        size_t len = nody_utf8_encode(s, code, 4), count = nody_utf16_encode(s, units, 2);
        nody_piece_t byte_piece = {len, s, NODY_KIND_OK}, unit_piece = {count, s, NODY_KIND_OK};
        if (s > 0x10ffff || (s >= 0xd800 && s < 0xe000)) {
            expect(len == 0 && count == 0, "a number that is no scalar");
        } else {
            expect(alike(nody_utf8_first(code, len), byte_piece) && alike(nody_utf8_last(code, len), byte_piece), "a scalar in UTF-8");
            expect(alike((nody_utf8_first)(code, len), byte_piece), "a scalar in UTF-8, by a call");
            expect(alike(nody_utf16_first(units, count), unit_piece) && alike(nody_utf16_last(units, count), unit_piece), "a scalar in UTF-16");
        }
    }
}

static void cursors(void) {
    static const uint8_t bytes[] = {0x41, 0xe2, 0x82, 0xac, 0xe0, 0x80, 0xf0, 0x9f, 0x82, 0xa0, 0x80};
    static const uint16_t units[] = {0x41, 0xd83c, 0xdca0, 0xdc00, 0xd800};
    nody_piece_t pieces[2], more[8];
    nody_bytes_t left = nody_bytes(bytes, sizeof bytes), copy;
    nody_units_t left_units = nody_units(units, 5);
    expect(nody_utf8_pieces(&left, pieces, 2) == 2 && pieces[1].scalar == 0x20ac && left.bytes == bytes + 4 && left.len == 7, "two pieces");
    copy = left;
    expect(nody_utf8_pieces(&left, more, 8) == 4 && left.bytes == bytes + sizeof bytes && left.len == 0, "the others");
    expect(alike(nody_utf8_next(&copy), more[0]) && more[0].kind == NODY_KIND_INTERRUPTED_SEQUENCE && copy.bytes == bytes + 5, "a cursor that was copied");
    expect(nody_utf8_next(&(nody_bytes_t){bytes, 1}).len == 1, "a cursor that has no name");
    expect(nody_utf8_next_back(&copy).kind == NODY_KIND_UNEXPECTED_CONTINUATION_BYTE && copy.len == 5, "a byte at the end");
    expect(nody_utf8_next_back(&copy).scalar == 0x1f0a0 && copy.len == 1 && copy.bytes == bytes + 5, "a character at the end");
    expect(nody_utf8_next_back(&copy).len == 1 && copy.len == 0, "the last that is left");
    expect(nody_utf8_next(&copy).kind == NODY_KIND_NONE && nody_utf8_next_back(&copy).kind == NODY_KIND_NONE && copy.len == 0, "nothing is left");
    left = nody_bytes(bytes + 4, 2);
    expect(nody_utf8_next(&left).kind == NODY_KIND_TOO_FEW_BYTES && left.len == 1, "what is left judges");
    expect(nody_utf16_pieces(&left_units, more, 8) == 4 && more[1].scalar == 0x1f0a0 && more[1].len == 2 && left_units.len == 0, "units");
    expect(more[2].kind == NODY_KIND_UNEXPECTED_TRAILING_SURROGATE && more[3].kind == NODY_KIND_INCOMPLETE, "surrogates");
    left_units = nody_units(units, 3);
    expect(nody_utf16_next_back(&left_units).scalar == 0x1f0a0 && left_units.len == 1 && nody_utf16_next(&left_units).scalar == 0x41, "units from both ends");
    expect(nody_utf16_next(&left_units).kind == NODY_KIND_NONE && nody_utf16_next_back(&left_units).kind == NODY_KIND_NONE, "no unit is left");
    expect(nody_utf8_valid_up_to(bytes, sizeof bytes) == 4 && nody_utf8_valid_up_to(bytes, 4) == 4 && nody_utf8_valid_up_to(bytes, 3) == 1, "the first faulty byte");
    expect(nody_utf16_valid_up_to(units, 5) == 3 && nody_utf16_valid_up_to(units, 3) == 3 && nody_utf16_valid_up_to(units, 2) == 1, "the first faulty unit");
    expect(nody_shard_end(NODY_UTF8, bytes, sizeof bytes, 3) == 1 && nody_shard_end(NODY_UTF8, bytes, sizeof bytes, 5) == 5, "a shard of UTF-8");
    expect(nody_shard_end(NODY_UTF8, bytes, sizeof bytes, 9) == 6 && nody_shard_end(NODY_UTF8, bytes, sizeof bytes, 99) == 11, "a shard before four bytes");
    left_units = nody_units(units, 5);
    expect(nody_utf16_next_back(&left_units).kind != NODY_KIND_OK && left_units.len == 4, "a unit at the end");
}

/* The pieces, read byte by byte. The kind differs if bytes are missing and one that is there breaks the sequence. */
static void streamed(void) {
    static const uint8_t bytes[] = {0x41, 0xe2, 0x82, 0xac, 0xf0, 0x9f, 0x21};
    nody_bytes_t left = nody_bytes(bytes, sizeof bytes);
    nody_piece_t piece;
    size_t place = 0;
    while ((piece = nody_utf8_next(&left)).kind != NODY_KIND_NONE) {
        nody_piece_t same = nody_utf8_streamed_at(bytes, sizeof bytes, place);
        uint8_t kind = same.kind;
        same.kind = piece.kind;
        expect(alike(same, piece), "a piece read byte by byte");
        expect(kind == (place == 4 ? NODY_KIND_INTERRUPTED_SEQUENCE : piece.kind), "its kind");
        expect(place != 4 || piece.kind == NODY_KIND_TOO_FEW_BYTES, "the kind of a decoder");
        place += piece.len;
    }
    expect(nody_utf8_streamed_at(bytes, 6, 4).kind == NODY_KIND_TOO_FEW_BYTES, "bytes that are missing alone");
    expect(nody_utf8_streamed_at(bytes, sizeof bytes, sizeof bytes).kind == NODY_KIND_NONE, "no byte is there");
    expect(nody_utf8_streamed_at(bytes, sizeof bytes, SIZE_MAX).kind == NODY_KIND_NONE && nody_utf8_streamed_at(NULL, 0, 0).kind == NODY_KIND_NONE, "a place after the bytes");
}

static void nothing(void) {
    nody_bytes_t left = nody_bytes(NULL, 0);
    nody_units_t left_units = nody_units(NULL, 0);
    nody_recoder_t recoder = nody_recoder(NODY_UTF8, NODY_UTF16LE), none = nody_recoder(3, 0);
    size_t read = 7, written = 7;
    expect(nody_utf8_first(NULL, 0).kind == NODY_KIND_NONE && nody_utf8_last(NULL, 0).kind == NODY_KIND_NONE, "no bytes");
    expect((nody_utf8_first)(NULL, 0).kind == NODY_KIND_NONE, "no bytes, by a call");
    expect(nody_utf16_first(NULL, 0).kind == NODY_KIND_NONE && nody_utf16_last(NULL, 0).kind == NODY_KIND_NONE, "no units");
    expect(nody_utf8_next(&left).kind == NODY_KIND_NONE && nody_utf8_next_back(&left).kind == NODY_KIND_NONE, "a cursor over no bytes");
    expect(nody_utf16_next(&left_units).kind == NODY_KIND_NONE && nody_utf16_next_back(&left_units).kind == NODY_KIND_NONE, "a cursor over no units");
    expect(nody_utf8_pieces(&left, NULL, 0) == 0 && nody_utf16_pieces(&left_units, NULL, 0) == 0, "room for no piece");
    expect(nody_utf8_valid_up_to(NULL, 0) == 0 && nody_utf16_valid_up_to(NULL, 0) == 0, "nothing is well-formed");
    expect(nody_utf8_encode('a', NULL, 0) == 1 && nody_utf16_encode('a', NULL, 0) == 1, "no room for a code");
    expect(nody_recoder_feed(&recoder, NULL, 0, NULL, 0, &read, &written) == NODY_STATUS_DONE && read == 0 && written == 0, "an empty part");
    expect(nody_recoder_finish(&recoder, NULL, 0, &written) == NODY_STATUS_DONE && written == 0, "nothing to finish");
    expect(nody_recoder_feed(&none, NULL, 0, NULL, 0, &read, &written) == NODY_STATUS_REFUSED && nody_recoder_finish(&none, NULL, 0, &written) == NODY_STATUS_REFUSED, "no recoder");
    expect(nody_recoded_len_max(0, 3, 1) == SIZE_MAX && nody_recoded_len_max(0, 0, SIZE_MAX) == SIZE_MAX && nody_recoded_len_max(1, 0, 3) == 6, "bounds");
    expect(nody_shard_end(NODY_UTF16BE, NULL, 0, 7) == 0 && nody_shard_end(3, NULL, 0, 0) == SIZE_MAX, "no shard");
    expect(strcmp(nody_kind_name(NODY_KIND_TOO_HIGH_CODEPOINT), "TooHighCodepoint") == 0 && strcmp(nody_kind_name(200), "?") == 0, "names");
}

/* The calls that take a whole input, count, find boundaries and speak of kinds, with values from the standards. */
static void whole_inputs(void) {
    static const uint8_t in[] = {0x41, 0xe2, 0x82, 0xac, 0xf0, 0x9f, 0x82, 0xa0, 0xe2, 0x82, 0x21};
    static const uint8_t le[] = {0x41, 0, 0xac, 0x20, 0x3c, 0xd8, 0xa0, 0xdc, 0xfd, 0xff, 0xfd, 0xff, 0x21, 0};
    static const uint16_t units[] = {0x41, 0x20ac, 0xd83c, 0xdca0, 0xfffd, 0xfffd, 0x21, 0xdc00, 0xd800};
    uint8_t out[32], text[32];
    uint16_t native[16];
    size_t written = 9;
    memset(out, GUARD, sizeof out);
    expect(nody_recode(NODY_UTF8, NODY_UTF16LE, in, sizeof in, out, 14, &written) == NODY_STATUS_DONE, "a whole input");
    expect(written == sizeof le && memcmp(out, le, sizeof le) == 0 && out[14] == GUARD, "what it is recoded as");
    expect(nody_recoded_len(NODY_UTF8, NODY_UTF16LE, in, sizeof in) == sizeof le, "how long it is");
    expect(nody_recoded_len(NODY_UTF8, NODY_UTF8, in, sizeof in) == 1 + 3 + 4 + 3 + 3 + 1, "how long it is with each fault as U+FFFD");
    expect(nody_recoded_len(3, NODY_UTF8, in, 1) == SIZE_MAX && nody_recoded_len(NODY_UTF8, 3, in, 1) == SIZE_MAX, "the length in no encoding");
    memset(out, GUARD, sizeof out);
    expect(nody_recode(NODY_UTF8, NODY_UTF16LE, in, sizeof in, out, 7, &written) == NODY_STATUS_FULL, "too little room");
    expect(written == 4 && memcmp(out, le, 4) == 0 && out[7] == GUARD, "the front that fits");
    expect(nody_recode(NODY_UTF8, 3, in, sizeof in, out, 32, &written) == NODY_STATUS_REFUSED && written == 0 && out[7] == GUARD, "into no encoding");
    expect(nody_utf8_to_utf16(in, sizeof in, native, 16, &written) == NODY_STATUS_DONE && written == 7 && memcmp(native, units, 14) == 0, "into an array of units");
    expect(nody_utf8_to_utf16(in, sizeof in, native, 3, &written) == NODY_STATUS_FULL && written == 2, "into too few units");
    expect(nody_utf16_to_utf8(units, 4, text, 32, &written) == NODY_STATUS_DONE && written == 8 && memcmp(text, in, 8) == 0, "of an array of units");
    expect(nody_utf8_char_count(in, sizeof in) == 6 && nody_utf8_char_count(in, 8) == 3 && nody_utf8_char_count(in, 7) == 5, "how many characters");
    expect(nody_utf16_char_count(units, 9) == 8 && nody_utf16_char_count(units, 3) == 3, "how many characters of units");
    expect(nody_utf16_bytes_valid_up_to(NODY_UTF16LE, le, sizeof le) == 14 && nody_utf16_bytes_valid_up_to(NODY_UTF16LE, le, 13) == 12, "half a unit");
    expect(nody_utf16_bytes_valid_up_to(NODY_UTF16LE, le, 6) == 4 && nody_utf16_bytes_valid_up_to(NODY_UTF16LE, le + 6, 4) == 0, "surrogates in bytes");
    expect(nody_utf16_bytes_valid_up_to(NODY_UTF16BE, le + 5, 4) == 4 && nody_utf16_bytes_valid_up_to(NODY_UTF16BE, le + 5, 3) == 0 && nody_utf16_bytes_valid_up_to(NODY_UTF16BE, le, 4) == 4, "the other order");
    expect(nody_utf16_bytes_valid_up_to(NODY_UTF8, in, sizeof in) == 8 && nody_utf16_bytes_valid_up_to(3, in, 1) == SIZE_MAX, "the other encodings");
}

/* A way to convert, and its result: the output, and how many bytes were read. */
enum way { REPLACING, LOSSY, STRICT };

struct converted {
    uint8_t out[64];
    size_t written, read;
};

static struct converted convert(enum way way, uint8_t from, uint8_t to, const uint8_t *in, size_t len) {
    struct converted it;
    nody_fault_t fault;
    memset(&it, 0, sizeof it);
    it.read = len;
    if (way == REPLACING) expect(nody_recode(from, to, in, len, it.out, sizeof it.out, &it.written) == NODY_STATUS_DONE, "a shard");
    if (way == STRICT) (void)nody_recode_strict(from, to, in, len, it.out, sizeof it.out, &it.read, &it.written, &fault);
    if (way == LOSSY) expect(nody_recode_lossy(from, to, in, len, it.out, sizeof it.out, &it.written) == NODY_STATUS_DONE, "a shard, lossily");
    return it;
}

/* Two shards, the first of which ends at a place, become what the whole does. Strictly, the second counts only if the first has no fault. */
static int two_join(enum way way, uint8_t from, uint8_t to, const uint8_t *in, size_t len, size_t end) {
    struct converted whole = convert(way, from, to, in, len), first = convert(way, from, to, in, end), rest;
    if (way != STRICT || first.read == end) {
        rest = convert(way, from, to, in + end, len - end);
        memcpy(first.out + first.written, rest.out, rest.written);
        first.written += rest.written;
        first.read += rest.read;
    }
    return first.read == whole.read && first.written == whole.written && memcmp(first.out, whole.out, whole.written) == 0;
}

/* Whether shards join in each way, wherever they are asked for. */
static int all_join(uint8_t from, const uint8_t *in, size_t len) {
    for (size_t at = 0; at <= len + 1; at++) {
        size_t end = nody_shard_end(from, in, len, at), limit = at < len ? at : len;
        if (end > limit || limit > end + 3) return 0;
        for (uint8_t to = 0; to < 3; to++)
            for (int way = REPLACING; way <= STRICT; way++)
                if (!two_join((enum way)way, from, to, in, len, end)) return 0;
    }
    return 1;
}

/* All inputs of up to `most` of these bytes. */
static void all_inputs(uint8_t from, const uint8_t *bytes, size_t count, size_t most) {
    for (size_t len = 0, all = 1; len <= most; len++, all *= count)
        for (size_t number = 0; number < all; number++) {
            uint8_t in[8] = {0};
            size_t left = number;
            for (size_t i = 0; i < len; i++, left /= count) in[i] = bytes[left % count];
            expect(all_join(from, in, len), "shards of all inputs");
        }
}

/* The last column of each row is where Python's decoder, with errors="replace", begins its parts. */
static void shards(void) {
    static const uint8_t bytes[] = {0x41, 0x80, 0x90, 0xa0, 0xc3, 0xe0, 0xe2, 0xed, 0xf0, 0xf1, 0xf4, 0xff}, units[] = {0x00, 0x41, 0xd8, 0xdc};
    static const struct {
        uint8_t encoding;
        const char *in;
        size_t len, ends[9];
    } rows[] = {
        {NODY_UTF8, "\xe2\x82" "A", 3, {0, 0, 2, 3}},
        {NODY_UTF8, "\xf0\x9f\x98\xe2\x82", 5, {0, 0, 0, 3, 3, 5}},
        {NODY_UTF8, "\xe0\x80\xf4\x90\x80", 5, {0, 1, 2, 3, 4, 5}},
        {NODY_UTF8, "\x80\xf1\x80\x80" "A", 5, {0, 1, 1, 1, 4, 5}},
        {NODY_UTF8, "\xed\xa0\x80\xed\x9f", 5, {0, 1, 2, 3, 3, 5}},
        {NODY_UTF16LE, "\x3d\xd8" "A", 3, {0, 0, 0, 3}},
        {NODY_UTF16BE, "\0" "A\xd8\x3d" "A", 5, {0, 0, 2, 2, 2, 5}},
        {NODY_UTF16LE, "\x3d\xd8\x3d\xd8\0\xde" "A", 7, {0, 0, 2, 2, 2, 2, 6, 7}},
    };
    for (size_t i = 0; i < sizeof rows / sizeof *rows; i++)
        for (size_t at = 0; at <= rows[i].len; at++)
            expect(nody_shard_end(rows[i].encoding, (const uint8_t *)rows[i].in, rows[i].len, at) == rows[i].ends[at], "the end of a shard");
    expect(nody_boundary_before(NODY_UTF8, (const uint8_t *)rows[0].in, 3, 1) == 1, "a boundary inside a maximal subpart");
    all_inputs(NODY_UTF8, bytes, sizeof bytes, 4);
    all_inputs(NODY_UTF16LE, units, sizeof units, 7);
    all_inputs(NODY_UTF16BE, units, sizeof units, 7);
}

static void boundaries(void) {
    static const uint8_t in[] = {0x41, 0xf0, 0x9f, 0x82, 0xa0, 0x80, 0xc3, 0xa9};
    static const uint8_t be[] = {0, 0x41, 0xd8, 0x3c, 0xdc, 0xa0, 0x21};
    static const uint16_t units[] = {0x41, 0xd83c, 0xdca0, 0xdc00};
    static const size_t before[] = {0, 1, 1, 1, 1, 5, 6, 6, 8, 8}, after[] = {0, 1, 5, 5, 5, 5, 6, 8, 8, 8};
    static const size_t even_before[] = {0, 0, 2, 2, 2, 2, 6, 7, 7}, even_after[] = {0, 2, 2, 6, 6, 6, 6, 7, 7};
    for (size_t at = 0; at < 10; at++) {
        expect(nody_boundary_before(NODY_UTF8, in, sizeof in, at) == before[at], "the boundary before a place");
        expect(nody_shard_end(NODY_UTF8, in, sizeof in, at) == before[at], "the end of a shard");
        expect(nody_boundary_after(NODY_UTF8, in, sizeof in, at) == after[at], "the boundary after a place");
    }
    for (size_t at = 0; at < 9; at++) {
        expect(nody_boundary_before(NODY_UTF16BE, be, sizeof be, at) == even_before[at], "the boundary before a place in UTF-16");
        expect(nody_boundary_after(NODY_UTF16BE, be, sizeof be, at) == even_after[at], "the boundary after a place in UTF-16");
    }
    expect(nody_boundary_before(3, in, 1, 0) == SIZE_MAX && nody_boundary_after(3, in, 1, 0) == SIZE_MAX, "a boundary in no encoding");
    expect(nody_utf16_boundary_before(units, 4, 2) == 1 && nody_utf16_boundary_after(units, 4, 2) == 3, "in a pair");
    expect(nody_utf16_boundary_before(units, 4, 3) == 3 && nody_utf16_boundary_after(units, 4, 3) == 3, "after a pair");
    expect(nody_utf16_boundary_before(units, 4, 9) == 4 && nody_utf16_boundary_after(units, 4, 9) == 4, "after the end");
    expect(nody_utf16_boundary_before(NULL, 0, 0) == 0 && nody_boundary_after(NODY_UTF8, NULL, 0, 1) == 0, "in nothing");
}

/* Pieces by their numbers, and what a change reaches. */
static void numbers(void) {
    static const uint8_t in[] = {'h', 0xC3, 0xA9, 0xE2, 0x82, 'A'};
    static const uint16_t units[] = {0x41, 0xD83D, 0xDE00, 0xDC00, 0x42};
    static const size_t offsets[] = {0, 1, 3, 4, 5, 6, 6}, before[] = {0, 1, 2, 2, 3, 4, 5, 5};
    static const uint8_t be[] = {0, 0x41, 0xD8, 0x3D, 0xDE, 0, 0xDC, 0, 0, 0x42, 0x21};
    static const size_t unit_offsets[] = {0, 1, 3, 4, 5, 5}, units_before[] = {0, 1, 2, 2, 3, 4, 4};
    static const size_t even_offsets[] = {0, 2, 6, 8, 10, 11, 11}, even_before[] = {0, 1, 1, 2, 2, 2, 2, 3, 3, 4, 4, 5, 5};
    for (size_t i = 0; i < 7; i++) expect(nody_utf8_offset_of(in, 6, i) == offsets[i], "the offset of a piece");
    for (size_t i = 0; i < 8; i++) expect(nody_utf8_number_of(in, 6, i) == before[i], "the number at an offset");
    for (size_t i = 0; i < 6; i++) expect(nody_utf16_offset_of(units, 5, i) == unit_offsets[i], "the offset of a piece of units");
    for (size_t i = 0; i < 7; i++) expect(nody_utf16_number_of(units, 5, i) == units_before[i], "the number at an offset of units");
    for (size_t i = 0; i < 7; i++) expect(nody_offset_of(NODY_UTF16BE, be, sizeof be, i) == even_offsets[i], "the offset of a piece of UTF-16 in bytes");
    for (size_t i = 0; i < 13; i++) expect(nody_number_of(NODY_UTF16BE, be, sizeof be, i) == even_before[i], "the number at an offset of UTF-16 in bytes");
    for (size_t i = 0; i < 7; i++) expect(nody_offset_of(NODY_UTF8, in, 6, i) == offsets[i] && nody_number_of(NODY_UTF8, in, 6, i) == before[i], "the same of UTF-8");
    expect(nody_char_count(NODY_UTF16BE, be, sizeof be) == 5 && nody_char_count(NODY_UTF16BE, be, 10) == 4 && nody_char_count(NODY_UTF16BE, be, 4) == 2, "how many characters of UTF-16 in bytes");
    expect(nody_char_count(NODY_UTF16LE, be + 1, 10) == 4 && nody_char_count(NODY_UTF16LE, be + 3, 4) == 2 && nody_char_count(NODY_UTF8, in, 6) == 5, "how many in the other encodings");
    expect(nody_offset_of(NODY_UTF16BE, be, 10, 4) == 10 && nody_offset_of(NODY_UTF16BE, be, sizeof be, SIZE_MAX) == sizeof be && nody_number_of(NODY_UTF16BE, be, sizeof be, SIZE_MAX) == 5, "numbers beyond the end of UTF-16 in bytes");
    expect(nody_char_count(3, in, 6) == SIZE_MAX && nody_offset_of(3, in, 6, 0) == SIZE_MAX && nody_number_of(255, in, 6, 0) == SIZE_MAX, "numbers in no encoding");
    expect(nody_char_count(NODY_UTF16LE, NULL, 0) == 0 && nody_offset_of(NODY_UTF16LE, NULL, 0, 0) == 0 && nody_number_of(NODY_UTF16LE, NULL, 0, 7) == 0, "numbers of nothing in an encoding");
    expect(nody_utf8_offset_of(in, 6, SIZE_MAX) == 6 && nody_utf8_number_of(in, 6, SIZE_MAX) == 5, "numbers beyond the end");
    expect(nody_utf16_offset_of(units, 5, SIZE_MAX) == 5 && nody_utf16_number_of(units, 5, SIZE_MAX) == 4, "numbers beyond the end of units");
    expect(nody_utf8_offset_of(NULL, 0, 0) == 0 && nody_utf8_number_of(NULL, 0, 7) == 0, "numbers of nothing");
    expect(nody_utf16_offset_of(NULL, 0, 7) == 0 && nody_utf16_number_of(NULL, 0, 0) == 0, "numbers of no units");
}

static int is_range(nody_range_t range, size_t start, size_t end) {
    return range.start == start && range.end == end;
}

static void changes(void) {
    static const uint8_t in[] = {'a', 'b', 'c', 0xE2, 0x82, 0xAC, 'd', 'e', 'f', 0xE2, 0x82, 0xAC, 'g', 'h', 'i'};
    static const uint8_t be[] = {0, 0x41, 0xD8, 0x3D, 0xDE, 0, 0, 0x42, 0, 0x43, 0xD8, 0x3D, 0xDE, 0, 0, 0x44};
    expect(is_range(nody_changed_range(NODY_UTF8, in, 15, 7, 8), 3, 12), "what a change reaches");
    expect(is_range(nody_changed_range(NODY_UTF8, in, 15, 6, 6), 3, 9) && is_range(nody_changed_range(NODY_UTF8, in, 15, 4, 5), 1, 8), "what an insertion reaches");
    expect(is_range(nody_changed_range(NODY_UTF8, in, 15, 0, 0), 0, 3) && is_range(nody_changed_range(NODY_UTF8, in, 15, 15, 15), 12, 15), "at the ends");
    expect(is_range(nody_changed_range(NODY_UTF16BE, be, 16, 8, 9), 2, 14) && is_range(nody_changed_range(NODY_UTF16BE, be, 16, 6, 6), 2, 10), "in UTF-16");
    expect(is_range(nody_changed_range(NODY_UTF8, in, 15, SIZE_MAX, SIZE_MAX), 12, 15), "offsets above the length");
    expect(is_range(nody_changed_range(NODY_UTF8, in, 15, 9, 7), 3, 12), "a start above the end");
    expect(is_range(nody_changed_range(NODY_UTF8, NULL, 0, 0, 0), 0, 0) && is_range(nody_changed_range(NODY_UTF16LE, NULL, 0, 2, 9), 0, 0), "in nothing");
    expect(is_range(nody_changed_range(3, in, 15, 0, 0), SIZE_MAX, SIZE_MAX), "in no encoding");
}

/* Only faults. What is left begins with the first that did not fit. */
static void faults(void) {
    static const uint8_t in[] = {'a', 0xff, 0xe2, 0x82, 'b', 0xf0, 0x9f, 0x98, 0x80, 0xf0, 0x9f};
    static const uint16_t units[] = {0x41, 0xdc00, 0xd83d, 0xde00, 0xd800, 0x42, 0xd83d};
    static const uint64_t at[] = {1, 2, 3, 9, 10};
    static const nody_kind_t kinds[] = {NODY_KIND_NON_UTF8_BYTE, NODY_KIND_INTERRUPTED_SEQUENCE, NODY_KIND_UNEXPECTED_CONTINUATION_BYTE,
                                        NODY_KIND_TOO_FEW_BYTES, NODY_KIND_UNEXPECTED_CONTINUATION_BYTE};
    nody_bytes_t left = nody_bytes(in, sizeof in), none = nody_bytes(NULL, 0);
    nody_units_t back = nody_units(units, 7);
    nody_located_t found[6];
    uint64_t offset = 100;
    memset(found, 77, sizeof found);
    expect(nody_utf8_faults(&left, &offset, found, 0) == 0 && offset == 101 && left.bytes == in + 1 && left.len == 10, "no room for a fault");
    expect(nody_utf8_faults(&left, &offset, found, 2) == 2 && offset == 103 && left.bytes == in + 3 && left.len == 8, "room for two faults");
    expect(nody_utf8_faults(&left, &offset, found + 2, 4) == 3 && offset == 100 + sizeof in && left.len == 0, "the other faults");
    for (size_t i = 0; i < 5; i++)
        expect(found[i].offset == 100 + at[i] && found[i].kind == kinds[i] && found[i].len == 1 && found[i].scalar == 0, "a fault with its offset");
    expect(found[5].len == 77 && nody_utf8_faults(&left, &offset, found, 6) == 0 && nody_utf8_faults(&none, &offset, NULL, 0) == 0, "no more faults");
    offset = 0;
    expect(nody_utf16_faults(&back, &offset, found, 2) == 2 && offset == 6 && back.units == units + 6 && back.len == 1, "faults of units");
    expect(found[0].offset == 1 && found[0].kind == NODY_KIND_UNEXPECTED_TRAILING_SURROGATE && found[0].len == 1, "a trailing surrogate");
    expect(found[1].offset == 4 && found[1].kind == NODY_KIND_UNMATCHED_LEADING_SURROGATE && found[1].len == 1, "a leading surrogate");
    expect(nody_utf16_faults(&back, &offset, found, 2) == 1 && offset == 7 && found[0].offset == 6 && found[0].kind == NODY_KIND_INCOMPLETE, "the last unit");
}

/* How many bytes later ones decide. RFC 3629 has what begins a character; the pairs are from the Unicode standard, section 3.9. */
static void undecided(void) {
    static const struct {
        const char *bytes;
        size_t len, utf8, utf16le, utf16be;
    } ends[] = {
        {"", 0, 0, 0, 0}, {"a", 1, 0, 1, 1}, {"\xE2", 1, 1, 1, 1}, {"a\xE2\x82", 3, 2, 1, 1}, {"a\xE2\x82\xAC", 4, 0, 0, 0}, {"\xE2" "A", 2, 0, 0, 0},
        {"\xF0\x9F\x98", 3, 3, 1, 1}, {"\xF0\x9F\x98\x80", 4, 0, 0, 0}, {"\xF0\x41", 2, 0, 0, 0}, {"\xED\xA0", 2, 2, 0, 0}, {"\x80\x80\x80", 3, 0, 1, 1},
        {"\xC3\xF4\x80", 3, 2, 1, 1}, {"\xC1", 1, 0, 1, 1}, {"\xF5", 1, 0, 1, 1}, {"\x3D\xD8", 2, 1, 2, 0}, {"\xD8\x3D", 2, 0, 0, 2},
        {"\x3D\xD8\x00", 3, 0, 3, 1}, {"\x3D\xD8\x00\xDE", 4, 1, 0, 0}, {"\xD8\x3D\xDE", 3, 1, 1, 3}, {"\xD8\x3D\xDE\x00", 4, 0, 0, 0}, {"\x00\xDC", 2, 1, 0, 0},
    };
    for (size_t i = 0; i < sizeof ends / sizeof *ends; i++) {
        const uint8_t *bytes = (const uint8_t *)ends[i].bytes;
        expect(nody_undecided_len(NODY_UTF8, bytes, ends[i].len) == ends[i].utf8, "an undecided end");
        expect(nody_undecided_len(NODY_UTF16LE, bytes, ends[i].len) == ends[i].utf16le, "an undecided end in little-endian UTF-16");
        expect(nody_undecided_len(NODY_UTF16BE, bytes, ends[i].len) == ends[i].utf16be, "an undecided end in big-endian UTF-16");
    }
    expect(nody_undecided_len(NODY_UTF8, NULL, 0) == 0 && nody_undecided_len(3, NULL, 0) == SIZE_MAX, "an end of nothing, and in no encoding");
}

/* Lines and columns, counted by hand. */
static void positions(void) {
    static const struct {
        const char *first, *second;
        size_t first_len, second_len;
        uint64_t line, column, byte_column;
        nody_encoding_t encoding;
    } rows[] = {
        {"", "", 0, 0, 1, 1, 1, NODY_UTF8},
        {"a\nb\xC3\xA9" "c", "", 6, 0, 2, 4, 5, NODY_UTF8},
        {"a\nb\xC3", "\xA9" "c", 4, 2, 2, 4, 5, NODY_UTF8},
        {"a\nb\xC3", "", 4, 0, 2, 3, 3, NODY_UTF8},
        {"\xF0\x9F\x98", "", 3, 0, 1, 4, 4, NODY_UTF8},
        {"\xF0\x9F\x98", "\x80\r", 3, 2, 1, 3, 6, NODY_UTF8},
        {"\xE2\x82", "A\n\n", 2, 3, 3, 1, 1, NODY_UTF8},
        {"\x3D\xD8\x00", "\xDE\x0A\x00" "a\x00", 3, 5, 2, 2, 3, NODY_UTF16LE},
        {"\x0A\x00\x00", "\x0A\xD8\x3D", 3, 3, 2, 2, 3, NODY_UTF16BE},
        {"\x00", "\x0A\x00", 1, 2, 2, 2, 2, NODY_UTF16BE},
    };
    for (size_t i = 0; i < sizeof rows / sizeof *rows; i++) {
        nody_position_t at = nody_position();
        expect(nody_position_advance(&at, rows[i].encoding, (const uint8_t *)rows[i].first, rows[i].first_len) == NODY_STATUS_DONE &&
                   nody_position_advance(&at, rows[i].encoding, (const uint8_t *)rows[i].second, rows[i].second_len) == NODY_STATUS_DONE, "a position advances");
        expect(at.line == rows[i].line && at.column == rows[i].column && at.byte_column == rows[i].byte_column, "a line, and columns");
    }
}

/* An input for each rule by which an input is guessed, and the counts of one. compare/surveys has a plain program that returns the same. */
static void surveyed(void) {
    static const struct {
        const char *bytes;
        size_t len;
        nody_guess_t guess;
    } inputs[] = {
        {"GIF89a", 6, NODY_GUESS_BINARY}, {"\xEF\xBB\xBF" "a", 4, NODY_GUESS_UTF8_MARKED}, {"\xFF\xFE\0\0", 4, NODY_GUESS_UTF32},
        {"\xFF\xFE\0", 3, NODY_GUESS_UTF16LE_MARKED}, {"\xFE\xFF\0h", 4, NODY_GUESS_UTF16BE_MARKED}, {"abcd\0efgh", 9, NODY_GUESS_BINARY},
        {"h\0i\0", 4, NODY_GUESS_UTF16LE}, {"\0h\0i", 4, NODY_GUESS_UTF16BE}, {"a\1b", 3, NODY_GUESS_BINARY}, {"", 0, NODY_GUESS_ASCII},
        {"plain", 5, NODY_GUESS_ASCII}, {"caf\xC3\x83\xC2\xA9", 7, NODY_GUESS_UTF8_TWICE}, {"caf\xC3\xA9", 5, NODY_GUESS_UTF8},
        {"caf\xC3\xA9 caf\xC3", 10, NODY_GUESS_UTF8_CUT}, {"caf\xED\xA0\xBD\xED\xB8\x80", 9, NODY_GUESS_UTF8_SURROGATES},
        {"caf\xC3\xA9 caf\xE9 !", 12, NODY_GUESS_UTF8_MIXED}, {"\xCF\xF0\xE8\xE2\xE5\xF2", 6, NODY_GUESS_OTHER_8BIT}, {"a \x81", 3, NODY_GUESS_OTHER_8BIT},
        {"caf\xE9", 4, NODY_GUESS_WINDOWS1252},
    };
    static const uint8_t mixed[] = "na\xEFve ca\x9F" "fe \xC3\xA9\xC3\x83\xC2\xA9 \x81\xC8\xE9 \xED\xA0\xBD\1\0\xE2\x82";
    nody_survey_t survey;
    for (size_t i = 0; i < sizeof inputs / sizeof *inputs; i++) {
        nody_survey((const uint8_t *)inputs[i].bytes, inputs[i].len, &survey);
        expect(survey.len == inputs[i].len && nody_guess(&survey) == inputs[i].guess, "a guess");
    }
    nody_survey(mixed, sizeof mixed - 1, &survey);
    expect(survey.len == 30 && survey.nul == 1 && survey.control == 1 && survey.head == 0 && survey.tail == 2 && memcmp(survey.front, "na\xEFv", 4) == 0, "a survey");
    expect(survey.utf8.chars == 3 && survey.utf8.faults == 10 && survey.utf8.third == 2 && survey.utf8.signs == 1 && survey.utf8.undefined == 1, "counts of UTF-8");
    expect(survey.utf8.surrogates == 1 && survey.utf8.twice == 1 && survey.utf8.twice_chars == 2, "counts of sequences");
    expect(survey.utf16le.plain == 0 && survey.utf16le.stray == 1 && survey.utf16be.stray == 0 && survey.utf16be.unpaired == 0, "counts of units");
    expect(strcmp(nody_guess_text(NODY_GUESS_BINARY), "not text") == 0 && strcmp(nody_guess_text(15), "?") == 0, "a text of a guess");
}

/* The bytes of a survey before its padding. */
enum { SURVEY_LEN = offsetof(nody_survey_t, tail) + 1 };

/* What inputs may be: guesses in order, as their numbers; the rules are those of `others` in crates/surveys/specs/GuessLists. */
static void guessed_again(void) {
    static const struct {
        const char *bytes;
        size_t len, count;
        nody_guess_t guesses[3];
    } inputs[] = {
        {"caf\xC3\xA9", 5, 1, {NODY_GUESS_UTF8}}, {"GIF89a", 6, 1, {NODY_GUESS_BINARY}}, {"a \x81", 3, 1, {NODY_GUESS_OTHER_8BIT}},
        {"caf\xE9", 4, 2, {NODY_GUESS_WINDOWS1252, NODY_GUESS_OTHER_8BIT}}, {"caf\xC3\x83\xC2\xA9", 7, 2, {NODY_GUESS_UTF8_TWICE, NODY_GUESS_UTF8}},
        {"\xCF\xF0\xE8\xE2\xE5\xF2", 6, 2, {NODY_GUESS_OTHER_8BIT, NODY_GUESS_WINDOWS1252}}, {"h\0i\0", 4, 2, {NODY_GUESS_UTF16LE, NODY_GUESS_BINARY}},
        {"abcd\0efgh", 9, 2, {NODY_GUESS_BINARY, NODY_GUESS_ASCII}}, {"\0\1\2\3", 4, 2, {NODY_GUESS_BINARY, NODY_GUESS_UTF16LE}},
        {"caf\xC3\xA9 caf\xC3", 10, 3, {NODY_GUESS_UTF8_CUT, NODY_GUESS_UTF8_MIXED, NODY_GUESS_WINDOWS1252}},
    };
    for (size_t i = 0; i < sizeof inputs / sizeof *inputs; i++) {
        const uint8_t *bytes = (const uint8_t *)inputs[i].bytes;
        nody_surveyor_t surveyor = nody_surveyor(), copy;
        nody_survey_t survey, of_parts;
        nody_guess_t guesses[4] = {99, 99, 99, 99};
        nody_survey(bytes, inputs[i].len, &survey);
        expect(nody_guesses(&survey, NULL, 0) == 0 && nody_guesses(&survey, guesses, 1) == 1 && guesses[0] == nody_guess(&survey) && guesses[1] == 99, "one guess");
        expect(nody_guesses(&survey, guesses, 4) == inputs[i].count && memcmp(guesses, inputs[i].guesses, inputs[i].count) == 0 && guesses[3] == 99, "guesses");
        for (size_t at = 0; at < inputs[i].len; at++) {
            copy = surveyor;
            expect(nody_surveyor_feed(&copy, bytes + at, inputs[i].len - at) == NODY_STATUS_DONE && nody_surveyor_survey(&copy, &of_parts) == NODY_STATUS_DONE &&
                   memcmp(&of_parts, &survey, SURVEY_LEN) == 0, "a survey of two parts");
            expect(nody_surveyor_feed(&surveyor, bytes + at, 1) == NODY_STATUS_DONE && nody_surveyor_feed(&surveyor, NULL, 0) == NODY_STATUS_DONE, "a byte");
        }
        expect(nody_surveyor_survey(&surveyor, &of_parts) == NODY_STATUS_DONE && memcmp(&of_parts, &survey, SURVEY_LEN) == 0, "a survey of bytes one by one");
    }
    nody_surveyor_t none, before;
    nody_survey_t survey;
    memset(&none, 0xFF, sizeof none);
    before = none;
    expect(nody_surveyor_feed(&none, (const uint8_t *)"a", 1) == NODY_STATUS_REFUSED && memcmp(&none, &before, sizeof none) == 0, "no surveyor is fed");
    expect(nody_surveyor_survey(&none, &survey) == NODY_STATUS_REFUSED && survey.len == 0, "no surveyor has a survey");
}

/* The byte order marks of the Unicode standard, section 23.8. */
static void marks(void) {
    nody_encoding_t encoding = 9;
    expect(nody_encoding_of_bom((const uint8_t *)"\xEF\xBB\xBF" "a", 4, &encoding) == 3 && encoding == NODY_UTF8, "the mark of UTF-8");
    expect(nody_encoding_of_bom((const uint8_t *)"\xFF\xFE" "a", 3, &encoding) == 2 && encoding == NODY_UTF16LE, "the mark of little-endian UTF-16");
    expect(nody_encoding_of_bom((const uint8_t *)"\xFE\xFF", 2, &encoding) == 2 && encoding == NODY_UTF16BE, "the mark of big-endian UTF-16");
    expect(nody_encoding_of_bom((const uint8_t *)"\xFF\xFE\0\0", 4, &encoding) == 2 && encoding == NODY_UTF16LE, "the mark of UTF-32");
    encoding = 9;
    expect(nody_encoding_of_bom((const uint8_t *)"\xEF\xBB", 2, &encoding) == 0 && encoding == 9, "the front of a mark");
    expect(nody_encoding_of_bom((const uint8_t *)"\xFE\xFE\xFF", 3, &encoding) == 0 && encoding == 9, "a mark that is not at the front");
    expect(nody_encoding_of_bom(NULL, 0, &encoding) == 0 && encoding == 9, "no mark in nothing");
}

/* Which kind wins, what a kind is called, and the version. */
static void words(void) {
    static const uint8_t short_surrogate[] = {0xed, 0xa0}, overlong[] = {0xe0, 0x80, 0x41}, euro[] = {0xe2, 0x82};
    nody_recoder_t recoder = nody_recoder(NODY_UTF8, NODY_UTF8), wrong = nody_recoder(NODY_UTF8, 9);
    uint8_t out[8], held[3] = {1, 2, 3};
    size_t read, written;
    expect(nody_utf8_first(overlong, 3).kind == NODY_KIND_INTERRUPTED_SEQUENCE, "E0 80 41");
    expect(nody_utf8_first(short_surrogate, 2).kind == NODY_KIND_TOO_FEW_BYTES, "ED A0");
    expect(strcmp(nody_kind_name(NODY_KIND_OK), "Ok") == 0 && strcmp(nody_kind_name(NODY_KIND_INCOMPLETE), "Incomplete") == 0, "names of kinds");
    expect(strcmp(nody_kind_sentence(NODY_KIND_OVERLONG_ENCODING), "overlong encoding: the value has a shorter code") == 0, "a sentence");
    expect(strcmp(nody_kind_sentence(NODY_KIND_NONE), "nothing is left") == 0 && strcmp(nody_kind_sentence(12), "?") == 0, "the last sentence, and none");
    expect(nody_version() == NODY_VERSION && nody_version() == 1000000, "the version");
    expect(sizeof(nody_piece_t) == 16 && sizeof(nody_recoder_t) == 16 && sizeof(nody_kind_t) == 1 && sizeof(nody_encoding_t) == 1, "sizes");
    expect(nody_recoder_feed(&recoder, euro, 2, out, 8, &read, &written) == NODY_STATUS_DONE && read == 2 && written == 0, "a part that waits");
    expect(nody_recoder_held(&recoder, held, 1) == 2 && held[0] == 1, "no room for what is held");
    expect(nody_recoder_held(&recoder, held, 3) == 2 && held[0] == 0xe2 && held[1] == 0x82 && held[2] == 3, "what is held");
    expect(nody_recoder_held(&wrong, held, 3) == SIZE_MAX && held[0] == 0xe2, "what no recoder holds");
    expect(nody_recoder_finish(&recoder, out, 8, &written) == NODY_STATUS_DONE && written == 6 && nody_recoder_held(&recoder, NULL, 0) == 0, "an input that ended early");
    expect(nody_recoder_feed(&recoder, overlong + 2, 1, out, 8, &read, &written) == NODY_STATUS_DONE && written == 1 && out[0] == 0x41, "a recoder that is used again");
}

/* Strict calls stop at the first fault, and say where it is and why; the values are from the standards. */
static void strictly(void) {
    static const uint8_t in[] = {0x63, 0xe9, 0x0a, 0x41, 0xff, 0xe2, 0x82}, le[] = {0x41, 0, 0x3c, 0xd8, 0x21};
    nody_recoder_t recoder = nody_recoder(NODY_UTF8, NODY_UTF16BE), none = nody_recoder(3, 0), same;
    uint8_t out[32];
    size_t read, written;
    nody_fault_t fault;
    expect(nody_recode_strict(NODY_UTF8, NODY_UTF16BE, in, 1, out, 2, &read, &written, &fault) == NODY_STATUS_DONE && read == 1 && written == 2, "a valid input");
    expect(fault.kind == NODY_KIND_NONE && fault.len == 0 && fault.back == 0 && out[0] == 0 && out[1] == 0x63, "no fault");
    expect(nody_recode_strict(NODY_UTF8, NODY_UTF16BE, in, 7, out, 32, &read, &written, &fault) == NODY_STATUS_FAULT && read == 1 && written == 2, "a fault in an input");
    expect(fault.kind == NODY_KIND_INTERRUPTED_SEQUENCE && fault.len == 1 && fault.back == 0, "its fault");
    expect(nody_recode_strict(NODY_UTF8, NODY_UTF8, in, 2, out, 32, &read, &written, &fault) == NODY_STATUS_FAULT && read == 1 && fault.kind == NODY_KIND_TOO_FEW_BYTES, "an input that ends early");
    expect(nody_recode_strict(NODY_UTF16LE, NODY_UTF8, le, 5, out, 32, &read, &written, &fault) == NODY_STATUS_FAULT && read == 2 && fault.len == 2 && fault.kind == NODY_KIND_INCOMPLETE, "a leading surrogate");
    expect(nody_recode_strict(NODY_UTF16LE, NODY_UTF8, le, 1, out, 32, &read, &written, &fault) == NODY_STATUS_FAULT && read == 0 && fault.len == 1, "half a unit");
    expect(nody_recode_strict(NODY_UTF8, NODY_UTF16LE, in, 1, out, 1, &read, &written, &fault) == NODY_STATUS_FULL && read == 0 && written == 0 && fault.kind == NODY_KIND_NONE, "no room");
    expect(nody_recode_strict(NODY_UTF8, 3, in, 1, out, 32, &read, &written, &fault) == NODY_STATUS_REFUSED && read == 0 && written == 0 && fault.kind == NODY_KIND_NONE, "no encoding");
    expect(nody_recode_strict(NODY_UTF8, NODY_UTF8, NULL, 0, NULL, 0, &read, &written, &fault) == NODY_STATUS_DONE && read == 0 && written == 0, "no input");
    expect(nody_recoder_feed_strict(&recoder, in, 3, out, 32, &read, &written, &fault) == NODY_STATUS_DONE && read == 3 && written == 2 && nody_recoder_held(&recoder, NULL, 0) == 2, "what follows decides of E9 0A");
    expect(nody_recoder_feed_strict(&recoder, in + 3, 4, out, 32, &read, &written, &fault) == NODY_STATUS_FAULT && read == 0 && written == 0, "a fault that began in a part before");
    expect(fault.kind == NODY_KIND_INTERRUPTED_SEQUENCE && fault.len == 1 && 3 - fault.back == 1, "where it began");
    expect(nody_recoder_feed_strict(&recoder, in + 3, 4, out, 32, &read, &written, &fault) == NODY_STATUS_FAULT && read == 2 && written == 4 && 5 - fault.back == 4, "on after it");
    expect(fault.kind == NODY_KIND_NON_UTF8_BYTE && out[1] == 0x0a && out[3] == 0x41, "what lay between");
    expect(nody_recoder_feed_strict(&recoder, in + 5, 2, out, 32, &read, &written, &fault) == NODY_STATUS_DONE && fault.kind == NODY_KIND_NONE, "the rest");
    expect(nody_recoder_finish_strict(&recoder, out, 32, &written, &fault) == NODY_STATUS_FAULT && written == 0 && fault.kind == NODY_KIND_TOO_FEW_BYTES && 7 - fault.back == 5, "the end");
    expect(nody_recoder_finish_strict(&recoder, out, 32, &written, &fault) == NODY_STATUS_FAULT && fault.kind == NODY_KIND_UNEXPECTED_CONTINUATION_BYTE && 7 - fault.back == 6, "the last byte");
    expect(nody_recoder_finish_strict(&recoder, out, 32, &written, &fault) == NODY_STATUS_DONE && fault.kind == NODY_KIND_NONE, "nothing is left");
    same = none;
    expect(nody_recoder_feed_strict(&none, in, 1, out, 32, &read, &written, &fault) == NODY_STATUS_REFUSED && read == 0 && written == 0 && fault.kind == NODY_KIND_NONE, "no recoder");
    expect(nody_recoder_finish_strict(&none, out, 32, &written, &fault) == NODY_STATUS_REFUSED && memcmp(&none, &same, sizeof same) == 0, "it stays");
}

/* A recoder counts the faults that it replaced, over all calls that replace; by hand, from RFC 3629 and RFC 2781. */
static void replaced(void) {
    /* two: E9, which no continuation byte follows, and FF; and then the front of a character */
    static const uint8_t in[] = {0x63, 0xe9, 0x0a, 0x41, 0xff, 0xe2, 0x82}, mark[] = {0xef, 0xbf, 0xbd}, le[] = {0x00, 0xdc, 0x41, 0x00, 0x3c, 0xd8, 0x21};
    nody_recoder_t recoder = nody_recoder(NODY_UTF8, NODY_UTF8), units = nody_recoder(NODY_UTF16LE, NODY_UTF8), none = nody_recoder(3, 0);
    nody_fault_t fault;
    uint8_t out[32];
    size_t read, written;
    expect(recoder.replaced == 0 && none.replaced == 0, "a new recoder has replaced nothing");
    expect(nody_recoder_feed(&recoder, in, 2, out, 32, &read, &written) == NODY_STATUS_DONE && written == 1 && recoder.replaced == 0, "what is held is not replaced");
    expect(nody_recoder_feed(&recoder, in + 2, 5, out, 4, &read, &written) == NODY_STATUS_FULL && written == 4 && recoder.replaced == 1, "E9, and no room");
    expect(nody_recoder_feed(&recoder, in + 2 + read, 5 - read, out, 32, &read, &written) == NODY_STATUS_DONE && written == 4 && recoder.replaced == 2, "FF too");
    expect(nody_recoder_finish(&recoder, out, 3, &written) == NODY_STATUS_FULL && written == 3 && recoder.replaced == 3, "one byte of the end");
    expect(nody_recoder_finish(&recoder, out, 3, &written) == NODY_STATUS_DONE && written == 3 && recoder.replaced == 4, "all of it");
    expect(nody_recoder_feed(&recoder, mark, 3, out, 32, &read, &written) == NODY_STATUS_DONE && written == 3 && recoder.replaced == 4, "U+FFFD in the input");
    expect(nody_recoder_feed_strict(&recoder, in + 4, 1, out, 32, &read, &written, &fault) == NODY_STATUS_FAULT && recoder.replaced == 4, "a strict call replaces nothing");
    expect(nody_recoder_feed_strict(&recoder, in + 5, 1, out, 32, &read, &written, &fault) == NODY_STATUS_DONE && nody_recoder_finish_strict(&recoder, out, 32, &written, &fault) == NODY_STATUS_FAULT && recoder.replaced == 4, "nor at the end");
    recoder.replaced = UINT64_MAX - 1;
    expect(nody_recoder_feed(&recoder, in + 4, 1, out, 32, &read, &written) == NODY_STATUS_DONE && recoder.replaced == UINT64_MAX, "the greatest count");
    expect(nody_recoder_feed(&recoder, in + 4, 1, out, 32, &read, &written) == NODY_STATUS_DONE && written == 3 && recoder.replaced == UINT64_MAX, "which stays");
    expect(nody_recoder_feed(&units, le, 7, out, 32, &read, &written) == NODY_STATUS_DONE && written == 4 && units.replaced == 1, "a trailing surrogate alone");
    expect(nody_recoder_finish(&units, out, 32, &written) == NODY_STATUS_DONE && written == 6 && units.replaced == 3, "a leading surrogate alone at the end, and half a unit");
    none.replaced = 7;
    expect(nody_recoder_feed(&none, in, 7, out, 32, &read, &written) == NODY_STATUS_REFUSED && nody_recoder_finish(&none, out, 32, &written) == NODY_STATUS_REFUSED && none.replaced == 7, "no recoder counts nothing");
}

/* One U+FFFD for each maximal subpart: what Python's bytes.decode with "replace" gives for the same bytes, cut at each place. `faults` is the
 * sum of `end - start` of the errors that a handler of that call is given. */
static void lossy(void) {
    static const struct {
        const char *in, *want;
        uint64_t faults;
    } cases[] = {
        {"A\xe2\x82" "A", "A\xef\xbf\xbd" "A", 2},
        {"\xe0\x80", "\xef\xbf\xbd\xef\xbf\xbd", 2},
        {"\xf0\x9f\x98", "\xef\xbf\xbd", 3},
        {"\xed\xa0\x80\xff\xf4\x90", "\xef\xbf\xbd\xef\xbf\xbd\xef\xbf\xbd\xef\xbf\xbd\xef\xbf\xbd\xef\xbf\xbd", 6},
        {"a\xf1\x80\x80" "b\xc0\xaf" "c", "a\xef\xbf\xbd" "b\xef\xbf\xbd\xef\xbf\xbd" "c", 5},
        {"\xe2\x82\xac\xf0\x9f\x82\xa0", "\xe2\x82\xac\xf0\x9f\x82\xa0", 0},
    };
    /* what bytes.decode("utf-16-le", "replace") gives, as UTF-8; in "utf-16-be" the bytes of each unit are the other way round. `faults`
     * is how many lone surrogates, and single bytes at the end, there are */
    static const struct {
        size_t len, need;
        uint8_t in[8];
        const char *want;
        uint64_t faults;
    } ends[] = {
        {3, 3, {0x00, 0xd8, 0x00}, "\xef\xbf\xbd", 2},
        {3, 6, {0x00, 0xdc, 0x00}, "\xef\xbf\xbd\xef\xbf\xbd", 2},
        {3, 4, {0x41, 0x00, 0x00}, "A\xef\xbf\xbd", 1},
        {5, 6, {0x00, 0xd8, 0x00, 0xd8, 0x00}, "\xef\xbf\xbd\xef\xbf\xbd", 3},
        {5, 7, {0x00, 0xd8, 0x41, 0x00, 0x41}, "\xef\xbf\xbd" "A\xef\xbf\xbd", 2},
        {5, 7, {0x00, 0xd8, 0x00, 0xdc, 0x00}, "\xf0\x90\x80\x80\xef\xbf\xbd", 1},
        {1, 3, {0xd8}, "\xef\xbf\xbd", 1},
        {2, 3, {0x00, 0xd8}, "\xef\xbf\xbd", 1},
    };
    nody_recoder_t none = nody_recoder(3, 0), small = nody_recoder(NODY_UTF8, NODY_UTF8), units = nody_recoder(NODY_UTF16LE, NODY_UTF8);
    static const uint8_t le[] = {0x00, 0xdc, 0x41, 0x00, 0x3c, 0xd8, 0x21};
    uint8_t out[32];
    size_t read, written, more, last;
    for (size_t i = 0; i < sizeof cases / sizeof *cases; i++) {
        const uint8_t *in = (const uint8_t *)cases[i].in;
        size_t len = strlen(cases[i].in), need = strlen(cases[i].want);
        for (size_t at = 0; at <= len; at++) {
            nody_recoder_t recoder = nody_recoder(NODY_UTF8, NODY_UTF8);
            expect(nody_recoder_feed_lossy(&recoder, in, at, out, 32, &read, &written) == NODY_STATUS_DONE && read == at, "a part, lossily");
            expect(nody_recoder_feed_lossy(&recoder, in + at, len - at, out + written, 32 - written, &read, &more) == NODY_STATUS_DONE && read == len - at, "the rest, lossily");
            expect(nody_recoder_finish_lossy(&recoder, out + written + more, 32 - written - more, &last) == NODY_STATUS_DONE, "the end, lossily");
            expect(written + more + last == need && memcmp(out, cases[i].want, need) == 0 && recoder.replaced == cases[i].faults && recoder.count == 0, "one U+FFFD for each maximal subpart");
        }
        expect(nody_recode_lossy(NODY_UTF8, NODY_UTF8, in, len, out, need, &written) == NODY_STATUS_DONE && written == need && memcmp(out, cases[i].want, need) == 0, "at once, lossily");
        expect(nody_recode_lossy(NODY_UTF8, NODY_UTF8, in, len, out, need - 1, &written) == NODY_STATUS_FULL && written < need && memcmp(out, cases[i].want, written) == 0, "no room for all, lossily");
    }
    expect(nody_recoder_feed_lossy(&small, (const uint8_t *)"\xe2\x82" "A", 3, out, 3, &read, &written) == NODY_STATUS_FULL && written == 3, "no room for the A");
    expect(nody_recoder_feed_lossy(&small, (const uint8_t *)"\xe2\x82" "A" + read, 3 - read, out, 1, &read, &written) == NODY_STATUS_DONE && written == 1 && out[0] == 'A', "room for it");
    expect(nody_recoder_feed_lossy(&small, (const uint8_t *)"\xe2\x82", 2, out, 0, &read, &written) == NODY_STATUS_DONE && read == 2 && nody_recoder_finish_lossy(&small, out, 2, &written) == NODY_STATUS_FULL && written == 0 && small.count == 2, "no room for the end");
    expect(nody_recoder_feed_lossy(&units, le, 7, out, 32, &read, &written) == NODY_STATUS_DONE && written == 4 && nody_recoder_finish_lossy(&units, out, 32, &written) == NODY_STATUS_DONE && written == 3 && units.replaced == 3, "a leading surrogate and half a unit");
    for (size_t i = 0; i < sizeof ends / sizeof *ends; i++)
        for (size_t at = 0; at <= ends[i].len; at++)
            for (nody_encoding_t encoding = NODY_UTF16LE; encoding <= NODY_UTF16BE; encoding++) {
                nody_recoder_t recoder = nody_recoder(encoding, NODY_UTF8);
                uint8_t in[8];
                for (size_t k = 0; k < ends[i].len; k++) in[k] = ends[i].in[encoding == NODY_UTF16BE && (k | 1) < ends[i].len ? k ^ 1 : k];
                nody_recoder_feed_lossy(&recoder, in, at, out, 32, &read, &written);
                nody_recoder_feed_lossy(&recoder, in + at, ends[i].len - at, out + written, 32 - written, &read, &more);
                nody_recoder_finish_lossy(&recoder, out + written + more, 32 - written - more, &last);
                expect(written + more + last == ends[i].need && memcmp(out, ends[i].want, ends[i].need) == 0 && recoder.replaced == ends[i].faults, "the end of UTF-16, lossily");
            }
    expect(nody_recoder_feed_lossy(&none, le, 7, out, 32, &read, &written) == NODY_STATUS_REFUSED && read == 0 && written == 0 && nody_recoder_finish_lossy(&none, out, 32, &written) == NODY_STATUS_REFUSED, "no recoder, lossily");
    expect(nody_recode_lossy(3, 0, le, 7, out, 32, &written) == NODY_STATUS_REFUSED && written == 0 && nody_recode_lossy(0, 3, le, 7, out, 32, &written) == NODY_STATUS_REFUSED, "no encoding, lossily");
    expect(nody_recode_lossy(NODY_UTF8, NODY_UTF8, NULL, 0, NULL, 0, &written) == NODY_STATUS_DONE && written == 0, "nothing, lossily");
}

/* A character up to U+FFFF in an encoding; returns its length. */
static size_t put_short(uint8_t to, uint32_t scalar, uint8_t *out) {
    uint8_t high = (uint8_t)(scalar >> 8), low = (uint8_t)scalar;
    if (to != NODY_UTF8) {
        out[0] = to == NODY_UTF16LE ? low : high;
        out[1] = to == NODY_UTF16LE ? high : low;
        return 2;
    }
    if (scalar < 0x80) return out[0] = low, 1;
    out[0] = (uint8_t)(scalar < 0x800 ? 0xC0 | scalar >> 6 : 0xE0 | scalar >> 12);
    if (scalar >= 0x800) out[1] = (uint8_t)(0x80 | (scalar >> 6 & 0x3F));
    out[scalar < 0x800 ? 1 : 2] = (uint8_t)(0x80 | (scalar & 0x3F));
    return scalar < 0x800 ? 2 : 3;
}

/* Windows-1252 from 80 to 9F: the index of the WHATWG Encoding Standard, and Python's cp1252 but for 81, 8D, 8F, 90 and 9D, which it lacks. */
static const uint32_t WINDOWS_1252[32] = {
    0x20AC, 0x0081, 0x201A, 0x0192, 0x201E, 0x2026, 0x2020, 0x2021, 0x02C6, 0x2030, 0x0160, 0x2039, 0x0152, 0x008D, 0x017D, 0x008F,
    0x0090, 0x2018, 0x2019, 0x201C, 0x201D, 0x2022, 0x2013, 0x2014, 0x02DC, 0x2122, 0x0161, 0x203A, 0x0153, 0x009D, 0x017E, 0x0178,
};

/* A table: of a name, or with the numbers at which what they mean changes, 100 of them. */
enum { NOTHING = -1, OWN_LEN = 100 };
static const uint32_t OWN[] = {0, 0x41, 0x7F, 0x80, 0x7FF, 0x800, 0xD7FF, 0xD800, 0xDFFF, 0xE000, 0xFFFD, 0xFFFF, 0x10000, 0x10FFFF, 0x110000, UINT32_MAX};
static uint32_t own[OWN_LEN];

static int32_t meant(nody_repair_t repair, uint32_t byte) {
    uint32_t number = byte - 0x80 < OWN_LEN ? own[byte - 0x80] : UINT32_MAX;
    switch (repair) {
    case NODY_REPAIR_DROP: return NOTHING;
    case NODY_REPAIR_WINDOWS_1252: return (int32_t)(byte < 0xA0 ? WINDOWS_1252[byte - 0x80] : byte);
    case NODY_REPAIR_LATIN_1: return (int32_t)byte;
    default: return number > 0xFFFF || (number >= 0xD800 && number < 0xE000) ? NOTHING : (int32_t)number;
    }
}

/* Whether an input becomes the output by a table, however it is cut in two, and at once; and how many faults are counted. */
static int is_repaired(uint8_t from, uint8_t to, nody_repair_t repair, const uint8_t *in, size_t len, const uint8_t *want, size_t need, uint64_t faults) {
    uint8_t out[32];
    size_t read, written, more, last, most = nody_recoded_len(from, to, in, len);
    for (size_t at = 0; at <= len; at++) {
        nody_recoder_t recoder = nody_recoder(from, to);
        if (nody_recoder_feed_repair(&recoder, in, at, out, 32, repair, own, OWN_LEN, &read, &written) != NODY_STATUS_DONE || read != at) return 0;
        if (nody_recoder_feed_repair(&recoder, in + at, len - at, out + written, 32 - written, repair, own, OWN_LEN, &read, &more) != NODY_STATUS_DONE) return 0;
        if (nody_recoder_finish_repair(&recoder, out + written + more, 32 - written - more, repair, own, OWN_LEN, &last) != NODY_STATUS_DONE) return 0;
        if (written + more + last != need || memcmp(out, want, need) != 0 || recoder.replaced != faults || recoder.count != 0) return 0;
    }
    memset(out, GUARD, sizeof out);
    if (nody_recode_repair(from, to, in, len, out, most, repair, own, OWN_LEN, &written) != NODY_STATUS_DONE || written != need || out[most] != GUARD) return 0;
    if (memcmp(out, want, need) != 0) return 0;
    if (need == 0) return 1;
    if (nody_recode_repair(from, to, in, len, out, need - 1, repair, own, OWN_LEN, &written) != NODY_STATUS_FULL || written + 4 < need) return 0;
    return nody_recode_repair(to, to, want, need, out, need, repair, own, OWN_LEN, &written) == NODY_STATUS_DONE && written == need && memcmp(out, want, need) == 0;
}

/* Each byte of each table, between two characters and at the end, in each encoding. Then faults of UTF-16. */
static void repaired(void) {
    for (size_t i = 0; i < OWN_LEN; i++) own[i] = OWN[i * 7 % (sizeof OWN / sizeof *OWN)];
    for (uint8_t to = 0; to < 3; to++)
        for (nody_repair_t repair = 0; repair <= NODY_REPAIR_TABLE; repair++) {
            for (uint32_t byte = 0x80; byte < 0x100; byte++) {
                const uint8_t in[] = {0xC3, 0xA9, (uint8_t)byte, '!', (uint8_t)byte};
                uint8_t want[32];
                size_t need = put_short(to, 0xE9, want);
                int32_t scalar = meant(repair, byte);
                if (scalar != NOTHING) need += put_short(to, (uint32_t)scalar, want + need);
                need += put_short(to, '!', want + need);
                if (scalar != NOTHING) need += put_short(to, (uint32_t)scalar, want + need);
                expect(is_repaired(NODY_UTF8, to, repair, in, sizeof in, want, need, 2), "a byte by a table");
            }
            for (uint8_t from = NODY_UTF16LE; from <= NODY_UTF16BE; from++) {
                static const uint32_t units[] = {0xDC00, 0xE9, 0xD800, 0x21, 0xD83D};
                uint8_t in[11], want[32];
                size_t need = 0;
                for (size_t i = 0; i < 5; i++) {
                    int is_fault = units[i] >= 0xD800;
                    put_short(from, units[i], in + 2 * i);
                    if (!is_fault || repair != NODY_REPAIR_DROP) need += put_short(to, is_fault ? 0xFFFD : units[i], want + need);
                }
                in[10] = 0x41;
                if (repair != NODY_REPAIR_DROP) need += put_short(to, 0xFFFD, want + need);
                expect(is_repaired(from, to, repair, in, sizeof in, want, need, 4), "surrogates by a table");
            }
        }
}

/* Tables that are empty or too long, capacities that are too small, and what is rejected. */
static void repaired_at_the_edges(void) {
    static const uint8_t in[] = {0x41, 0xE2, 0x82, 0xFF, 0x42}, le[] = {0x00, 0xDC, 0x42, 0x00};
    uint32_t many[130];
    nody_recoder_t recoder = nody_recoder(NODY_UTF8, NODY_UTF8), before, none = nody_recoder(3, 0);
    uint8_t out[32];
    size_t read, written;
    for (size_t i = 0; i < 130; i++) many[i] = 0xFFFF;
    expect(nody_recode_repair(NODY_UTF8, NODY_UTF8, in, 5, out, 32, NODY_REPAIR_TABLE, many, 130, &written) == NODY_STATUS_DONE && written == 11 && memcmp(out, "A\xef\xbf\xbf\xef\xbf\xbf\xef\xbf\xbf" "B", 11) == 0, "a table that is too long");
    expect(nody_recode_repair(NODY_UTF8, NODY_UTF8, in, 5, out, 32, NODY_REPAIR_TABLE, NULL, 0, &written) == NODY_STATUS_DONE && written == 2 && memcmp(out, "AB", 2) == 0, "an empty table");
    expect(nody_recode_repair(NODY_UTF16LE, NODY_UTF8, le, 4, out, 32, NODY_REPAIR_TABLE, NULL, 0, &written) == NODY_STATUS_DONE && written == 1 && out[0] == 'B', "an empty table, of UTF-16");
    expect(nody_recode_repair(NODY_UTF8, NODY_UTF8, NULL, 0, NULL, 0, NODY_REPAIR_DROP, NULL, 0, &written) == NODY_STATUS_DONE && written == 0, "nothing by a table");
    expect(nody_recode_repair(NODY_UTF8, NODY_UTF8, in + 3, 1, NULL, 0, NODY_REPAIR_DROP, NULL, 0, &written) == NODY_STATUS_DONE && written == 0, "no room for nothing");
    expect(nody_recoder_feed_repair(&recoder, in, 3, out, 32, NODY_REPAIR_LATIN_1, NULL, 0, &read, &written) == NODY_STATUS_DONE && written == 1 && recoder.count == 2, "bytes that are held");
    expect(nody_recoder_finish_repair(&recoder, out, 3, NODY_REPAIR_LATIN_1, NULL, 0, &written) == NODY_STATUS_FULL && written == 2 && recoder.replaced == 1, "no room for the end, by a table");
    expect(nody_recoder_finish_repair(&recoder, out, 2, NODY_REPAIR_LATIN_1, NULL, 0, &written) == NODY_STATUS_DONE && written == 2 && memcmp(out, "\xc2\x82", 2) == 0 && recoder.replaced == 2, "room for it");
    nody_recoder_feed(&recoder, in, 3, out, 32, &read, &written);
    memset(out, GUARD, sizeof out);
    for (int repair = NODY_REPAIR_TABLE + 1; repair < 256; repair++) {
        memcpy(&before, &recoder, sizeof before);
        read = written = 9;
        expect(nody_recoder_feed_repair(&recoder, in, 5, out, 32, (nody_repair_t)repair, own, OWN_LEN, &read, &written) == NODY_STATUS_REFUSED && read + written == 0, "no table");
        written = 9;
        expect(nody_recoder_finish_repair(&recoder, out, 32, (nody_repair_t)repair, own, OWN_LEN, &written) == NODY_STATUS_REFUSED && written == 0, "the end by no table");
        written = 9;
        expect(nody_recode_repair(NODY_UTF8, NODY_UTF8, in, 5, out, 32, (nody_repair_t)repair, own, OWN_LEN, &written) == NODY_STATUS_REFUSED && written == 0, "an input by no table");
        expect(memcmp(&before, &recoder, sizeof before) == 0 && out[0] == GUARD, "what is rejected changes nothing");
    }
    expect(nody_recoder_feed_repair(&none, in, 5, out, 32, NODY_REPAIR_DROP, NULL, 0, &read, &written) == NODY_STATUS_REFUSED && nody_recoder_finish_repair(&none, out, 32, NODY_REPAIR_DROP, NULL, 0, &written) == NODY_STATUS_REFUSED && none.replaced == 0, "no recoder, by a table");
    expect(nody_recode_repair(3, NODY_UTF8, in, 5, out, 32, NODY_REPAIR_DROP, NULL, 0, &written) == NODY_STATUS_REFUSED && nody_recode_repair(NODY_UTF8, 3, in, 5, out, 32, NODY_REPAIR_DROP, NULL, 0, &written) == NODY_STATUS_REFUSED && out[0] == GUARD, "no encoding, by a table");
}

/* Transcodes the same bytes again and again, and counts how often the output was wrong. */
static void *of_a_thread(void *wrong) {
    static const uint8_t in[] = {0x41, 0xf0, 0x9f, 0x82, 0xa0, 0xe0, 0x80}, want[] = {0, 0x41, 0xd8, 0x3c, 0xdc, 0xa0, 0xff, 0xfd, 0xff, 0xfd};
    for (int i = 0; i < 25000; i++) *(int *)wrong += !is_recoded(NODY_UTF8, NODY_UTF16BE, in, sizeof in, want, sizeof want, 3, MOST, 4);
    return NULL;
}

static void threads(void) {
    enum { THREADS = 8 };
    pthread_t each[THREADS];
    int wrong[THREADS] = {0}, sum = 0;
    for (int i = 0; i < THREADS; i++) expect(pthread_create(&each[i], NULL, of_a_thread, &wrong[i]) == 0, "a thread");
    for (int i = 0; i < THREADS; i++) pthread_join(each[i], NULL);
    for (int i = 0; i < THREADS; i++) sum += wrong[i];
    expect(sum == 0, "eight threads");
}

/* How much of the stack the calls take. */

#ifndef STACK
#define STACK 5120 /* as noddychest.h says; a library that another compiler makes may take more */
#endif
enum { PAINTED = 1 << 18, TEXT = 8192 };

static unsigned char painted[PAINTED] __attribute__((aligned(4096))), texts[6][3][3 * TEXT], made[9 * TEXT];
static size_t lens[6][3];

/* Texts of ASCII, of two, three and four bytes a character, of all of them, and damaged: in each encoding. */
static void make_texts(void) {
    static const char *const unit[] = {"text ", "\xd1\x82\xd0\xb5", "\xe6\x96\x87\xe5", "\xf0\x9f\x98\x80", "a\xd1\x82\xe6\x96\x87\xf0\x9f\x98\x80", "text\xe6\x96\xff"};
    for (int i = 0; i < 6; i++) {
        size_t len = strlen(unit[i]);
        if (i == 2) len--;
        for (size_t at = 0; at < TEXT; at++) texts[i][0][at] = (unsigned char)unit[i][at % len];
        lens[i][0] = TEXT;
        for (uint8_t encoding = 1; encoding < 3; encoding++) nody_recode(0, encoding, texts[i][0], TEXT, texts[i][encoding], sizeof texts[i][encoding], &lens[i][encoding]);
        if (i == 5)
            for (uint8_t encoding = 1; encoding < 3; encoding++) texts[i][encoding][2 - encoding + 100] = 0xd8;
    }
}

static void *takes_nothing(void *unused) {
    return unused;
}

static void take_units(const uint16_t *units, size_t len) {
    nody_units_t left = nody_units(units, len), back = left;
    nody_piece_t pieces[4];
    nody_located_t found[4];
    uint64_t offset = 0;
    nody_utf16_pieces(&left, pieces, 4);
    nody_utf16_next(&left);
    nody_utf16_next_back(&back);
    nody_utf16_valid_up_to(units, len);
    nody_utf16_char_count(units, len);
    nody_utf16_offset_of(units, len, nody_utf16_number_of(units, len, len / 2));
    back = nody_units(units, len);
    nody_utf16_faults(&back, &offset, found, 4);
    nody_utf16_boundary_before(units, len, len / 2);
    nody_utf16_boundary_after(units, len, len / 2);
}

static void take_bytes(const uint8_t *bytes, size_t len) {
    nody_bytes_t left = nody_bytes(bytes, len), back = left;
    nody_piece_t pieces[4];
    nody_located_t found[4];
    uint64_t offset = 0;
    nody_utf8_pieces(&left, pieces, 4);
    nody_utf8_next(&left);
    (nody_utf8_next)(&left);
    nody_utf8_next_back(&back);
    nody_utf8_streamed_at(bytes, len, 1);
    nody_utf8_valid_up_to(bytes, len);
    nody_utf8_char_count(bytes, len);
    nody_utf8_offset_of(bytes, len, nody_utf8_number_of(bytes, len, len / 2));
    back = nody_bytes(bytes, len);
    nody_utf8_faults(&back, &offset, found, 4);
}

/* The calls for a single piece, the names of kinds and encodings, and the library's version. */
static void take_one(const uint8_t *bytes, const uint16_t *units, size_t len) {
    uint16_t pair[2];
    const nody_name_t *name;
    const nody_sentence_t *sentence;
    nody_piece_t first = nody_utf8_first(bytes, len), last = nody_utf16_last(units, len);
    (nody_utf8_first)(bytes, len);
    nody_utf8_last(bytes, len);
    nody_utf16_first(units, len);
    nody_utf8_encode(first.scalar, made, sizeof made);
    nody_utf16_encode(last.scalar, pair, 2);
    nody_put_kind_name(first.kind, &name);
    nody_put_kind_sentence(last.kind, &sentence);
    nody_version();
    nody_supported();
    nody_lanes();
}

static void decode_in_parts(uint8_t encoding, const uint8_t *in, size_t len) {
    static nody_located_t pieces[2 * TEXT];
    size_t read, written, most = sizeof pieces / sizeof *pieces;
    nody_decoder_t decoder = nody_decoder(encoding);
    nody_recoder_t recoder = nody_recoder(encoding, encoding);
    nody_decoder_feed(&decoder, in, len - 7, pieces, most, &read, &written);
    nody_decoder_feed(&decoder, in + len - 7, 6, pieces, most, &read, &written);
    nody_decoder_finish(&decoder, pieces, most, &written);
    nody_decoder_feed_faults(&decoder, in, len - 7, pieces, most, &read, &written);
    nody_decoder_feed_faults(&decoder, in + len - 7, 6, pieces, most, &read, &written);
    nody_decoder_finish_faults(&decoder, pieces, most, &written);
    nody_recoder_feed(&recoder, in, 1, made, nody_recoded_len_max(encoding, encoding, 1), &read, &written);
    nody_recoder_held(&recoder, made, sizeof made);
    nody_position_t position = nody_position();
    nody_position_advance(&position, encoding, in, len - 7);
    nody_position_advance(&position, encoding, in + len - 7, 7);
    nody_boundary_before(encoding, in, len, len / 2);
    nody_char_count(encoding, in, len);
    nody_offset_of(encoding, in, len, nody_number_of(encoding, in, len, len / 2));
}

static void recode_each_way(uint8_t from, uint8_t to, const uint8_t *in, size_t len) {
    nody_recoder_t a = nody_recoder(from, to), b = a, c = a, d = a;
    nody_fault_t fault;
    nody_encoding_t told = from;
    nody_survey_t survey;
    size_t read, written;
    nody_recode(from, to, in, len, made, sizeof made, &written);
    nody_recoded_len(from, to, in, len);
    nody_recode_strict(from, to, in, len, made, sizeof made, &read, &written, &fault);
    for (size_t cut = len - 7; cut <= len; cut += 7) {
        size_t start = cut == len ? len - 7 : 0;
        nody_recoder_feed(&a, in + start, cut - start, made, sizeof made, &read, &written);
        nody_recoder_feed_strict(&b, in + start, cut - start, made, sizeof made, &read, &written, &fault);
        nody_recoder_feed_lossy(&c, in + start, cut - start, made, sizeof made, &read, &written);
        nody_recoder_feed_repair(&d, in + start, cut - start, made, sizeof made, NODY_REPAIR_TABLE, own, OWN_LEN, &read, &written);
    }
    nody_recoder_finish(&a, made, sizeof made, &written);
    nody_recoder_finish_strict(&b, made, sizeof made, &written, &fault);
    nody_recoder_finish_lossy(&c, made, sizeof made, &written);
    nody_recoder_finish_repair(&d, made, sizeof made, NODY_REPAIR_TABLE, own, OWN_LEN, &written);
    nody_utf16_bytes_valid_up_to(from, in, len);
    nody_shard_end(from, in, len, len / 2);
    nody_boundary_after(from, in, len, len / 2);
    nody_undecided_len(from, in, len / 2 + 1);
    nody_changed_range(from, in, len, len / 2, len / 2 + 1);
    nody_encoding_of_bom(in, len, &told);
    nody_surveyor_t surveyor = nody_surveyor();
    nody_guess_t guesses[3];
    nody_surveyor_feed(&surveyor, in, len);
    nody_surveyor_survey(&surveyor, &survey);
    nody_survey(in, len, &survey);
    nody_guess(&survey);
    nody_guesses(&survey, guesses, 3);
}

static void *takes_all(void *unused) {
    static uint16_t units[3 * TEXT];
    for (int i = 0; i < 6; i++) {
        take_bytes(texts[i][0], lens[i][0]);
        memcpy(units, texts[i][1], lens[i][1]);
        take_units(units, lens[i][1] / 2);
        take_one(texts[i][0], units, 4);
        for (uint8_t from = 0; from < 3; from++) {
            decode_in_parts(from, texts[i][from], lens[i][from]);
            for (uint8_t to = 0; to < 3; to++) recode_each_way(from, to, texts[i][from], lens[i][from]);
        }
    }
    return unused;
}

/* How many bytes of a stack that was painted before have another colour after a thread. */
static size_t taken_by(void *(*calls)(void *)) {
    pthread_t thread;
    pthread_attr_t attributes;
    size_t clean = 0;
    memset(painted, GUARD, PAINTED);
    pthread_attr_init(&attributes);
    expect(pthread_attr_setstack(&attributes, painted, PAINTED) == 0, "a stack of ours");
    expect(pthread_create(&thread, &attributes, calls, NULL) == 0, "a thread on it");
    pthread_join(thread, NULL);
    pthread_attr_destroy(&attributes);
    while (clean < PAINTED && painted[clean] == GUARD) clean++;
    return PAINTED - clean;
}

static void stack(void) {
    size_t idle, busy;
    make_texts();
    idle = taken_by(takes_nothing);
    busy = taken_by(takes_all);
    if (getenv("SHOW_STACK")) printf("%zu bytes of the stack\n", busy - idle);
    expect(busy - idle <= STACK, "what the calls take of the stack");
}

int main(int argc, char **argv) {
    nothing();
    cursors();
    streamed();
    whole_inputs();
    boundaries();
    shards();
    numbers();
    changes();
    faults();
    undecided();
    positions();
    surveyed();
    guessed_again();
    marks();
    words();
    strictly();
    replaced();
    lossy();
    repaired();
    repaired_at_the_edges();
    vectors();
    random_cases(argc > 1 ? strtoul(argv[1], NULL, 10) : 1000);
    if (argc == 2) {
        scalars();
        threads();
        stack();
    }
    return tell();
}

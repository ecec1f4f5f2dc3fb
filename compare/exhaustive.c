/* Calls the library for every input of one to four bytes, and of one or two units, and compares the results with a
 * matcher that is written here by hand: of bytes from the grammar of RFC 3629, section 4, and from D93b of the Unicode standard, of
 * units from RFC 2781, section 2.2. It shares nothing with the library.
 *
 *   exhaustive bytes FIRST LAST    inputs whose first byte is FIRST to LAST
 *   exhaustive units FIRST LAST    inputs whose first unit has FIRST to LAST as its high byte
 *   exhaustive texts FIRST LAST    four bytes, of which the first is FIRST to LAST, in longer texts, which are decoded in blocks
 *   exhaustive windows FIRST LAST  all four bytes, of which the first is FIRST to LAST, at a place of each of many windows of ASCII
 *
 * For each input of bytes or units: the run from the front, the piece at its end, the first kind of a reader of one byte at a time, the
 * first fault, and the converted input. The other pieces from the end, or for such a reader, are tested with the shorter inputs
 * that are left then. For each text or window: the first fault, all faults, and the text converted to UTF-8 and UTF-16LE with one
 * U+FFFD for each maximal subpart. Prints each input that differs, up to twenty, and then `N inputs, M differ`.
 */
#include "noddychest.h"

#include <stdio.h>
#include <stdlib.h>
#include <string.h>

enum { MOST = 4, RECODED = 32, SHOWN = 20, AROUND = 160, WINDOW = 64, WINDOWS = 1 << 16 };

/* Where the four bytes are in a text of AROUND bytes: at the front of a block of 64 bytes, inside one, and over the end of one. */
static const size_t PLACES[] = {0, 30, 62};
/* What fills the rest of the text: a character of each length. */
static const char *const FILLED[] = {"a", "\xD1\x8F", "\xE5\xAD\x97", "\xF0\x9F\x98\x80"};

static unsigned long long inputs, differ;

/* A piece as the matcher finds it. */
typedef struct {
    size_t start, len;
    uint32_t scalar;
    uint8_t kind, merged, back;
} piece;

static int in(unsigned x, unsigned first, unsigned last) { return first <= x && x <= last; }

/* UTF8-tail = %x80-BF */
static int tail(uint8_t byte) { return in(byte, 0x80, 0xBF); }

/* UTF8-3 = %xE0 %xA0-BF UTF8-tail / %xE1-EC 2( UTF8-tail ) / %xED %x80-9F UTF8-tail / %xEE-EF 2( UTF8-tail ) */
static int utf8_3(const uint8_t *b) {
    return (b[0] == 0xE0 && in(b[1], 0xA0, 0xBF) && tail(b[2])) || (in(b[0], 0xE1, 0xEC) && tail(b[1]) && tail(b[2])) ||
           (b[0] == 0xED && in(b[1], 0x80, 0x9F) && tail(b[2])) || (in(b[0], 0xEE, 0xEF) && tail(b[1]) && tail(b[2]));
}

/* UTF8-4 = %xF0 %x90-BF 2( UTF8-tail ) / %xF1-F3 3( UTF8-tail ) / %xF4 %x80-8F 2( UTF8-tail ) */
static int utf8_4(const uint8_t *b) {
    return (b[0] == 0xF0 && in(b[1], 0x90, 0xBF) && tail(b[2]) && tail(b[3])) ||
           (in(b[0], 0xF1, 0xF3) && tail(b[1]) && tail(b[2]) && tail(b[3])) ||
           (b[0] == 0xF4 && in(b[1], 0x80, 0x8F) && tail(b[2]) && tail(b[3]));
}

/* How many bytes the UTF8-char at the front has, or 0 if none is there. */
static size_t utf8_char(const uint8_t *b, size_t len) {
    if (len >= 1 && in(b[0], 0x00, 0x7F)) return 1;
    if (len >= 2 && in(b[0], 0xC2, 0xDF) && tail(b[1])) return 2;
    if (len >= 3 && utf8_3(b)) return 3;
    if (len >= 4 && utf8_4(b)) return 4;
    return 0;
}

/* The scalar of a character of `len` bytes, as section 3 of the RFC lays out its bits. */
static uint32_t utf8_scalar(const uint8_t *b, size_t len) {
    static const uint8_t payload[5] = {0, 0x7F, 0x1F, 0x0F, 0x07};
    uint32_t scalar = b[0] & payload[len];
    for (size_t i = 1; i < len; i++) scalar = scalar << 6 | (b[i] & 0x3F);
    return scalar;
}

/* How many bytes a first byte announces, or 0 if no character begins with it. */
static size_t announced(uint8_t byte) {
    return byte < 0x80 ? 1 : byte < 0xC2 ? 0 : byte < 0xE0 ? 2 : byte < 0xF0 ? 3 : byte < 0xF5 ? 4 : 0;
}

/* What is wrong if no character begins; `early` is for a reader that sees a wrong byte before it sees the end. */
static uint8_t utf8_fault(const uint8_t *b, size_t len, int early) {
    size_t asked = announced(b[0]);
    if (tail(b[0])) return NODY_KIND_UNEXPECTED_CONTINUATION_BYTE;
    if (asked == 0) return NODY_KIND_NON_UTF8_BYTE;
    for (size_t i = 1; early && i < asked && i < len; i++)
        if (!tail(b[i])) return NODY_KIND_INTERRUPTED_SEQUENCE;
    if (len < asked) return NODY_KIND_TOO_FEW_BYTES;
    for (size_t i = 1; i < asked; i++)
        if (!tail(b[i])) return NODY_KIND_INTERRUPTED_SEQUENCE;
    if (b[0] == 0xE0 || b[0] == 0xF0) return NODY_KIND_OVERLONG_ENCODING;
    return b[0] == 0xED ? NODY_KIND_UTF16_RESERVED_CODEPOINT : NODY_KIND_TOO_HIGH_CODEPOINT;
}

/* What is wrong with a last byte that ends no character. */
static uint8_t utf8_fault_back(uint8_t byte) {
    if (tail(byte)) return NODY_KIND_UNEXPECTED_CONTINUATION_BYTE;
    return announced(byte) ? NODY_KIND_TOO_FEW_BYTES : NODY_KIND_NON_UTF8_BYTE;
}

/* The cut of the bytes: characters, and single bytes at which none begins. */
static size_t cut_bytes(const uint8_t *b, size_t len, piece *cut) {
    size_t count = 0;
    for (size_t at = 0; at < len; count++) {
        piece *p = &cut[count];
        size_t n = utf8_char(b + at, len - at);
        p->start = at, p->len = n ? n : 1, p->scalar = n ? utf8_scalar(b + at, n) : 0;
        p->kind = n ? NODY_KIND_OK : utf8_fault(b + at, len - at, 0);
        p->merged = n ? NODY_KIND_OK : utf8_fault(b + at, len - at, 1);
        p->back = n ? NODY_KIND_OK : utf8_fault_back(b[at]);
        at += p->len;
    }
    return count;
}

/* The pieces of UTF-16, by the steps of RFC 2781, section 2.2. */
static size_t cut_units(const uint16_t *w, size_t len, piece *cut) {
    size_t count = 0;
    for (size_t at = 0; at < len; count++) {
        piece *p = &cut[count];
        int has_second = at + 1 < len, is_pair = has_second && in(w[at], 0xD800, 0xDBFF) && in(w[at + 1], 0xDC00, 0xDFFF);
        p->start = at, p->len = is_pair ? 2 : 1, p->kind = p->merged = p->back = NODY_KIND_OK;
        if (w[at] < 0xD800 || w[at] > 0xDFFF) {
            p->scalar = w[at];
        } else if (is_pair) {
            p->scalar = (((uint32_t)w[at] & 0x3FF) << 10 | (w[at + 1] & 0x3FF)) + 0x10000;
        } else {
            int trails = w[at] >= 0xDC00;
            p->scalar = 0;
            p->kind = p->merged = trails ? NODY_KIND_UNEXPECTED_TRAILING_SURROGATE
                                  : has_second ? NODY_KIND_UNMATCHED_LEADING_SURROGATE
                                               : NODY_KIND_INCOMPLETE;
            p->back = trails ? NODY_KIND_UNEXPECTED_TRAILING_SURROGATE : NODY_KIND_INCOMPLETE;
        }
        at += p->len;
    }
    return count;
}

static int same(nody_piece_t given, const piece *p, uint8_t kind) {
    return given.len == p->len && given.scalar == p->scalar && given.kind == kind;
}

static size_t put_utf8(uint32_t s, uint8_t *out) {
    if (s < 0x80) return out[0] = (uint8_t)s, 1;
    if (s < 0x800) return out[0] = (uint8_t)(0xC0 | s >> 6), out[1] = (uint8_t)(0x80 | (s & 0x3F)), 2;
    if (s < 0x10000) {
        return out[0] = (uint8_t)(0xE0 | s >> 12), out[1] = (uint8_t)(0x80 | (s >> 6 & 0x3F)),
               out[2] = (uint8_t)(0x80 | (s & 0x3F)), 3;
    }
    return out[0] = (uint8_t)(0xF0 | s >> 18), out[1] = (uint8_t)(0x80 | (s >> 12 & 0x3F)),
           out[2] = (uint8_t)(0x80 | (s >> 6 & 0x3F)), out[3] = (uint8_t)(0x80 | (s & 0x3F)), 4;
}

static size_t put_unit(uint32_t u, int is_big, uint8_t *out) {
    out[is_big ? 0 : 1] = (uint8_t)(u >> 8);
    out[is_big ? 1 : 0] = (uint8_t)u;
    return 2;
}

static size_t put_utf16(uint32_t s, int is_big, uint8_t *out) {
    if (s < 0x10000) return put_unit(s, is_big, out);
    size_t first = put_unit(0xD800 | (s - 0x10000) >> 10, is_big, out);
    return first + put_unit(0xDC00 | ((s - 0x10000) & 0x3FF), is_big, out + first);
}

/* What the pieces are converted to, U+FFFD for each fault. */
static size_t recoded(const piece *cut, size_t count, uint8_t to, uint8_t *out) {
    size_t made = 0;
    for (size_t i = 0; i < count; i++) {
        uint32_t s = cut[i].kind == NODY_KIND_OK ? cut[i].scalar : 0xFFFD;
        made += to == NODY_UTF8 ? put_utf8(s, out + made) : put_utf16(s, to == NODY_UTF16BE, out + made);
    }
    return made;
}

/* The library's transcoding of the bytes, or more than there is room for where it does not read all of them. */
static size_t recode(uint8_t from, uint8_t to, const uint8_t *bytes, size_t len, uint8_t *out) {
    nody_recoder_t recoder = nody_recoder(from, to);
    size_t read, made, written;
    if (nody_recoder_feed(&recoder, bytes, len, out, RECODED, &read, &made) != NODY_STATUS_DONE || read != len) return RECODED + 1;
    return nody_recoder_finish(&recoder, out + made, RECODED - made, &written) == NODY_STATUS_DONE ? made + written : RECODED + 1;
}

static int recodes(uint8_t from, uint8_t to, const uint8_t *bytes, size_t len, const piece *cut, size_t count) {
    uint8_t want[RECODED], given[RECODED];
    size_t made = recoded(cut, count, to, want);
    return recode(from, to, bytes, len, given) == made && memcmp(given, want, made) == 0;
}

/* The first of the pieces that is a fault, or the end. */
static size_t first_fault(const piece *cut, size_t count, size_t len) {
    for (size_t i = 0; i < count; i++)
        if (cut[i].kind != NODY_KIND_OK) return cut[i].start;
    return len;
}

static int is_bytes_right(const uint8_t *b, size_t len) {
    piece cut[MOST];
    nody_piece_t given[MOST];
    size_t count = cut_bytes(b, len, cut);
    const piece *last = &cut[count - 1];
    nody_bytes_t left = nody_bytes(b, len), ends = nody_bytes(b, len);
    int holds = nody_utf8_pieces(&left, given, MOST) == count && left.len == 0;
    for (size_t i = 0; holds && i < count; i++) holds = same(given[i], &cut[i], cut[i].kind);
    holds = holds && same(nody_utf8_next_back(&ends), last, last->back) && ends.len == last->start;
    holds = holds && same(nody_utf8_streamed_at(b, len, 0), &cut[0], cut[0].merged);
    return holds && nody_utf8_valid_up_to(b, len) == first_fault(cut, count, len) && recodes(NODY_UTF8, NODY_UTF16LE, b, len, cut, count);
}

static int is_units_right(const uint16_t *w, size_t len) {
    piece cut[MOST];
    nody_piece_t given[MOST];
    uint8_t bytes[2 * MOST];
    size_t count = cut_units(w, len, cut), size = 0;
    const piece *last = &cut[count - 1];
    nody_units_t left = nody_units(w, len), ends = nody_units(w, len);
    int holds = nody_utf16_pieces(&left, given, MOST) == count && left.len == 0;
    for (size_t i = 0; holds && i < count; i++) holds = same(given[i], &cut[i], cut[i].kind);
    holds = holds && same(nody_utf16_next_back(&ends), last, last->back) && ends.len == last->start;
    for (size_t i = 0; i < len; i++) size += put_unit(w[i], 1, bytes + size);
    return holds && nody_utf16_valid_up_to(w, len) == first_fault(cut, count, len) && recodes(NODY_UTF16BE, NODY_UTF8, bytes, size, cut, count);
}

/* How many bytes at a fault are a maximal subpart: the longest front of some UTF8-char, and at least one byte. */
static size_t subpart(const uint8_t *b) {
    unsigned low = b[0] == 0xE0 ? 0xA0 : b[0] == 0xF0 ? 0x90 : 0x80, high = b[0] == 0xED ? 0x9F : b[0] == 0xF4 ? 0x8F : 0xBF;
    if (announced(b[0]) < 3 || !in(b[1], low, high)) return 1;
    return announced(b[0]) == 4 && tail(b[2]) ? 3 : 2;
}

/* A text without the four bytes, and what is before and after them if it is converted to UTF-8 and to UTF-16LE. */
typedef struct {
    uint8_t bytes[AROUND], before[2][2 * AROUND], after[2][2 * AROUND];
    size_t place, before_len[2], after_len[2];
} text;

static size_t put(uint32_t scalar, int is_utf16, uint8_t *out) { return is_utf16 ? put_utf16(scalar, 0, out) : put_utf8(scalar, out); }

/* Fills a part of the text with characters. (ASCII is before them where the last one would not fit) */
static void fill(uint8_t *bytes, size_t len, const char *filled, uint8_t out[2][2 * AROUND], size_t made[2]) {
    const uint8_t *one = (const uint8_t *)filled;
    size_t size = strlen(filled);
    made[0] = made[1] = 0;
    for (size_t at = 0; at < len; at += at < len % size ? 1 : size) {
        const uint8_t *taken = at < len % size ? (const uint8_t *)FILLED[0] : one;
        size_t n = utf8_char(taken, strlen((const char *)taken));
        memcpy(bytes + at, taken, n);
        for (int it = 0; it < 2; it++) made[it] += put(utf8_scalar(taken, n), it, out[it] + made[it]);
    }
}

static void fill_text(text *t, size_t place, const char *filled) {
    t->place = place;
    fill(t->bytes, place, filled, t->before, t->before_len);
    fill(t->bytes + place + MOST, AROUND - place - MOST, filled, t->after, t->after_len);
}

/* Whether the text is converted as it should be: what the four bytes become is between what is before and after them. */
static int is_lossy_right(const text *t, const uint8_t *middle, size_t len, int is_utf16) {
    uint8_t given[4 * AROUND];
    size_t written, before = t->before_len[is_utf16], after = t->after_len[is_utf16];
    nody_encoding_t to = is_utf16 ? NODY_UTF16LE : NODY_UTF8;
    nody_status_t status = nody_recode_lossy(NODY_UTF8, to, t->bytes, AROUND, given, sizeof given, &written);
    return status == NODY_STATUS_DONE && written == before + len + after && memcmp(given, t->before[is_utf16], before) == 0 &&
           memcmp(given + before, middle, len) == 0 && memcmp(given + before + len, t->after[is_utf16], after) == 0;
}

/* Compares all calls for a text that has the four bytes; a character begins after them, so none of theirs reaches over their end. */
static int is_text_right(const text *t) {
    piece cut[2 * MOST];
    nody_located_t faults[MOST + 1];
    nody_bytes_t left = nody_bytes(t->bytes, AROUND);
    uint64_t offset = 0;
    uint8_t middle[2][RECODED];
    const uint8_t *four = t->bytes + t->place;
    size_t count = nody_utf8_faults(&left, &offset, faults, MOST + 1), seen = 0, made[2] = {0, 0}, skipped = 0, first = AROUND;
    size_t pieces = cut_bytes(four, 2 * MOST, cut);
    for (size_t i = 0; i < pieces && cut[i].start < MOST; i++) {
        int is_fault = cut[i].kind != NODY_KIND_OK;
        if (is_fault) {
            const nody_located_t *given = &faults[seen];
            if (seen == 0) first = t->place + cut[i].start;
            if (seen++ == count || given->offset != t->place + cut[i].start || given->len != 1 || given->kind != cut[i].kind) return 0;
        }
        if (cut[i].start < skipped) continue;
        if (is_fault) skipped = cut[i].start + subpart(four + cut[i].start);
        for (int it = 0; it < 2; it++) made[it] += put(is_fault ? 0xFFFD : cut[i].scalar, it, middle[it] + made[it]);
    }
    return count == seen && left.len == 0 && nody_utf8_valid_up_to(t->bytes, AROUND) == first && is_lossy_right(t, middle[0], made[0], 0) &&
           is_lossy_right(t, middle[1], made[1], 1);
}

static void add(int holds, const char *what, uint32_t input, size_t len) {
    inputs++;
    if (!holds && differ++ < SHOWN) printf("differs: %s %0*x\n", what, (int)len, input);
}

static void add_bytes(uint32_t input, size_t len) {
    uint8_t b[MOST];
    for (size_t i = 0; i < len; i++) b[i] = (uint8_t)(input >> 8 * (len - 1 - i));
    add(is_bytes_right(b, len), "bytes", input, 2 * len);
}

static void all_bytes(uint32_t first) {
    for (size_t len = 1; len <= MOST; len++)
        for (uint32_t i = 0; i < (uint32_t)1 << 8 * (len - 1); i++) add_bytes(first << 8 * (len - 1) | i, len);
}

/* Whether the four bytes of a text may have this one: every byte from C0 on, of the continuation bytes those that end in 0, 5, A or F,
 * and four ASCII characters. The others are in the ranges of these in the grammar. */
static int is_tried(uint32_t byte) {
    return byte >= 0xC0 || (byte >= 0x80 && byte % 16 % 5 == 0) || byte == 0x00 || byte == 0x0A || byte == 0x41 || byte == 0x7F;
}

static void all_texts(uint32_t first) {
    enum { KINDS = sizeof PLACES / sizeof *PLACES * (sizeof FILLED / sizeof *FILLED) };
    static text texts[KINDS];
    for (size_t i = 0; i < KINDS; i++) fill_text(&texts[i], PLACES[i % 3], FILLED[i / 3]);
    for (uint32_t second = 0; second < 256; second++)
        for (uint32_t third = 0; third < 256; third++)
            for (uint32_t fourth = 0; fourth < 256; fourth++) {
                uint8_t four[MOST] = {(uint8_t)first, (uint8_t)second, (uint8_t)third, (uint8_t)fourth};
                if (!is_tried(first) || !is_tried(second) || !is_tried(third) || !is_tried(fourth)) continue;
                for (size_t i = 0; i < KINDS; i++) {
                    memcpy(texts[i].bytes + texts[i].place, four, MOST);
                    add(is_text_right(&texts[i]), "texts", first << 24 | second << 16 | third << 8 | fourth, 2 * MOST);
                }
            }
}

/* Four bytes in ASCII: their faults, and what they become in UTF-8 and in UTF-16LE. */
typedef struct {
    uint8_t fault_count, starts[MOST], kinds[MOST], made_len[2], made[2][3 * MOST];
} expected;

static expected expect(const uint8_t *four) {
    piece cut[2 * MOST];
    uint8_t bytes[2 * MOST] = {four[0], four[1], four[2], four[3], 'a', 'a', 'a', 'a'};
    size_t count = cut_bytes(bytes, sizeof bytes, cut), skipped = 0;
    expected it = {0, {0}, {0}, {0, 0}, {{0}}};
    for (size_t i = 0; i < count && cut[i].start < MOST; i++) {
        int is_fault = cut[i].kind != NODY_KIND_OK;
        if (is_fault) it.starts[it.fault_count] = (uint8_t)cut[i].start, it.kinds[it.fault_count++] = cut[i].kind;
        if (cut[i].start < skipped) continue;
        if (is_fault) skipped = cut[i].start + subpart(bytes + cut[i].start);
        for (int to = 0; to < 2; to++) it.made_len[to] += (uint8_t)put(is_fault ? 0xFFFD : cut[i].scalar, to, it.made[to] + it.made_len[to]);
    }
    return it;
}

/* All windows in one text: each has four bytes at the same place, and ASCII around them. */
static uint8_t windows[WINDOWS * WINDOW + WINDOW], wanted[4 * sizeof windows], given[4 * sizeof windows];
static expected wants[WINDOWS];

static size_t put_ascii(size_t len, int is_utf16, uint8_t *out) {
    static uint8_t ascii[2][4 * WINDOW];
    if (ascii[0][0] == 0)
        for (size_t i = 0; i < 2 * WINDOW; i++) put('a', 0, ascii[0] + i), put('a', 1, ascii[1] + 2 * i);
    memcpy(out, ascii[is_utf16], len << is_utf16);
    return len << is_utf16;
}

static int are_converted(size_t place, int is_utf16) {
    size_t made = put_ascii(place, is_utf16, wanted), written;
    nody_encoding_t to = is_utf16 ? NODY_UTF16LE : NODY_UTF8;
    for (size_t i = 0; i < WINDOWS; i++) {
        memcpy(wanted + made, wants[i].made[is_utf16], sizeof wants[i].made[is_utf16]);
        made += wants[i].made_len[is_utf16];
        made += put_ascii(i + 1 < WINDOWS ? WINDOW - MOST : 2 * WINDOW - MOST - place, is_utf16, wanted + made);
    }
    nody_status_t status = nody_recode_lossy(NODY_UTF8, to, windows, sizeof windows, given, sizeof given, &written);
    return status == NODY_STATUS_DONE && written == made && memcmp(given, wanted, made) == 0;
}

static int are_listed(size_t place) {
    static nody_located_t faults[1 << 10];
    nody_bytes_t left = nody_bytes(windows, sizeof windows);
    uint64_t offset = 0;
    size_t count = 0, seen = 0;
    for (size_t i = 0; i < WINDOWS; i++)
        for (size_t it = 0; it < wants[i].fault_count; it++, seen++) {
            if (seen == count) count = nody_utf8_faults(&left, &offset, faults, 1 << 10), seen = 0;
            if (seen == count || faults[seen].offset != i * WINDOW + place + wants[i].starts[it] || faults[seen].kind != wants[i].kinds[it]) return 0;
        }
    return seen == count && nody_utf8_faults(&left, &offset, faults, 1) == 0;
}

/* Whether the first fault is found in a part of each window that begins behind the bytes which reach into it. */
static int are_first(size_t place) {
    size_t from = place + MOST > WINDOW ? place + MOST - WINDOW : 0, len = place + 3 * MOST - from;
    for (size_t i = 0; i < WINDOWS; i++) {
        size_t first = wants[i].fault_count ? place + wants[i].starts[0] - from : len;
        if (nody_utf8_valid_up_to(windows + i * WINDOW + from, len) != first) return 0;
    }
    return 1;
}

static void all_windows(uint32_t first) {
    for (uint32_t second = 0; second < 256; second++)
        for (size_t it = 0; it < sizeof PLACES / sizeof *PLACES; it++) {
            memset(windows, 'a', sizeof windows);
            for (uint32_t i = 0; i < WINDOWS; i++) {
                const uint8_t four[MOST] = {(uint8_t)first, (uint8_t)second, (uint8_t)(i >> 8), (uint8_t)i};
                memcpy(windows + i * WINDOW + PLACES[it], four, MOST);
                if (it == 0) wants[i] = expect(four);
            }
            int holds = are_listed(PLACES[it]) && are_first(PLACES[it]) && are_converted(PLACES[it], 0) && are_converted(PLACES[it], 1);
            inputs += WINDOWS - 1;
            add(holds, "windows", first << 8 | second, MOST);
        }
}

static void all_units(uint32_t high) {
    for (uint32_t i = 0; i < 1 << 8; i++) {
        uint16_t w[2] = {(uint16_t)(high << 8 | i), 0};
        add(is_units_right(w, 1), "units", w[0], 4);
        for (uint32_t j = 0; j < 1 << 16; j++) {
            w[1] = (uint16_t)j;
            add(is_units_right(w, 2), "units", (uint32_t)w[0] << 16 | j, 8);
        }
    }
}

int main(int count, char **words) {
    static const struct {
        const char *name;
        void (*all)(uint32_t first);
    } kinds[] = {{"bytes", all_bytes}, {"units", all_units}, {"texts", all_texts}, {"windows", all_windows}};
    size_t kind = 0;
    while (kind < 4 && (count != 4 || strcmp(words[1], kinds[kind].name) != 0)) kind++;
    if (kind == 4) {
        fprintf(stderr, "usage: exhaustive bytes|units|texts|windows FIRST LAST\n");
        return 2;
    }
    uint32_t last = (uint32_t)strtoul(words[3], NULL, 0);
    for (uint32_t first = (uint32_t)strtoul(words[2], NULL, 0); first <= last && first < 256; first++) kinds[kind].all(first);
    printf("%llu inputs, %llu differ\n", inputs, differ);
    return differ != 0;
}

/* Holds the library against a decoder that is written here from the grammar of RFC 3629, section 4, and from RFC 2781, section 2.2,
 * and shares nothing with it: edges COUNT. Each buffer lies between two pages that must not be touched, once at the end of the
 * first and once at the front of the other. Every input is converted with each room of 0 to 14 bytes and each split into two parts,
 * with U+FFFD for faults, which are counted, with one for each maximal subpart (the Unicode standard, D93b), with what a table has for
 * each fault, and strictly, where each fault has to come at its place and with its kind: all inputs of up to three bytes of those that the
 * grammar names, and then
 * COUNT random ones. Of each first part a recoder holds the front of a code alone. Structs of random bytes are rejected, or recode within bounds. Prints what failed, and then
 * `N passed, M failed`. */
#define _DEFAULT_SOURCE
#include "noddychest.h"
#include "rows.h"

#include <sys/mman.h>
#include <unistd.h>

#ifndef MAP_ANONYMOUS
#define MAP_ANONYMOUS 0x20
#endif

enum { MOST = 12, MADE = 4 * MOST, ROOMS = 15, SEVERAL_BLOCKS = 200 };

/* UTF8-1 to UTF8-4, one row for each alternative. */
static const struct {
    size_t len;
    uint8_t first[4], last[4];
} GRAMMAR[] = {
    {1, {0x00}, {0x7F}},
    {2, {0xC2, 0x80}, {0xDF, 0xBF}},
    {3, {0xE0, 0xA0, 0x80}, {0xE0, 0xBF, 0xBF}},
    {3, {0xE1, 0x80, 0x80}, {0xEC, 0xBF, 0xBF}},
    {3, {0xED, 0x80, 0x80}, {0xED, 0x9F, 0xBF}},
    {3, {0xEE, 0x80, 0x80}, {0xEF, 0xBF, 0xBF}},
    {4, {0xF0, 0x90, 0x80, 0x80}, {0xF0, 0xBF, 0xBF, 0xBF}},
    {4, {0xF1, 0x80, 0x80, 0x80}, {0xF3, 0xBF, 0xBF, 0xBF}},
    {4, {0xF4, 0x80, 0x80, 0x80}, {0xF4, 0x8F, 0xBF, 0xBF}},
};

/* A piece, and where it begins, in bytes. */
typedef struct {
    size_t start, len;
    uint32_t scalar; /* U+FFFD for a fault */
    int is_fault;
    nody_kind_t kind;
} cut_piece;

typedef struct {
    size_t count, valid; /* how many, and where the first fault begins */
    cut_piece piece[MOST];
} cut_text;

static size_t matched(const uint8_t *b, size_t len, size_t row) {
    if (len < GRAMMAR[row].len) return 0;
    for (size_t i = 0; i < GRAMMAR[row].len; i++)
        if (b[i] < GRAMMAR[row].first[i] || GRAMMAR[row].last[i] < b[i]) return 0;
    return GRAMMAR[row].len;
}

/* How many bytes the first one asks for, by the grammar: those of a row that begins with it. */
static size_t asked_by(uint8_t first) {
    for (size_t row = 0; row < sizeof GRAMMAR / sizeof *GRAMMAR; row++)
        if (GRAMMAR[row].first[0] <= first && first <= GRAMMAR[row].last[0]) return GRAMMAR[row].len;
    return 0;
}

/* Why no code begins the bytes, by the list of c/noddychest.h. */
static nody_kind_t fault_of_utf8(const uint8_t *b, size_t len) {
    size_t asked = asked_by(b[0]);
    if (0x80 <= b[0] && b[0] <= 0xBF) return NODY_KIND_UNEXPECTED_CONTINUATION_BYTE;
    if (asked == 0) return NODY_KIND_NON_UTF8_BYTE;
    if (len < asked) return NODY_KIND_TOO_FEW_BYTES;
    for (size_t i = 1; i < asked; i++)
        if (b[i] < 0x80 || 0xBF < b[i]) return NODY_KIND_INTERRUPTED_SEQUENCE;
    return b[0] == 0xED ? NODY_KIND_UTF16_RESERVED_CODEPOINT : b[0] == 0xF4 ? NODY_KIND_TOO_HIGH_CODEPOINT : NODY_KIND_OVERLONG_ENCODING;
}

static nody_kind_t fault_of_utf16(uint32_t unit, size_t len) {
    if (len < 2) return NODY_KIND_INCOMPLETE;
    if (0xDC00 <= unit) return NODY_KIND_UNEXPECTED_TRAILING_SURROGATE;
    return len < 4 ? NODY_KIND_INCOMPLETE : NODY_KIND_UNMATCHED_LEADING_SURROGATE;
}

static cut_piece first_of_utf8(const uint8_t *b, size_t len) {
    static const uint32_t lead[5] = {0, 0x7F, 0x1F, 0x0F, 0x07};
    for (size_t row = 0; row < sizeof GRAMMAR / sizeof *GRAMMAR; row++) {
        size_t n = matched(b, len, row);
        uint32_t scalar = n ? b[0] & lead[n] : 0;
        for (size_t i = 1; i < n; i++) scalar = 64 * scalar + (b[i] - 0x80u);
        if (n) return (cut_piece){0, n, scalar, 0, NODY_KIND_OK};
    }
    return (cut_piece){0, 1, 0xFFFD, 1, fault_of_utf8(b, len)};
}

static cut_piece first_of_utf16(const uint8_t *b, size_t len, int is_big) {
    uint32_t u = len < 2 ? 0xDC00 : b[!is_big] * 256u + b[is_big];
    uint32_t v = len < 4 ? 0 : b[2 + !is_big] * 256u + b[2 + is_big];
    if (u < 0xD800 || u > 0xDFFF) return (cut_piece){0, 2, u, 0, NODY_KIND_OK};
    if (u < 0xDC00 && 0xDC00 <= v && v <= 0xDFFF) return (cut_piece){0, 4, 0x10000 + (u - 0xD800) * 0x400 + (v - 0xDC00), 0, NODY_KIND_OK};
    return (cut_piece){0, len < 2 ? 1 : 2, 0xFFFD, 1, fault_of_utf16(u, len)};
}

static cut_text cut(nody_encoding_t encoding, const uint8_t *b, size_t len) {
    cut_text made = {0, len, {{0, 0, 0, 0, NODY_KIND_OK}}};
    for (size_t at = 0; at < len;) {
        cut_piece it = encoding == NODY_UTF8 ? first_of_utf8(b + at, len - at) : first_of_utf16(b + at, len - at, encoding == NODY_UTF16BE);
        it.start = at;
        if (it.is_fault && at < made.valid) made.valid = at;
        made.piece[made.count++] = it;
        at += it.len;
    }
    return made;
}

/* Whether the bytes are the front of a code and not all of it: of a row of the grammar; of units half a one, a leading surrogate, or
 * both. */
static int is_open(nody_encoding_t encoding, const uint8_t *b, size_t len) {
    if (encoding != NODY_UTF8) return len < 2 || (len < 4 && (b[encoding == NODY_UTF16LE] & 0xFC) == 0xD8);
    for (size_t row = 0; row < sizeof GRAMMAR / sizeof *GRAMMAR; row++) {
        size_t same = 0;
        while (same < len && len < GRAMMAR[row].len && GRAMMAR[row].first[same] <= b[same] && b[same] <= GRAMMAR[row].last[same]) same++;
        if (same == len) return 1;
    }
    return 0;
}

/* How many bytes at the end wait for others. */
static size_t open_end(nody_encoding_t encoding, const uint8_t *b, size_t len) {
    cut_text pieces = cut(encoding, b, len);
    for (size_t i = 0; i < pieces.count; i++)
        if (is_open(encoding, b + pieces.piece[i].start, len - pieces.piece[i].start)) return len - pieces.piece[i].start;
    return 0;
}

static size_t put(nody_encoding_t encoding, uint32_t s, uint8_t *out) {
    uint32_t unit[2] = {s, 0};
    size_t units = 1;
    if (encoding == NODY_UTF8) {
        size_t len = s < 0x80 ? 1 : s < 0x800 ? 2 : s < 0x10000 ? 3 : 4;
        static const uint8_t mark[5] = {0, 0, 0xC0, 0xE0, 0xF0};
        for (size_t i = len; i-- > 1; s /= 64) out[i] = (uint8_t)(0x80 + s % 64);
        out[0] = (uint8_t)(mark[len] + s);
        return len;
    }
    if (s >= 0x10000) {
        unit[0] = 0xD800 + (s - 0x10000) / 0x400;
        unit[1] = 0xDC00 + (s - 0x10000) % 0x400;
        units = 2;
    }
    for (size_t i = 0; i < units; i++) {
        out[2 * i + (encoding == NODY_UTF16LE)] = (uint8_t)(unit[i] / 256);
        out[2 * i + (encoding == NODY_UTF16BE)] = (uint8_t)(unit[i] % 256);
    }
    return 2 * units;
}

/* Pages that can be written, between two that cannot be touched. */
typedef struct {
    uint8_t *front, *end;
} fenced;

static fenced in_fence, out_fence;

static fenced fence(void) {
    size_t page = (size_t)sysconf(_SC_PAGESIZE);
    uint8_t *all = mmap(NULL, 3 * page, PROT_NONE, MAP_PRIVATE | MAP_ANONYMOUS, -1, 0);
    if (all == MAP_FAILED || mprotect(all + page, page, PROT_READ | PROT_WRITE) != 0) stop("no pages", "to fence in");
    return (fenced){all + page, all + 2 * page};
}

/* So many bytes at the front of the pages, or at their end. */
static uint8_t *fenced_bytes(fenced pages, size_t len, int at_end) { return at_end ? pages.end - len : pages.front; }

static char shown[8 * MOST];
static int at_end;

static void say(nody_encoding_t from, nody_encoding_t to, const uint8_t *in, size_t len) {
    int n = sprintf(shown, "%d to %d:", from, to);
    for (size_t i = 0; i < len; i++) n += sprintf(shown + n, " %02x", in[i]);
}

/* How many of the pieces whose output has `made` bytes are faults, or SIZE_MAX if no number of pieces has that output. */
static size_t replaced_in(nody_encoding_t to, const cut_text *pieces, size_t made) {
    size_t len = 0, count = 0;
    for (size_t i = 0; i < pieces->count && len < made; i++) {
        uint8_t code[4];
        len += put(to, pieces->piece[i].scalar, code);
        count += (size_t)pieces->piece[i].is_fault;
    }
    return len == made ? count : SIZE_MAX;
}

/* Feeds the two parts into room after room. A room of less than four bytes that cannot make progress is made one of fourteen. After
 * each call the recoder has counted the faults of which something was written. */
static int is_recoded_in(nody_encoding_t from, nody_encoding_t to, const uint8_t *in, size_t len, size_t split, size_t room, const cut_text *pieces, const uint8_t *want, size_t need) {
    nody_recoder_t recoder = nody_recoder(from, to);
    size_t place = 0, made = 0, end = split;
    for (int calls = 0; calls < 200; calls++) {
        uint8_t *out = fenced_bytes(out_fence, room, at_end);
        size_t read = 0, written = 0;
        int is_last = place == len && end == len;
        nody_status_t status = is_last ? nody_recoder_finish(&recoder, out, room, &written)
                                       : nody_recoder_feed(&recoder, in + place, end - place, out, room, &read, &written);
        if (status == NODY_STATUS_REFUSED || written > room || read > end - place || made + written > need) return 0;
        if (memcmp(out, want + made, written) != 0) return 0;
        made += written;
        place += read;
        if (recoder.replaced != replaced_in(to, pieces, made)) return 0;
        if (status == NODY_STATUS_DONE && is_last) return made == need && nody_recoder_held(&recoder, NULL, 0) == 0;
        if (status == NODY_STATUS_DONE && place != end) return 0;
        if (status == NODY_STATUS_DONE) end = len;
        if (status == NODY_STATUS_FULL && read + written == 0) {
            if (room >= 4) return 0;
            room = ROOMS - 1;
        }
    }
    return 0;
}

/* How many bytes the maximal subpart has that begins the bytes, if no character does: the longest front of a code, or one. Of UTF-16
 * it is a unit or an odd byte, or a leading surrogate with an odd byte that ends the input. */
static size_t subpart_len(nody_encoding_t encoding, const uint8_t *b, size_t len) {
    if (encoding != NODY_UTF8 && len == 3 && (b[encoding == NODY_UTF16LE] & 0xFC) == 0xD8) return 3;
    if (encoding != NODY_UTF8) return len < 2 ? 1 : 2;
    for (size_t n = len < 3 ? len : 3; n > 1; n--)
        if (is_open(encoding, b, n)) return n;
    return 1;
}

/* Transcodes the bytes with one U+FFFD for each maximal subpart; returns the length of the output. */
static size_t lossy_of(nody_encoding_t from, nody_encoding_t to, const uint8_t *in, size_t len, const cut_text *pieces, uint8_t *out) {
    size_t made = 0, at = 0;
    for (size_t i = 0; i < pieces->count; i++) {
        const cut_piece *it = &pieces->piece[i];
        if (it->start < at) continue;
        made += put(to, it->scalar, out + made);
        at = it->start + (it->is_fault ? subpart_len(from, in + it->start, len - it->start) : it->len);
    }
    return made;
}

/* A table of random numbers, and what a fault becomes by it. */
typedef struct {
    int is_lossy; /* by no table, but with one U+FFFD for each maximal subpart */
    nody_repair_t repair;
    const uint32_t *table;
    size_t len;
} manner;

static const manner LOSSY = {1, NODY_REPAIR_DROP, NULL, 0};

static nody_status_t feed_by(const manner *by, nody_recoder_t *recoder, const uint8_t *in, size_t len, uint8_t *out, size_t room, size_t *read, size_t *written) {
    if (by->is_lossy) return nody_recoder_feed_lossy(recoder, in, len, out, room, read, written);
    return nody_recoder_feed_repair(recoder, in, len, out, room, by->repair, by->table, by->len, read, written);
}

static nody_status_t finish_by(const manner *by, nody_recoder_t *recoder, uint8_t *out, size_t room, size_t *written) {
    if (by->is_lossy) return nody_recoder_finish_lossy(recoder, out, room, written);
    return nody_recoder_finish_repair(recoder, out, room, by->repair, by->table, by->len, written);
}

/* is_recoded_in for the lossy calls and for those with a table. Both count each fault. */
static int is_made_in(const manner *by, nody_encoding_t from, nody_encoding_t to, const uint8_t *in, size_t len, size_t split, size_t room, const uint8_t *want, size_t need, size_t replaced) {
    nody_recoder_t recoder = nody_recoder(from, to);
    size_t place = 0, made = 0, end = split;
    for (int calls = 0; calls < 200; calls++) {
        uint8_t *out = fenced_bytes(out_fence, room, at_end);
        size_t read = 0, written = 0;
        int is_last = place == len && end == len;
        nody_status_t status = is_last ? finish_by(by, &recoder, out, room, &written) : feed_by(by, &recoder, in + place, end - place, out, room, &read, &written);
        if (status == NODY_STATUS_REFUSED || written > room || read > end - place || made + written > need) return 0;
        if (memcmp(out, want + made, written) != 0 || recoder.replaced > replaced) return 0;
        made += written;
        place += read;
        if (status == NODY_STATUS_DONE && is_last) return made == need && recoder.replaced == replaced && nody_recoder_held(&recoder, NULL, 0) == 0;
        if (status == NODY_STATUS_DONE && place != end) return 0;
        if (status == NODY_STATUS_DONE) end = len;
        if (status == NODY_STATUS_FULL && read + written == 0) {
            if (room >= 4) return 0;
            room = ROOMS - 1;
        }
    }
    return 0;
}

static int are_lossy(nody_encoding_t from, nody_encoding_t to, const uint8_t *in, size_t len, const cut_text *pieces) {
    uint8_t want[MADE];
    size_t need = lossy_of(from, to, in, len, pieces, want), faults = 0;
    for (size_t i = 0; i < pieces->count; i++) faults += (size_t)pieces->piece[i].is_fault;
    for (size_t room = 0; room < ROOMS; room++)
        for (size_t split = 0; split <= len; split++)
            if (!is_made_in(&LOSSY, from, to, in, len, split, room, want, need, faults)) return 0;
    return 1;
}

/* Transcodes the bytes by a table; returns the length of the output. */
static size_t repaired_of(const manner *by, nody_encoding_t from, nody_encoding_t to, const uint8_t *in, const cut_text *pieces, uint8_t *out, size_t *faults) {
    size_t made = 0;
    *faults = 0;
    for (size_t i = 0; i < pieces->count; i++) {
        const cut_piece *it = &pieces->piece[i];
        uint32_t scalar = it->scalar;
        int is_byte = it->is_fault && from == NODY_UTF8, is_unit = it->is_fault && from != NODY_UTF8;
        if (is_byte && by->repair == NODY_REPAIR_LATIN_1) scalar = in[it->start];
        if (is_byte && by->repair == NODY_REPAIR_TABLE) scalar = in[it->start] - 0x80U < by->len ? by->table[in[it->start] - 0x80] : 0xD800;
        if (is_unit && by->repair == NODY_REPAIR_TABLE && by->len == 0) scalar = 0xD800;
        if (it->is_fault && by->repair == NODY_REPAIR_DROP) scalar = 0xD800;
        if (!it->is_fault || (scalar < 0x10000 && (scalar < 0xD800 || scalar > 0xDFFF))) made += put(to, scalar, out + made);
        *faults += (size_t)it->is_fault;
    }
    return made;
}

/* Drops what is invalid, takes it for ISO-8859-1, or asks a table, in turn. */
static int are_repaired(nody_encoding_t from, nody_encoding_t to, const uint8_t *in, size_t len, const cut_text *pieces) {
    static uint32_t table[128];
    static unsigned turn;
    manner by = {0, NODY_REPAIR_DROP, NULL, 0};
    uint8_t want[MADE];
    turn = turn * 1664525 + 1013904223;
    by.repair = (nody_repair_t)(turn >> 29 & 3);
    if (by.repair == NODY_REPAIR_WINDOWS_1252) by.repair = NODY_REPAIR_TABLE;
    if (by.repair == NODY_REPAIR_TABLE) by.table = table, by.len = turn >> 20 & 1 ? 128 : turn >> 21 & 127;
    for (size_t i = 0; i < by.len; i++) table[i] = (uint32_t)(turn >> 3) * (uint32_t)(i + 1) >> (turn >> 22 & 15);
    size_t faults, need = repaired_of(&by, from, to, in, pieces, want, &faults);
    for (size_t room = 0; room < ROOMS; room++)
        for (size_t split = 0; split <= len; split++)
            if (!is_made_in(&by, from, to, in, len, split, room, want, need, faults)) return 0;
    return 1;
}

/* Given enough capacity, the carried-over bytes are those at the end that wait for others, and no more. */
static int is_held(nody_encoding_t from, nody_encoding_t to, const uint8_t *in, size_t len) {
    nody_recoder_t recoder = nody_recoder(from, to);
    uint8_t *out = fenced_bytes(out_fence, MADE, at_end), held[3];
    size_t read, written, wait = open_end(from, in, len);
    if (nody_recoder_feed(&recoder, in, len, out, MADE, &read, &written) != NODY_STATUS_DONE) return 0;
    return nody_recoder_held(&recoder, held, 3) == wait && memcmp(held, in + len - wait, wait) == 0;
}

static int is_recoded_at_once(nody_encoding_t from, nody_encoding_t to, const uint8_t *in, size_t len, size_t room, const uint8_t *want, size_t need) {
    uint8_t *out = fenced_bytes(out_fence, room, at_end);
    size_t written = MADE + 1;
    nody_status_t status = nody_recode(from, to, in, len, out, room, &written);
    if (written > room || memcmp(out, want, written) != 0) return 0;
    if (room >= need) return status == NODY_STATUS_DONE && written == need;
    return status == NODY_STATUS_FULL && (need - written <= 4 || room - written < 4);
}

/* What the characters are in another encoding, faults left out: `at` says where that of each piece begins. */
typedef struct {
    uint8_t bytes[MADE];
    size_t at[MOST + 1];
} cut_output;

static cut_output text_of(nody_encoding_t to, const cut_text *pieces) {
    cut_output made;
    made.at[0] = 0;
    for (size_t i = 0; i < pieces->count; i++)
        made.at[i + 1] = made.at[i] + (pieces->piece[i].is_fault ? 0 : put(to, pieces->piece[i].scalar, made.bytes + made.at[i]));
    return made;
}

/* The number of the first fault from a piece on, or how many pieces there are. */
static size_t next_fault(const cut_text *pieces, size_t i) {
    while (i < pieces->count && !pieces->piece[i].is_fault) i++;
    return i;
}

static int is_no_fault(const nody_fault_t *fault) { return fault->kind == NODY_KIND_NONE && fault->len == 0 && fault->back == 0; }

/* is_recoded_in in strict mode: each fault comes at its offset, with its length and kind, after all that is before it and nothing else. */
static int is_strict_in(nody_encoding_t from, nody_encoding_t to, const uint8_t *in, size_t len, size_t split, size_t room, const cut_text *pieces, const cut_output *want) {
    nody_recoder_t recoder = nody_recoder(from, to);
    size_t place = 0, made = 0, end = split, next = next_fault(pieces, 0);
    for (int calls = 0; calls < 200; calls++) {
        uint8_t *out = fenced_bytes(out_fence, room, at_end);
        size_t read = 0, written = 99;
        nody_fault_t fault = {99, 99, NODY_KIND_OK};
        int is_last = place == len && end == len;
        nody_status_t status = is_last ? nody_recoder_finish_strict(&recoder, out, room, &written, &fault)
                                       : nody_recoder_feed_strict(&recoder, in + place, end - place, out, room, &read, &written, &fault);
        if (status == NODY_STATUS_REFUSED || written > room || read > end - place || made + written > want->at[next]) return 0;
        if (memcmp(out, want->bytes + made, written) != 0) return 0;
        made += written;
        place += read;
        if (status == NODY_STATUS_FAULT) {
            const cut_piece *it = &pieces->piece[next];
            if (next == pieces->count || made != want->at[next]) return 0;
            if (fault.len != it->len || fault.kind != it->kind || place - fault.back != it->start) return 0;
            next = next_fault(pieces, next + 1);
            continue;
        }
        if (!is_no_fault(&fault) || recoder.replaced != 0) return 0;
        if (status == NODY_STATUS_DONE && is_last) return next == pieces->count && made == want->at[next] && nody_recoder_held(&recoder, NULL, 0) == 0;
        if (status == NODY_STATUS_DONE && place != end) return 0;
        if (status == NODY_STATUS_DONE) end = len;
        if (status == NODY_STATUS_FULL && written == 0) {
            if (room >= 4) return 0;
            room = ROOMS - 1;
        }
    }
    return 0;
}

/* Given enough capacity, a strict recoder carries over what follows decides: from the first fault on whose kind says that something is missing. */
static int is_held_strictly(nody_encoding_t from, nody_encoding_t to, const uint8_t *in, size_t len) {
    nody_recoder_t recoder = nody_recoder(from, to);
    cut_text pieces = cut(from, in, len);
    uint8_t *out = fenced_bytes(out_fence, MADE, at_end), held[3];
    size_t place = 0, read, written, wait = 0;
    nody_fault_t fault;
    for (size_t i = pieces.count; i-- > 0;)
        if (pieces.piece[i].kind == NODY_KIND_TOO_FEW_BYTES || pieces.piece[i].kind == NODY_KIND_INCOMPLETE) wait = len - pieces.piece[i].start;
    for (int calls = 0; calls <= MOST; calls++) {
        nody_status_t status = nody_recoder_feed_strict(&recoder, in + place, len - place, out, MADE, &read, &written, &fault);
        place += read;
        if (status == NODY_STATUS_DONE) return nody_recoder_held(&recoder, held, 3) == wait && memcmp(held, in + len - wait, wait) == 0;
        if (status != NODY_STATUS_FAULT) return 0;
    }
    return 0;
}

/* In one call all up to the first fault is converted, or as many characters as fit. */
static int is_strict_at_once(nody_encoding_t from, nody_encoding_t to, const uint8_t *in, size_t len, size_t room, const cut_text *pieces, const cut_output *want) {
    uint8_t *out = fenced_bytes(out_fence, room, at_end);
    size_t first = next_fault(pieces, 0), count = 0, read = 99, written = 99;
    nody_fault_t fault = {99, 99, NODY_KIND_OK};
    nody_status_t status = nody_recode_strict(from, to, in, len, out, room, &read, &written, &fault);
    while (count < first && want->at[count + 1] <= room) count++;
    if (read != (count < pieces->count ? pieces->piece[count].start : len)) return 0;
    if (written != want->at[count] || memcmp(out, want->bytes, written) != 0) return 0;
    if (count < first) return status == NODY_STATUS_FULL && is_no_fault(&fault);
    if (first == pieces->count) return status == NODY_STATUS_DONE && is_no_fault(&fault);
    return status == NODY_STATUS_FAULT && fault.len == pieces->piece[first].len && fault.kind == pieces->piece[first].kind && fault.back == 0;
}

static int are_strict(nody_encoding_t from, nody_encoding_t to, const uint8_t *in, size_t len, const cut_text *pieces) {
    cut_output want = text_of(to, pieces);
    for (size_t room = 0; room < ROOMS; room++) {
        if (!is_strict_at_once(from, to, in, len, room, pieces, &want)) return 0;
        for (size_t split = 0; split <= len; split++)
            if (!is_strict_in(from, to, in, len, split, room, pieces, &want)) return 0;
    }
    for (size_t split = 0; split <= len; split++)
        if (!is_held_strictly(from, to, in, split)) return 0;
    return 1;
}

static void recodings(nody_encoding_t from, const uint8_t *in, size_t len, const cut_text *pieces) {
    for (int other = 0; other < 3; other++) {
        nody_encoding_t to = (nody_encoding_t)other;
        uint8_t want[MADE];
        size_t need = 0;
        int holds = 1;
        for (size_t i = 0; i < pieces->count; i++) need += put(to, pieces->piece[i].scalar, want + need);
        for (size_t room = 0; room < ROOMS; room++) {
            holds = holds && is_recoded_at_once(from, to, in, len, room, want, need);
            for (size_t split = 0; split <= len; split++) holds = holds && is_recoded_in(from, to, in, len, split, room, pieces, want, need);
        }
        for (size_t split = 0; split <= len; split++) holds = holds && is_held(from, to, in, split);
        say(from, to, in, len);
        expect(holds && nody_recoded_len(from, to, in, len) == need && need <= nody_recoded_len_max(from, to, len), "recoded", shown);
        expect(are_strict(from, to, in, len, pieces), "recoded strictly", shown);
        expect(are_lossy(from, to, in, len, pieces), "recoded lossily", shown);
        expect(are_repaired(from, to, in, len, pieces), "recoded by a table", shown);
    }
}

/* Whether the offset is inside a character, or a code unit. */
static int is_over(nody_encoding_t encoding, const cut_text *pieces, size_t len, size_t at) {
    if (at < len && encoding != NODY_UTF8 && at % 2) return 1;
    for (size_t i = 0; i < pieces->count; i++)
        if (!pieces->piece[i].is_fault && pieces->piece[i].start < at && at < pieces->piece[i].start + pieces->piece[i].len) return 1;
    return 0;
}

/* Whether a place lies inside a character, a maximal subpart or a unit. */
static int is_in_part(nody_encoding_t encoding, const uint8_t *in, size_t len, const cut_text *pieces, size_t at) {
    size_t end = 0;
    for (size_t i = 0; i < pieces->count; i++) {
        size_t start = pieces->piece[i].start;
        if (start < end) continue;
        end = start + (pieces->piece[i].is_fault ? subpart_len(encoding, in + start, len - start) : pieces->piece[i].len);
        if (start < at && at < end) return 1;
    }
    return 0;
}

static int are_boundaries(nody_encoding_t encoding, const uint8_t *in, size_t len, const cut_text *pieces) {
    for (size_t at = 0; at <= len + 1; at++) {
        size_t before = at < len ? at : len, after = before;
        while (is_over(encoding, pieces, len, before)) before--;
        while (is_over(encoding, pieces, len, after)) after++;
        if (nody_boundary_before(encoding, in, len, at) != before || nody_boundary_after(encoding, in, len, at) != after) return 0;
        while (is_in_part(encoding, in, len, pieces, before)) before--;
        if (nody_shard_end(encoding, in, len, at) != before) return 0;
    }
    return 1;
}

/* How many bytes at the end depend on what follows: the front of a character, after which nothing but its continuation bytes came. */
static size_t undecided(nody_encoding_t encoding, const uint8_t *in, size_t len) {
    size_t odd = len % 2;
    if (encoding != NODY_UTF8) return len >= 2 && (in[len - odd - (encoding == NODY_UTF16BE ? 2 : 1)] & 0xFC) == 0xD8 ? 2 + odd : odd;
    for (size_t left = len < 3 ? len : 3; left > 0; left--) {
        uint8_t first = in[len - left];
        size_t needs = first < 0xC2 || first > 0xF4 ? 1 : first < 0xE0 ? 2 : first < 0xF0 ? 3 : 4, more = 1;
        while (more < left && (in[len - left + more] & 0xC0) == 0x80) more++;
        if (needs > left && more == left) return left;
    }
    return 0;
}

static int is_mark(const uint8_t *in, size_t len) {
    static const uint8_t utf8[] = {0xEF, 0xBB, 0xBF}, le[] = {0xFF, 0xFE}, be[] = {0xFE, 0xFF};
    nody_encoding_t encoding = NODY_UTF16BE;
    size_t mark = nody_encoding_of_bom(in, len, &encoding);
    if (len >= 3 && memcmp(in, utf8, 3) == 0) return mark == 3 && encoding == NODY_UTF8;
    if (len >= 2 && memcmp(in, le, 2) == 0) return mark == 2 && encoding == NODY_UTF16LE;
    return mark == (len >= 2 && memcmp(in, be, 2) == 0 ? 2 : 0) && encoding == NODY_UTF16BE;
}

/* Only the faults, with rooms for one to three, and from an offset at which 64 bits end. */
static int are_faults(const uint8_t *in, size_t len, const nody_piece_t *all, size_t count) {
    for (size_t room = 1; room < 4; room++) {
        nody_bytes_t left = nody_bytes(in, len);
        nody_located_t found[4];
        uint64_t offset = UINT64_MAX - 1, place = offset;
        size_t have = 0, next = 0;
        for (size_t i = 0; i < count; place += all[i++].len) {
            if (all[i].kind == NODY_KIND_OK) continue;
            if (next == have) {
                next = 0;
                memset(found, 77, sizeof found);
                have = nody_utf8_faults(&left, &offset, found, room);
                if (have == 0 || have > room || found[have].len != 77 || found[room].len != 77) return 0;
            }
            if (found[next].offset != place || found[next].kind != all[i].kind || found[next].len != 1 || found[next].scalar != 0) return 0;
            next++;
        }
        if (next != have || nody_utf8_faults(&left, &offset, found, room) != 0 || left.len != 0 || offset != place) return 0;
    }
    return 1;
}

/* The offset of each number, and the number at each offset, of bytes in an encoding. */
static int are_numbers_in(nody_encoding_t encoding, const uint8_t *in, size_t len, const cut_text *pieces) {
    for (size_t number = 0; number <= pieces->count + 1; number++)
        if (nody_offset_of(encoding, in, len, number) != (number < pieces->count ? pieces->piece[number].start : len)) return 0;
    for (size_t at = 0; at <= len + 1; at++) {
        size_t number = 0;
        while (number < pieces->count && pieces->piece[number].start < at) number++;
        if (nody_number_of(encoding, in, len, at) != number) return 0;
    }
    return nody_char_count(encoding, in, len) == pieces->count && nody_offset_of(encoding, in, len, SIZE_MAX) == len && nody_number_of(encoding, in, len, SIZE_MAX) == pieces->count;
}

/* The offset of each character by number, and the reverse, in bytes and in code units of any width. */
static int are_numbers(nody_encoding_t encoding, const uint8_t *in, size_t len, const cut_text *pieces) {
    size_t wide = encoding == NODY_UTF8 ? 1 : 2, ends = len / wide;
    uint16_t units[MOST];
    memcpy(units, in, len);
    for (size_t number = 0; number <= pieces->count + 1; number++) {
        size_t offset = number < pieces->count ? pieces->piece[number].start / wide : ends;
        if ((wide == 1 ? nody_utf8_offset_of(in, len, number) : nody_utf16_offset_of(units, ends, number)) != offset) return 0;
    }
    for (size_t at = 0; at <= ends + 1; at++) {
        size_t number = 0;
        while (number < pieces->count && pieces->piece[number].start < at * wide) number++;
        if ((wide == 1 ? nody_utf8_number_of(in, len, at) : nody_utf16_number_of(units, ends, at)) != number) return 0;
    }
    return nody_utf8_offset_of(in, len, SIZE_MAX) == len && nody_utf8_number_of(in, len, SIZE_MAX) == nody_utf8_char_count(in, len);
}

/* Whether the pieces that begin before an offset, or from one on, are equal in both, if offset `was` of the old is `is` of the new. */
static int are_same(const cut_text *old, const cut_text *new, size_t from, size_t to, size_t was, size_t is) {
    size_t i = 0, j = 0;
    while (i < old->count && old->piece[i].start < from) i++;
    while (j < new->count && new->piece[j].start + was < from + is) j++;
    for (; i < old->count && old->piece[i].start < to; i++, j++) {
        const cut_piece *a = &old->piece[i], *b = &new->piece[j];
        if (j == new->count || a->start + is != b->start + was) return 0;
        if (a->len != b->len || a->scalar != b->scalar || a->is_fault != b->is_fault || a->kind != b->kind) return 0;
    }
    return j == new->count || new->piece[j].start + was >= to + is;
}

/* Any bytes in place of a part: what the range leaves out is as it was. Of UTF-16 what follows is so if the length changes by units. */
static int is_range_of(nody_encoding_t encoding, const uint8_t *in, size_t len, const cut_text *pieces, size_t start, size_t end, nody_range_t range) {
    static const uint8_t put[] = {0x00, 0x41, 0x80, 0xBF, 0xC3, 0xD8, 0xDC, 0xE2, 0xED, 0xF0, 0xF4};
    for (size_t n = 0; n < 12; n++) {
        uint8_t made[MOST];
        size_t come = n == 0 ? 0 : n < 4 ? n : 1 + n % 2, all = start + come + (len - end);
        if (all > MOST) continue;
        memcpy(made, in, start);
        for (size_t i = 0; i < come; i++) made[start + i] = put[(n * n + len + i * start) % sizeof put];
        memcpy(made + start + come, in + end, len - end);
        cut_text now = cut(encoding, made, all);
        if (!are_same(pieces, &now, 0, range.start, 0, 0)) return 0;
        if (encoding != NODY_UTF8 && (come + (end - start)) % 2) continue;
        if (!are_same(pieces, &now, range.end, len + 1, end, start + come)) return 0;
    }
    return 1;
}

static int are_changes(nody_encoding_t encoding, const uint8_t *in, size_t len, const cut_text *pieces) {
    for (size_t end = 0; end <= len; end++)
        for (size_t start = 0; start <= end; start++) {
            size_t from = start < 3 ? 0 : start - 3, to = end + 3 < len ? end + 3 : len;
            nody_range_t range = nody_changed_range(encoding, in, len, start, end);
            while (is_over(encoding, pieces, len, from)) from--;
            while (is_over(encoding, pieces, len, to)) to++;
            if (range.start != from || range.end != to || !is_range_of(encoding, in, len, pieces, start, end, range)) return 0;
        }
    return 1;
}

static int alike(nody_piece_t a, nody_piece_t b) { return a.scalar == b.scalar && a.kind == b.kind && a.len == b.len; }

static int are_pieces(const uint8_t *in, size_t len, const cut_text *pieces) {
    nody_bytes_t front = nody_bytes(in, len), back = front;
    nody_piece_t all[MOST];
    nody_bytes_t left = front;
    if (nody_utf8_pieces(&left, all, MOST) != pieces->count || nody_utf8_char_count(in, len) != pieces->count) return 0;
    if (!are_faults(in, len, all, pieces->count)) return 0;
    for (size_t i = 0; i < pieces->count; i++) {
        const cut_piece *it = &pieces->piece[i], *last = &pieces->piece[pieces->count - 1 - i];
        nody_bytes_t called = front;
        nody_piece_t first = nody_utf8_first(front.bytes, front.len), first_by_call = (nody_utf8_first)(front.bytes, front.len);
        nody_piece_t by_call = (nody_utf8_next)(&called), next = nody_utf8_next(&front), end = nody_utf8_next_back(&back), here = nody_utf8_streamed_at(in, len, it->start);
        if (next.len != it->len || (next.kind != NODY_KIND_OK) != it->is_fault || next.scalar != (it->is_fault ? 0 : it->scalar)) return 0;
        if (all[i].len != it->len || all[i].kind != next.kind || all[i].scalar != next.scalar) return 0;
        if (end.len != last->len || end.scalar != (last->is_fault ? 0 : last->scalar)) return 0;
        if (here.len != next.len || here.scalar != next.scalar) return 0;
        if (!alike(by_call, next) || !alike(first, next) || !alike(first_by_call, next)) return 0;
        if (called.bytes != front.bytes || called.len != front.len) return 0;
    }
    return front.len == 0 && back.len == 0;
}

static void all_of(const uint8_t *bytes, size_t len) {
    for (at_end = 0; at_end < 2; at_end++) {
        uint8_t *in = fenced_bytes(in_fence, len, at_end);
        memcpy(in, bytes, len);
        for (int other = 0; other < 3; other++) {
            nody_encoding_t encoding = (nody_encoding_t)other;
            cut_text pieces = cut(encoding, in, len);
            say(encoding, encoding, in, len);
            expect(nody_utf16_bytes_valid_up_to(encoding, in, len) == pieces.valid, "valid up to", shown);
            expect(are_boundaries(encoding, in, len, &pieces), "boundaries", shown);
            expect(nody_undecided_len(encoding, in, len) == undecided(encoding, in, len) && is_mark(in, len), "undecided bytes, and a mark", shown);
            expect(are_numbers_in(encoding, in, len, &pieces), "numbers in an encoding", shown);
            if (encoding == NODY_UTF8 || (encoding == NODY_UTF16_NATIVE && len % 2 == 0)) expect(are_numbers(encoding, in, len, &pieces), "numbers", shown);
            expect(are_changes(encoding, in, len, &pieces), "what a change reaches", shown);
            if (encoding == NODY_UTF8) expect(are_pieces(in, len, &pieces) && nody_utf8_valid_up_to(in, len) == pieces.valid, "pieces", shown);
            recodings(encoding, in, len, &pieces);
        }
    }
}

static const uint8_t NAMED[] = {0x00, 0x41, 0x7F, 0x80, 0x8F, 0x90, 0xA0, 0xBF, 0xC1, 0xC2, 0xD8, 0xDC, 0xE0, 0xED, 0xF0, 0xF4, 0xF5};

static void short_inputs(size_t most) {
    for (size_t len = 0; len <= most; len++) {
        size_t all = 1;
        for (size_t i = 0; i < len; i++) all *= sizeof NAMED;
        for (size_t n = 0; n < all; n++) {
            uint8_t bytes[MOST];
            for (size_t i = 0, rest = n; i < len; i++, rest /= sizeof NAMED) bytes[i] = NAMED[rest % sizeof NAMED];
            all_of(bytes, len);
        }
    }
}

static uint32_t chance = 7;

static uint32_t below(uint32_t n) {
    chance = chance * 1664525 + 1013904223;
    return (chance >> 8) % n;
}

static void random_inputs(unsigned long count) {
    while (count-- > 0) {
        uint8_t bytes[MOST];
        size_t len = 4 + below(MOST - 3);
        for (size_t i = 0; i < len; i++) bytes[i] = below(5) ? NAMED[below(sizeof NAMED)] : (uint8_t)below(256);
        all_of(bytes, len);
    }
}

/* The numbers of an input that is counted in blocks, piece after piece. */
static int are_counts(nody_encoding_t encoding, const uint8_t *in, size_t len) {
    size_t wide = encoding == NODY_UTF8 ? 1 : 2, ends = len / wide, count = 0;
    const uint16_t *units = (const uint16_t *)(const void *)in;
    for (size_t at = 0; at < len; count++) {
        cut_piece it = wide == 1 ? first_of_utf8(in + at, len - at) : first_of_utf16(in + at, len - at, encoding == NODY_UTF16BE);
        if ((wide == 1 ? nody_utf8_offset_of(in, len, count) : nody_utf16_offset_of(units, ends, count)) != at / wide) return 0;
        if (nody_offset_of(encoding, in, len, count) != at || nody_number_of(encoding, in, len, at) != count || nody_number_of(encoding, in, len, at + 1) != count + 1) return 0;
        for (size_t i = at + wide; i <= at + it.len; i += wide)
            if ((wide == 1 ? nody_utf8_number_of(in, len, i) : nody_utf16_number_of(units, ends, i / wide)) != count + 1) return 0;
        at += it.len;
    }
    if ((wide == 1 ? nody_utf8_offset_of(in, len, count) : nody_utf16_offset_of(units, ends, count)) != ends) return 0;
    if (nody_offset_of(encoding, in, len, count) != len || nody_char_count(encoding, in, len) != count) return 0;
    return (wide == 1 ? nody_utf8_char_count(in, len) : nody_utf16_char_count(units, ends)) == count;
}

/* Text with faults, as rare as it may be, and as long as two blocks and more. */
static void long_inputs(unsigned long count) {
    while (count-- > 0) {
        uint16_t units[SEVERAL_BLOCKS];
        uint32_t rare = 1 + below(60);
        size_t len = below(SEVERAL_BLOCKS);
        at_end = (int)(count % 2);
        uint8_t *in = fenced_bytes(in_fence, len, at_end);
        for (size_t i = 0; i < len; i++) in[i] = below(rare) ? 0x41 : NAMED[below(sizeof NAMED)];
        expect(are_counts(NODY_UTF8, in, len), "numbers", "a long input");
        in = fenced_bytes(in_fence, 2 * len, at_end);
        for (size_t i = 0; i < len; i++) units[i] = (uint16_t)(below(rare) ? 0x41 : 0xD800 + below(2048));
        memcpy(in, units, 2 * len);
        expect(are_counts(NODY_UTF16_NATIVE, in, 2 * len), "numbers of units", "a long input");
    }
}

static const uint8_t RANDOM_IN[] = {0x41, 0xE2, 0x82, 0xAC, 0xF0, 0x9F, 0x82, 0xD8, 0x3C};

static void random_strict(nody_recoder_t recoder, int is_one, uint8_t *out, size_t room) {
    nody_recoder_t before = recoder;
    size_t read = 99, written = 99;
    nody_fault_t fault = {99, 99, NODY_KIND_OK};
    nody_status_t status = nody_recoder_feed_strict(&recoder, RANDOM_IN, sizeof RANDOM_IN, out, room, &read, &written, &fault);
    expect((status == NODY_STATUS_REFUSED) == !is_one && written <= room && read <= sizeof RANDOM_IN, "a random struct", "feed strictly");
    expect(fault.len <= 2 && fault.back <= 5 && (fault.kind == NODY_KIND_NONE) == (status != NODY_STATUS_FAULT), "its fault", "feed strictly");
    expect(is_one || (memcmp(&recoder, &before, sizeof before) == 0 && read + written == 0 && is_no_fault(&fault)), "a struct that is refused", "feed strictly");
    status = nody_recoder_finish_strict(&recoder, out, room, &written, &fault);
    expect((status == NODY_STATUS_REFUSED) == !is_one && written <= room, "a random struct", "finish strictly");
    expect(fault.len <= 2 && fault.back <= 3 && (fault.kind == NODY_KIND_NONE) == (status != NODY_STATUS_FAULT), "its fault", "finish strictly");
}

/* A struct of random bytes is a recoder, or is rejected and stays. No call leaves the room. */
static void random_structs(unsigned long count) {
    while (count-- > 0) {
        nody_recoder_t recoder, before;
        uint8_t *bytes = (uint8_t *)&recoder, held[3];
        size_t room = below(ROOMS), read = 99, written = 99;
        for (size_t i = 0; i < sizeof recoder; i++) bytes[i] = (uint8_t)(below(2) ? below(5) : below(256));
        before = recoder;
        int is_one = bytes[0] < 3 && bytes[1] < 3 && bytes[2] < 4;
        uint8_t *out = fenced_bytes(out_fence, room, (int)(count % 2));
        nody_status_t status = nody_recoder_feed(&recoder, RANDOM_IN, sizeof RANDOM_IN, out, room, &read, &written);
        expect((status == NODY_STATUS_REFUSED) == !is_one && written <= room && read <= sizeof RANDOM_IN, "a random struct", "feed");
        expect(is_one || (memcmp(&recoder, &before, sizeof before) == 0 && read + written == 0), "a struct that is refused", "feed");
        expect((nody_recoder_held(&recoder, held, 3) > 3) == !is_one, "a random struct", "held");
        status = nody_recoder_finish(&recoder, out, room, &written);
        expect((status == NODY_STATUS_REFUSED) == !is_one && written <= room, "a random struct", "finish");
        random_strict(before, is_one, out, room);
    }
}

int main(int argc, char **argv) {
    unsigned long count = argc > 1 ? strtoul(argv[1], NULL, 10) : 100;
    in_fence = fence();
    out_fence = fence();
    short_inputs(count < 100 ? 2 : 3);
    random_inputs(count);
    long_inputs(count);
    random_structs(10 * count);
    return tell();
}

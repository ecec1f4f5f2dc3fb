/* Makes one call of the library for C over 32 KiB of a text, repeatedly: once CALL TEXT TIMES. c/check and bench/arm count the
 * instructions of one repetition. */
#include "noddychest.h"

#include <stdlib.h>
#include <string.h>

enum { LEN = 1 << 15 };

static uint8_t text[LEN + 4], units[4 * LEN], out[8 * LEN];
static nody_piece_t pieces[LEN];
static size_t text_len, units_len;

static void by_nody(nody_encoding_t from, nody_encoding_t to, const uint8_t *in, size_t len) {
    size_t written;
    if (nody_recode(from, to, in, len, out, sizeof out, &written) != NODY_STATUS_DONE) exit(1);
}

static void widen(void) { by_nody(NODY_UTF8, NODY_UTF16LE, text, text_len); }
static void narrow(void) { by_nody(NODY_UTF16LE, NODY_UTF8, units, units_len); }

static void decode(void) {
    nody_bytes_t left = nody_bytes(text, text_len);
    while (nody_utf8_pieces(&left, pieces, LEN) > 0) {
    }
}

static void validate(void) {
    if (nody_utf8_valid_up_to(text, text_len) != text_len) exit(1);
}

static void validate_bytes(void) {
    if (nody_utf16_bytes_valid_up_to(NODY_UTF16LE, units, units_len) != units_len) exit(1);
}

static void validate_units(void) {
    static uint16_t each[2 * LEN];
    memcpy(each, units, units_len);
    if (nody_utf16_valid_up_to(each, units_len / 2) != units_len / 2) exit(1);
}

static void count(void) {
    if (nody_utf8_char_count(text, text_len) > text_len) exit(1);
}

/* In parts, for faults, of which there are none. */
static void find_in_parts(nody_encoding_t encoding, const uint8_t *in, size_t len) {
    enum { PART = 4096 };
    nody_decoder_t decoder = nody_decoder(encoding);
    nody_located_t faults[4];
    for (size_t place = 0, read, written; place < len; place += read)
        if (nody_decoder_feed_faults(&decoder, in + place, len - place < PART ? len - place : PART, faults, 4, &read, &written) != NODY_STATUS_DONE || written) exit(1);
}

static void find_faults(void) { find_in_parts(NODY_UTF8, text, text_len); }
static void find_unit_faults(void) { find_in_parts(NODY_UTF16LE, units, units_len); }

static void find_at_once(void) {
    nody_bytes_t left = nody_bytes(text, text_len);
    nody_located_t faults[4];
    uint64_t offset = 0;
    if (nody_utf8_faults(&left, &offset, faults, 4) != 0) exit(1);
}

static void widen_strictly(void) {
    size_t read, written;
    nody_fault_t fault;
    if (nody_recode_strict(NODY_UTF8, NODY_UTF16LE, text, text_len, out, sizeof out, &read, &written, &fault) != NODY_STATUS_DONE) exit(1);
}

static void narrow_strictly(void) {
    size_t read, written;
    nody_fault_t fault;
    if (nody_recode_strict(NODY_UTF16LE, NODY_UTF8, units, units_len, out, sizeof out, &read, &written, &fault) != NODY_STATUS_DONE) exit(1);
}

/* In parts, which may end inside of a character. */
static void widen_strictly_in_parts(void) {
    enum { PART = 4096 };
    nody_recoder_t recoder = nody_recoder(NODY_UTF8, NODY_UTF16LE);
    nody_fault_t fault;
    for (size_t place = 0, read, written; place < text_len; place += read)
        if (nody_recoder_feed_strict(&recoder, text + place, text_len - place < PART ? text_len - place : PART, out, sizeof out, &read, &written, &fault) != NODY_STATUS_DONE) exit(1);
}

/* Texts of 24 to 27 bytes, each with far more capacity than its output takes. */
static void widen_short(void) {
    for (size_t place = 0, end, written; place < text_len; place = end) {
        end = text_len - place < 24 ? text_len : place + 24;
        while (end < text_len && (text[end] & 0xc0) == 0x80) end++;
        if (nody_recode(NODY_UTF8, NODY_UTF16LE, text + place, end - place, out, sizeof out, &written) != NODY_STATUS_DONE) exit(1);
    }
}

static void widen_lossily(void) {
    nody_recoder_t recoder = nody_recoder(NODY_UTF8, NODY_UTF16LE);
    size_t read, written;
    if (nody_recoder_feed_lossy(&recoder, text, text_len, out, sizeof out, &read, &written) != NODY_STATUS_DONE) exit(1);
}

static void widen_by_table(void) {
    nody_recoder_t recoder = nody_recoder(NODY_UTF8, NODY_UTF16LE);
    size_t read, written;
    if (nody_recoder_feed_repair(&recoder, text, text_len, out, sizeof out, NODY_REPAIR_WINDOWS_1252, NULL, 0, &read, &written) != NODY_STATUS_DONE) exit(1);
}

static const struct {
    const char *name;
    void (*call)(void);
} calls[] = {{"utf8-to-utf16le", widen}, {"utf16le-to-utf8", narrow}, {"pieces", decode}, {"valid-up-to", validate},
             {"utf16-bytes-valid-up-to", validate_bytes}, {"utf16-valid-up-to", validate_units}, {"strictly", widen_strictly}, {"utf16le-strictly", narrow_strictly},
             {"strictly-in-parts", widen_strictly_in_parts}, {"short", widen_short}, {"lossily", widen_lossily}, {"by-table", widen_by_table},
             {"char-count", count},
             {"faults", find_at_once}, {"faults-in-parts", find_faults}, {"utf16-faults-in-parts", find_unit_faults}};

static const struct {
    const char *name;
    uint32_t first, last;
} texts[] = {{"ascii", 'a', 'z'}, {"cyrillic", 0x430, 0x44f}, {"chinese", 0x4e00, 0x9fff}, {"emoji", 0x1f600, 0x1f64f}};

static void fill(uint32_t first, uint32_t last) {
    uint32_t chance = 27;
    while (text_len + 4 < LEN) {
        chance = 1664525 * chance + 1013904223;
        uint32_t scalar = chance >> 29 ? first + (chance >> 8) % (last - first + 1) : ' ';
        text_len += nody_utf8_encode(scalar, text + text_len, LEN - text_len);
    }
    if (nody_recode(NODY_UTF8, NODY_UTF16LE, text, text_len, units, sizeof units, &units_len) != NODY_STATUS_DONE) exit(1);
}

int main(int argc, char **argv) {
    if (argc != 4) return 2;
    for (size_t i = 0; i < sizeof texts / sizeof *texts; i++)
        if (strcmp(texts[i].name, argv[2]) == 0) fill(texts[i].first, texts[i].last);
    for (size_t i = 0; text_len && i < sizeof calls / sizeof *calls; i++)
        if (strcmp(calls[i].name, argv[1]) == 0) {
            for (int times = atoi(argv[3]); times > 0; times--) calls[i].call();
            return 0;
        }
    return 2;
}

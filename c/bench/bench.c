/* Times the calls for C against iconv(3), ICU, utf8proc and simdutf, and against the equivalent calls of the crate for Cargo, in one
 * process. The sides run in turn; the best round of each counts.
 *
 * Decoding adds up the scalars. nody_utf8_first is called as utf8proc_iterate is: with an address and a length, and the caller keeps
 * the offset. nody_utf8_next keeps the offset, and takes pieces from both ends. Both report what is wrong and not only that something
 * is, as do nody_utf8_pieces and the Rust loop. ICU's U8_NEXT is a macro, and the decoder of the Rust loop is inlined: neither is
 * called.
 *
 * Calls that scan text without returning each character, and calls for input in parts, are compared with our own calls: validation,
 * and nody_utf8_pieces over the whole.
 *
 * node exports the functions of simdutf. With -DSIMDUTF this file becomes a shared object that node opens: it does what
 * `bench times` does. simdutf only returns whether text is valid, and writes nothing for invalid input; all inputs here are valid.
 *
 * bench times ROUNDS           a line for each work and input: nanoseconds for each byte of input, of each side
 * bench once WORK INPUT SIDE   does it once, so that instructions can be counted; the side `none` does nothing
 * bench list                   the lines WORK INPUT SIDE
 */
#define _POSIX_C_SOURCE 200809L
#include "noddychest.h"

#include <iconv.h>
#include <stdio.h>
#include <stdlib.h>
#include <string.h>
#include <time.h>
#include <unicode/ustring.h>
#include <unicode/utf8.h>
#include <utf8proc.h>

enum { SIZE = 1 << 20, ROOM = 3 * SIZE + 16, AT_ONCE = 256, PART = 4096, FEW = 100 };

/* The equivalent calls of the crate for Cargo, in beside.rs. */
size_t rust_widen(const uint8_t *in, size_t len, uint8_t *out, size_t room);
size_t rust_narrow(const uint8_t *in, size_t len, uint8_t *out, size_t room);
size_t rust_valid_up_to(const uint8_t *bytes, size_t len);
uint64_t rust_scalars(const uint8_t *bytes, size_t len);

static uint8_t text[SIZE], units[2 * SIZE], out[ROOM];
static size_t text_len, units_len, char_count;

/* Each side returns a number that has to be equal for all: the length of its output, the count of valid inputs, or the sum of the
 * scalars. */
typedef size_t (*side_call)(void);

static size_t of_recoder(uint8_t from, uint8_t to, const uint8_t *in, size_t len) {
    nody_recoder_t recoder = nody_recoder(from, to);
    size_t read, written, last;
    nody_recoder_feed(&recoder, in, len, out, ROOM, &read, &written);
    nody_recoder_finish(&recoder, out + written, ROOM - written, &last);
    return written + last;
}

/* In parts; what came of each is written over by the next. */
static size_t in_parts(uint8_t from, uint8_t to, const uint8_t *in, size_t len) {
    nody_recoder_t recoder = nody_recoder(from, to);
    size_t made = 0, read, written;
    for (size_t place = 0; place < len; place += PART) {
        nody_recoder_feed(&recoder, in + place, len - place < PART ? len - place : PART, out, ROOM, &read, &written);
        made += written;
    }
    nody_recoder_finish(&recoder, out, ROOM, &written);
    return made + written;
}

static size_t of_iconv(const char *to, const char *from, uint8_t *in, size_t len) {
    iconv_t state = iconv_open(to, from);
    char *place = (char *)in, *end = (char *)out;
    size_t room = ROOM;
    iconv(state, &place, &len, &end, &room);
    iconv_close(state);
    return ROOM - room;
}

static size_t widen_nody(void) { return of_recoder(NODY_UTF8, NODY_UTF16LE, text, text_len); }
static size_t widen_iconv(void) { return of_iconv("UTF-16LE", "UTF-8", text, text_len); }
static size_t widen_icu(void) {
    int32_t len = 0;
    UErrorCode status = U_ZERO_ERROR;
    u_strFromUTF8WithSub((UChar *)(void *)out, ROOM / 2, &len, (const char *)text, (int32_t)text_len, 0xFFFD, NULL, &status);
    return 2 * (size_t)len;
}

static size_t narrow_nody(void) { return of_recoder(NODY_UTF16LE, NODY_UTF8, units, units_len); }
static size_t narrow_iconv(void) { return of_iconv("UTF-8", "UTF-16LE", units, units_len); }
static size_t narrow_icu(void) {
    int32_t len = 0;
    UErrorCode status = U_ZERO_ERROR;
    u_strToUTF8WithSub((char *)out, ROOM, &len, (const UChar *)(const void *)units, (int32_t)(units_len / 2), 0xFFFD, NULL, &status);
    return (size_t)len;
}

static size_t decode_next(void) {
    nody_bytes_t left = nody_bytes(text, text_len);
    nody_piece_t piece;
    size_t sum = 0;
    while ((piece = nody_utf8_next(&left)).len > 0) sum += piece.scalar;
    return sum;
}
static size_t decode_first(void) {
    size_t sum = 0;
    for (size_t place = 0; place < text_len;) {
        nody_piece_t piece = nody_utf8_first(text + place, text_len - place);
        place += piece.len;
        sum += piece.scalar;
    }
    return sum;
}
static size_t decode_pieces(void) {
    nody_bytes_t left = nody_bytes(text, text_len);
    nody_piece_t pieces[AT_ONCE];
    size_t sum = 0, count;
    while ((count = nody_utf8_pieces(&left, pieces, AT_ONCE)) > 0)
        for (size_t i = 0; i < count; i++) sum += pieces[i].scalar;
    return sum;
}
static size_t decode_icu(void) {
    size_t sum = 0;
    for (int32_t place = 0; place < (int32_t)text_len;) {
        UChar32 scalar;
        U8_NEXT(text, place, (int32_t)text_len, scalar);
        sum += (size_t)scalar;
    }
    return sum;
}
static size_t decode_utf8proc(void) {
    size_t sum = 0;
    for (size_t place = 0; place < text_len;) {
        utf8proc_int32_t scalar;
        place += (size_t)utf8proc_iterate(text + place, (utf8proc_ssize_t)(text_len - place), &scalar);
        sum += (size_t)scalar;
    }
    return sum;
}
static size_t decode_rust(void) { return rust_scalars(text, text_len); }

/* The sum of the scalars of input in parts. */
static size_t decode_in(size_t part) {
    nody_decoder_t decoder = nody_decoder(NODY_UTF8);
    nody_located_t pieces[AT_ONCE];
    size_t sum = 0, read, written;
    for (size_t place = 0; place < text_len; place += read) {
        nody_decoder_feed(&decoder, text + place, text_len - place < part ? text_len - place : part, pieces, AT_ONCE, &read, &written);
        for (size_t i = 0; i < written; i++) sum += pieces[i].scalar;
    }
    nody_decoder_finish(&decoder, pieces, AT_ONCE, &written);
    return sum;
}
static size_t decode_parts(void) { return decode_in(PART); }
static size_t decode_few(void) { return decode_in(FEW); }

/* How many bytes were read, if there are no faults. */
static size_t faults_in_parts(void) {
    nody_decoder_t decoder = nody_decoder(NODY_UTF8);
    nody_located_t faults[AT_ONCE];
    size_t count = 0, read, written;
    for (size_t place = 0; place < text_len; place += read, count += written)
        nody_decoder_feed_faults(&decoder, text + place, text_len - place < PART ? text_len - place : PART, faults, AT_ONCE, &read, &written);
    return count ? 0 : text_len;
}
static size_t faults_nody(void) {
    nody_bytes_t left = nody_bytes(text, text_len);
    nody_located_t faults[AT_ONCE];
    uint64_t offset = 0;
    return nody_utf8_faults(&left, &offset, faults, AT_ONCE) ? 0 : (size_t)offset;
}
static size_t count_nody(void) { return nody_utf8_char_count(text, text_len) == char_count ? text_len : 0; }
static size_t offset_nody(void) { return nody_utf8_offset_of(text, text_len, char_count); }
static size_t number_nody(void) { return nody_utf8_number_of(text, text_len, text_len) == char_count ? text_len : 0; }

/* The UTF-16 input as an array of code units, as it lies in memory. */
static const uint16_t *of_units(void) { return (const uint16_t *)(const void *)units; }
static size_t valid_units(void) { return 2 * nody_utf16_valid_up_to(of_units(), units_len / 2); }
static size_t valid_unit_bytes(void) { return nody_utf16_bytes_valid_up_to(NODY_UTF16LE, units, units_len); }
static size_t faults_units(void) {
    nody_units_t left = nody_units(of_units(), units_len / 2);
    nody_located_t faults[AT_ONCE];
    uint64_t offset = 0;
    return nody_utf16_faults(&left, &offset, faults, AT_ONCE) ? 0 : 2 * (size_t)offset;
}
static size_t count_units(void) { return nody_utf16_char_count(of_units(), units_len / 2) == char_count ? units_len : 0; }
static size_t offset_units(void) { return 2 * nody_utf16_offset_of(of_units(), units_len / 2, char_count); }
static size_t number_units(void) { return nody_utf16_number_of(of_units(), units_len / 2, units_len / 2) == char_count ? units_len : 0; }

static size_t widen_parts(void) { return in_parts(NODY_UTF8, NODY_UTF16LE, text, text_len); }
static size_t widen_rust(void) { return rust_widen(text, text_len, out, ROOM); }
static size_t narrow_parts(void) { return in_parts(NODY_UTF16LE, NODY_UTF8, units, units_len); }
static size_t narrow_rust(void) { return rust_narrow(units, units_len, out, ROOM); }
static size_t valid_nody(void) { return nody_utf8_valid_up_to(text, text_len); }
static size_t valid_rust(void) { return rust_valid_up_to(text, text_len); }

#ifdef SIMDUTF
/* Its functions for AVX2. The first argument is an object that they do not read. */
#define OF_SIMDUTF(name) __asm__("_ZNK7simdutf7haswell14implementation" name)
_Bool simdutf_valid(const void *object, const uint8_t *bytes, size_t len) OF_SIMDUTF("13validate_utf8EPKcm");
size_t simdutf_widen(const void *object, const uint8_t *bytes, size_t len, uint8_t *out) OF_SIMDUTF("23convert_utf8_to_utf16leEPKcmPDs");
size_t simdutf_narrow(const void *object, const uint8_t *units, size_t count, uint8_t *out) OF_SIMDUTF("23convert_utf16le_to_utf8EPKDsmPc");
static const void *const object[16];
static size_t valid_simdutf(void) { return simdutf_valid(object, text, text_len) ? text_len : 0; }
static size_t widen_simdutf(void) { return 2 * simdutf_widen(object, text, text_len, out); }
static size_t narrow_simdutf(void) { return simdutf_narrow(object, units, units_len / 2, out); }
#endif

static size_t none(void) { return 0; }

static const struct {
    const char *work, *name;
    side_call call;
} sides[] = {
    {"utf8-to-utf16le", "nody", widen_nody},     {"utf8-to-utf16le", "iconv", widen_iconv},   {"utf8-to-utf16le", "icu", widen_icu},
#ifdef SIMDUTF
    {"utf8-to-utf16le", "simdutf", widen_simdutf},
#endif
    {"utf16le-to-utf8", "nody", narrow_nody},    {"utf16le-to-utf8", "iconv", narrow_iconv},  {"utf16le-to-utf8", "icu", narrow_icu},
#ifdef SIMDUTF
    {"utf16le-to-utf8", "simdutf", narrow_simdutf},
#endif
    {"decode", "nody_utf8_first", decode_first}, {"decode", "nody_utf8_next", decode_next},
    {"decode", "nody_utf8_pieces", decode_pieces},
    {"decode", "rust", decode_rust},         {"decode", "icu", decode_icu},
    {"decode", "utf8proc", decode_utf8proc},
    {"utf8-in-parts", "nody", widen_parts},      {"utf8-in-parts", "rust", widen_rust},
    {"utf16le-in-parts", "nody", narrow_parts},  {"utf16le-in-parts", "rust", narrow_rust},
    {"valid-up-to", "nody", valid_nody},         {"valid-up-to", "rust", valid_rust},
#ifdef SIMDUTF
    {"valid-up-to", "simdutf", valid_simdutf},
#endif
    {"pieces-in-parts", "nody_utf8_pieces", decode_pieces}, {"pieces-in-parts", "nody_decoder_feed", decode_parts},
    {"pieces-in-few", "nody_utf8_pieces", decode_pieces},   {"pieces-in-few", "nody_decoder_feed", decode_few},
    {"over-utf8", "nody_utf8_valid_up_to", valid_nody},          {"over-utf8", "nody_utf8_faults", faults_nody},
    {"over-utf8", "nody_decoder_feed_faults", faults_in_parts},
    {"over-utf8", "nody_utf8_char_count", count_nody},
    {"over-utf8", "nody_utf8_offset_of", offset_nody},
    {"over-utf8", "nody_utf8_number_of", number_nody},
    {"over-utf16", "nody_utf16_valid_up_to", valid_units},        {"over-utf16", "nody_utf16_bytes_valid_up_to", valid_unit_bytes},
    {"over-utf16", "nody_utf16_faults", faults_units},
    {"over-utf16", "nody_utf16_char_count", count_units},
    {"over-utf16", "nody_utf16_offset_of", offset_units},
    {"over-utf16", "nody_utf16_number_of", number_units},
};
enum { SIDES = sizeof sides / sizeof *sides };

static const struct {
    const char *name;
    uint32_t first, last;
} inputs[] = {{"ascii", 'a', 'z'}, {"cyrillic", 0x430, 0x44f}, {"chinese", 0x4e00, 0x9fff}, {"emoji", 0x1f600, 0x1f64f}};
enum { INPUTS = sizeof inputs / sizeof *inputs };

/* Words of such characters, with a space after every few. */
static void fill(int input) {
    uint32_t chance = 1;
    text_len = char_count = 0;
    while (text_len + 4 <= SIZE) {
        chance = chance * 1664525 + 1013904223;
        uint32_t scalar = inputs[input].first + (chance >> 16) % (inputs[input].last - inputs[input].first + 1);
        text_len += nody_utf8_encode(chance >> 29 ? scalar : ' ', text + text_len, SIZE - text_len);
        char_count++;
    }
    units_len = widen_nody();
    memcpy(units, out, units_len);
}

static double seconds(void) {
    struct timespec now;
    clock_gettime(CLOCK_MONOTONIC, &now);
    return (double)now.tv_sec + 1e-9 * (double)now.tv_nsec;
}

/* The bytes of input of a work. */
static size_t len_of(const char *work) { return strstr(work, "utf16le-") == work || strcmp(work, "over-utf16") == 0 ? units_len : text_len; }

/* The times of one work on one input. Returns whether all sides agree. */
static int times(int first, int last, int rounds) {
    double best[SIDES];
    size_t want = sides[first].call(), agree = 1;
    for (int i = first; i < last; i++) best[i] = 1e9;
    for (int round = 0; round < rounds; round++)
        for (int i = first; i < last; i++) {
            double begun = seconds();
            agree &= sides[i].call() == want;
            double taken = seconds() - begun;
            if (taken < best[i]) best[i] = taken;
        }
    for (int i = first; i < last; i++) printf("  %s %.3f", sides[i].name, 1e9 * best[i] / (double)len_of(sides[i].work));
    puts(agree ? "" : "  DIFFER");
    return agree != 0;
}

static int all_times(int rounds) {
    int agree = 1;
    for (int input = 0; input < INPUTS; input++) {
        fill(input);
        for (int first = 0, last; first < SIDES; first = last) {
            for (last = first; last < SIDES && strcmp(sides[last].work, sides[first].work) == 0;) last++;
            printf("%-16s %-9s", sides[first].work, inputs[input].name);
            agree &= times(first, last, rounds);
        }
    }
    return agree;
}

static int once(const char *work, const char *input, const char *side) {
    side_call call = strcmp(side, "none") == 0 ? none : NULL;
    for (int i = 0; i < SIDES; i++)
        if (strcmp(sides[i].work, work) == 0 && strcmp(sides[i].name, side) == 0) call = sides[i].call;
    for (int i = 0; i < INPUTS; i++)
        if (call != NULL && strcmp(inputs[i].name, input) == 0) {
            fill(i);
            printf("%lu\n", (unsigned long)len_of(work) + 0 * call());
            return 1;
        }
    return 0;
}

#ifdef SIMDUTF
/* What node does when it opens this file: all times, and no more of node. */
__attribute__((constructor)) static void in_node(void) {
    const char *rounds = getenv("ROUNDS");
    int agree = all_times(rounds ? atoi(rounds) : 1);
    fflush(stdout);
    _Exit(!agree);
}
#endif

int main(int argc, char **argv) {
    if (argc == 3 && strcmp(argv[1], "times") == 0 && atoi(argv[2]) > 0) return !all_times(atoi(argv[2]));
    if (argc == 5 && strcmp(argv[1], "once") == 0) return once(argv[2], argv[3], argv[4]) ? 0 : 2;
    if (argc == 2 && strcmp(argv[1], "list") == 0) {
        for (int i = 0; i < SIDES; i++)
            for (int k = 0; k < INPUTS; k++) printf("%s %s %s\n", sides[i].work, inputs[k].name, sides[i].name);
        return 0;
    }
    return 2;
}

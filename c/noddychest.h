/* Noddychest: decodes, validates, divides and converts UTF-8 and UTF-16. For C and C++. The source of its calls is machine-proved; the
 * inline functions of this header are only tested.
 *
 * LANGUAGES AND PLATFORMS. C99 and later, C++98 and later. Linux on x86-64 (with x86-64-v2) and on 64-bit ARM, with glibc or
 * musl; README.md has other platforms. No call allocates memory, reads a locale, has global state, or takes more than 5 KiB of the
 * stack. (On x86-64 the library has one byte of its own, whether the CPU has AVX2. It is written when the library is loaded, and
 * never again.) State from call to call is in structs of yours, which you may copy: each copy then continues independently.
 * Calls on different structs may run in different threads at the same time, and in a signal handler.
 *
 * CALLS. A call that begins with nody_utf8_ has a twin for units that begins with nody_utf16_; nody_utf8_streamed_at,
 * nody_utf8_first_inline and nody_utf8_next_inline have none.
 *     valid?       nody_utf8_valid_up_to, nody_utf16_bytes_valid_up_to
 *     one piece    nody_utf8_first, nody_utf8_last, nody_utf8_encode
 *     all pieces   nody_bytes or nody_units, then nody_utf8_next, nody_utf8_next_back, nody_utf8_pieces; nody_utf8_char_count
 *     all faults   nody_bytes or nody_units, then nody_utf8_faults
 *     numbers      nody_utf8_offset_of, nody_utf8_number_of; of bytes in any encoding nody_char_count, nody_offset_of, nody_number_of
 *     edit         nody_changed_range
 *     divide       nody_boundary_before, nody_boundary_after, nody_utf16_boundary_before, nody_utf16_boundary_after, nody_undecided_len
 *     encoding     nody_encoding_of_bom: by a byte order mark; nody_survey, nody_guess, nody_guesses, nody_guess_text: by what all bytes have;
 *                  nody_surveyor, nody_surveyor_feed, nody_surveyor_survey: of input in parts
 *     recode       nody_recoded_len, nody_recoded_len_max, nody_recode, nody_recode_strict, nody_recode_lossy, nody_recode_repair,
 *                  nody_utf8_to_utf16, nody_utf16_to_utf8
 *     in parts     nody_recoder, nody_recoder_feed, nody_recoder_finish, nody_recoder_held; also with _strict, _lossy and _repair;
 *                  nody_decoder, nody_decoder_feed, nody_decoder_finish: the pieces, with their offsets;
 *                  nody_decoder_feed_faults, nody_decoder_finish_faults: only the faults;
 *                  nody_position, nody_position_advance: the line and the column
 *     messages     nody_kind_name, nody_kind_sentence
 *     library      nody_version, nody_supported, nody_lanes
 *     rarely       nody_shard_end (where to cut an input for several workers), nody_utf8_streamed_at; nody_utf8_first_inline and
 *                  nody_utf8_next_inline (what nody_utf8_first and nody_utf8_next are as macros); for languages that call C
 *                  nody_put_kind_name, nody_put_kind_sentence
 *
 * WORDS.
 *     character    a Unicode scalar value: 0 to 10FFFF, without D800 to DFFF
 *     unit         one uint16_t of UTF-16
 *     fault        one invalid byte; in UTF-16, one invalid unit, or the last byte if the number of bytes is odd. Its kind is the
 *                  reason why it is invalid
 *     piece        a character or a fault. Every input is a row of pieces
 *     boundary     an offset that is not inside a character, and in UTF-16 not inside a unit
 *     encoding     of text in bytes: UTF-8, little-endian UTF-16 or big-endian UTF-16
 *     to recode    to convert from one encoding to another, or to repair text in one encoding
 *     capacity     how many bytes, units or pieces the output buffer can hold
 *
 * INVALID INPUT. Recoding writes one U+FFFD, the replacement character, for each fault: E2 82 41 becomes U+FFFD U+FFFD A.
 * Browsers and Python sometimes write one U+FFFD for several bytes: for E2 82 41 they write U+FFFD A. The calls whose names end
 * in _lossy write what browsers and Python do. The calls whose names end in _repair write for each invalid byte of UTF-8 what a table has
 * for it, such as its character in Windows-1252. The calls whose names end in _strict stop at the first fault, and report its kind and
 * where it is.
 *
 * WHICH KIND. The kind of a fault depends on its byte and on the bytes after it. These kinds are tested in order, and the first
 * that applies is the kind: UNEXPECTED_CONTINUATION_BYTE, NON_UTF8_BYTE, TOO_FEW_BYTES, INTERRUPTED_SEQUENCE. If none of them
 * applies, the value that the bytes encode decides: OVERLONG_ENCODING, UTF16_RESERVED_CODEPOINT or TOO_HIGH_CODEPOINT. Three
 * examples: E0 80 41 is INTERRUPTED_SEQUENCE, and not OVERLONG_ENCODING. F0 41 at the end is TOO_FEW_BYTES, and not
 * INTERRUPTED_SEQUENCE. ED A0 at the end is TOO_FEW_BYTES, although no third byte would make it a character.
 *
 * POINTERS. A pointer and the number after it belong together: the number is a length to read, or the capacity of an output. If the
 * number is 0, the pointer may be NULL, or point anywhere. Otherwise it must be valid for that many. A pointer to
 * bytes may have any address; one to units, pieces, a table or a struct has to be aligned as its type asks. What a call writes must not
 * overlap what it reads, nor what else it writes: `read` and `written` are two variables. Any other pointer that a call takes must
 * not be NULL. None of this is checked; if it holds, no call reads or writes out of bounds. An offset or a number may be above the
 * length, up to SIZE_MAX.
 *
 * STRUCTS. Make a cursor (nody_bytes_t, nody_units_t) by nody_bytes or nody_units, a recoder (nody_recoder_t) by nody_recoder,
 * a decoder (nody_decoder_t) by nody_decoder, and a position (nody_position_t) by nody_position. If you fill a cursor yourself, its
 * pointer must not be NULL, even if `len` is 0, and must be valid for `len`. Do not initialise a recoder, a decoder or a position by
 * hand: calls on it fail with NODY_STATUS_REFUSED or produce meaningless output, but never access memory out of bounds.
 *
 * ERRORS. A call fails only as its comment says. None sets errno. On x86-64 call nody_supported first.
 *
 * UNITS. A uint16_t is in the byte order of the machine: seen as bytes, an array of them has the encoding NODY_UTF16_NATIVE. For
 * UTF-16 in bytes, the encoding determines the byte order.
 *
 * COST. "Constant": the call looks at a few bytes, whatever the length. "Linear": the time grows with the length of the input,
 * which is read once. "In blocks" is faster than one character after another. bench/TABLES.md says how many machine instructions a
 * byte takes.
 */
#ifndef NODDYCHEST_H
#define NODDYCHEST_H

#include <stddef.h>
#include <stdint.h>

/* The version of this header. nody_version() gives the version of the library. */
#define NODY_VERSION_MAJOR 1
#define NODY_VERSION_MINOR 0
#define NODY_VERSION_PATCH 0
#define NODY_VERSION (NODY_VERSION_MAJOR * 1000000 + NODY_VERSION_MINOR * 1000 + NODY_VERSION_PATCH)

#ifdef __cplusplus
#define NODY_CAST(type, pointer) reinterpret_cast<type>(pointer)
extern "C" {
#else
#define NODY_CAST(type, pointer) ((type)(pointer))
#endif

/* Each enum has one byte, with every compiler. In C++11, C23 and later it is a type of its own. In older versions it is another
 * name of uint8_t. */
#if (defined(__cplusplus) && __cplusplus >= 201103L) || (defined(__STDC_VERSION__) && __STDC_VERSION__ >= 202311L)
#define NODY_ENUM(name) enum name : uint8_t; typedef enum name name; enum name : uint8_t
#else
#define NODY_ENUM(name) typedef uint8_t name; enum
#endif

/* What a piece is: a character, or the reason why a byte or a unit is invalid. */
NODY_ENUM(nody_kind_t) {
    NODY_KIND_OK = 0,                            /* a character */
    NODY_KIND_TOO_FEW_BYTES = 1,                 /* fewer bytes are left than the first byte needs */
    NODY_KIND_NON_UTF8_BYTE = 2,                 /* C0, C1, or F5 to FF: never in UTF-8 */
    NODY_KIND_UNEXPECTED_CONTINUATION_BYTE = 3,  /* 80 to BF where a character should begin */
    NODY_KIND_INTERRUPTED_SEQUENCE = 4,          /* a byte that should continue the character is not 80 to BF */
    NODY_KIND_OVERLONG_ENCODING = 5,             /* the bytes encode a character that has a shorter encoding */
    NODY_KIND_UTF16_RESERVED_CODEPOINT = 6,      /* the bytes encode a surrogate, D800 to DFFF */
    NODY_KIND_TOO_HIGH_CODEPOINT = 7,            /* the bytes encode a number above 10FFFF */
    NODY_KIND_UNEXPECTED_TRAILING_SURROGATE = 8, /* UTF-16: DC00 to DFFF where a character should begin */
    NODY_KIND_UNMATCHED_LEADING_SURROGATE = 9,   /* UTF-16: D800 to DBFF, where the next unit is not DC00 to DFFF */
    NODY_KIND_INCOMPLETE = 10,                   /* UTF-16: D800 to DBFF as the last unit; or a single byte at the end */
    NODY_KIND_NONE = 11                          /* no piece: nothing is left */
};

/* What each invalid byte of UTF-8 becomes in the calls whose names end in _repair. */
NODY_ENUM(nody_repair_t) {
    NODY_REPAIR_DROP = 0,         /* nothing: it is left out */
    NODY_REPAIR_WINDOWS_1252 = 1, /* its character in Windows-1252; 81, 8D, 8F, 90 and 9D become U+0081, U+008D and so on */
    NODY_REPAIR_LATIN_1 = 2,      /* its character in ISO-8859-1: 80 becomes U+0080, and FF U+00FF */
    NODY_REPAIR_TABLE = 3         /* what the table that the call takes has for it */
};

/* What an input most likely is. */
NODY_ENUM(nody_guess_t) {
    NODY_GUESS_ASCII = 0,           /* only ASCII, or nothing */
    NODY_GUESS_UTF8 = 1,            /* UTF-8 that is valid */
    NODY_GUESS_UTF8_MARKED = 2,     /* UTF-8 with a byte order mark */
    NODY_GUESS_UTF8_CUT = 3,        /* UTF-8 that begins or ends inside a character */
    NODY_GUESS_UTF8_MIXED = 4,      /* UTF-8 with single bytes of an 8-bit encoding */
    NODY_GUESS_UTF8_TWICE = 5,      /* UTF-8 that was read as Windows-1252 and encoded once more */
    NODY_GUESS_UTF8_SURROGATES = 6, /* UTF-8 with surrogates: CESU-8, or Java's modified UTF-8 */
    NODY_GUESS_UTF16LE = 7,         /* UTF-16, low byte first, without a byte order mark */
    NODY_GUESS_UTF16BE = 8,         /* UTF-16, high byte first, without a byte order mark */
    NODY_GUESS_UTF16LE_MARKED = 9,  /* UTF-16, low byte first, with a byte order mark */
    NODY_GUESS_UTF16BE_MARKED = 10, /* UTF-16, high byte first, with a byte order mark */
    NODY_GUESS_UTF32 = 11,          /* UTF-32 with a byte order mark */
    NODY_GUESS_WINDOWS1252 = 12,    /* Windows-1252, or another 8-bit encoding of Latin letters */
    NODY_GUESS_OTHER_8BIT = 13,     /* some 8-bit encoding, but not Windows-1252 */
    NODY_GUESS_BINARY = 14          /* no text */
};

/* The encoding of text in bytes. A byte order mark is the character U+FEFF at the front. nody_encoding_of_bom looks for one. No other call
 * does, and none adds or removes one. */
NODY_ENUM(nody_encoding_t) {
    NODY_UTF8 = 0,
    NODY_UTF16LE = 1, /* little-endian: the low byte of each unit comes first */
    NODY_UTF16BE = 2  /* big-endian: the high byte of each unit comes first */
};

/* The encoding of an array of uint16_t on this machine. */
#if defined(__BYTE_ORDER__) && __BYTE_ORDER__ == __ORDER_BIG_ENDIAN__
#define NODY_UTF16_NATIVE NODY_UTF16BE
#else
#define NODY_UTF16_NATIVE NODY_UTF16LE
#endif

/* The result of a call that writes into an output buffer. */
NODY_ENUM(nody_status_t) {
    NODY_STATUS_DONE = 0,    /* the call read all of the input, and wrote all that it had to write */
    NODY_STATUS_FULL = 1,    /* the next character, or piece, does not fit into the output */
    NODY_STATUS_REFUSED = 2, /* an encoding, or the `count` of a struct, is too great. Nothing was read or written */
    NODY_STATUS_FAULT = 3    /* a strict call stopped at a fault. All before the fault was written */
};

/* A piece. */
typedef struct {
    size_t len;       /* character: 1 to 4 bytes, or 1 to 2 units; fault: 1; NODY_KIND_NONE: 0 */
    uint32_t scalar;  /* the number of the character; 0 for all else */
    nody_kind_t kind; /* NODY_KIND_OK, the reason of the fault, or NODY_KIND_NONE */
} nody_piece_t;

/* A part of an input: the bytes from `start` on, without the one at `end`. */
typedef struct {
    size_t start;
    size_t end;
} nody_range_t;

/* A cursor: the bytes, or units, that are still to be taken. nody_bytes and nody_units make it. If you make one of an empty
 * input, its pointer is the address of a dummy byte or unit, and not the pointer that you passed. So for an empty input do not
 * compute `left.bytes - bytes`. */
typedef struct {
    const uint8_t *bytes;
    size_t len;
} nody_bytes_t;

typedef struct {
    const uint16_t *units;
    size_t len;
} nody_units_t;

/* A recoder. It holds up to three bytes of input from one call to the next. It has read these bytes but not recoded them yet,
 * because the rest of a character has not come, or because the output did not fit. A strict call also holds bytes
 * if it has to see the next ones to tell the kind of a fault. In big-endian UTF-16 a single byte is held, and a leading surrogate
 * before it, even if the byte cannot complete a pair. nody_recoder_held gives the bytes. `replaced` is the number of
 * faults that became U+FFFD, or what a table has for them, also if that is nothing. The lossy calls count faults too, and not U+FFFD:
 * a maximal subpart of three bytes adds three. nody_recoder_finish does not reset it. The count stops at UINT64_MAX. You may read it,
 * and set it to 0. Leave the other fields alone. */
typedef struct {
    nody_encoding_t from;
    nody_encoding_t to;
    uint8_t count;
    uint8_t held[3];
    uint64_t replaced; /* how many faults were replaced since nody_recoder */
} nody_recoder_t;

/* A decoder of input that comes in parts. It holds up to three bytes of input from one call to the next: those that
 * were read, but whose piece is not known yet, or did not fit into the output. `offset` is the offset of the first of them or, if
 * none is held, of the next byte. You may set it before the first call, to count from another number than 0. You may read all fields;
 * change no other. */
typedef struct {
    nody_encoding_t encoding;
    uint8_t count;
    uint8_t held[3];
    uint64_t offset;
} nody_decoder_t;

/* A position in input that comes in parts: the line, the column in pieces, and the column in bytes, each from 1 on and modulo 2^64. It holds
 * up to three bytes of input from one call to the next. You may read all fields; change none. */
typedef struct {
    uint64_t line;
    uint64_t column;
    uint64_t byte_column;
    uint8_t count;
    uint8_t held[3];
} nody_position_t;

/* A piece with its offset. Offsets and lengths are in bytes, in UTF-16 too; only nody_utf16_faults counts units. */
typedef struct {
    uint64_t offset;  /* of its first byte in all of the input; modulo 2^64 */
    uint32_t scalar;  /* the number of the character; 0 for a fault */
    uint8_t len;      /* character: 1 to 4; fault: 1 in UTF-8, 2 for a lone surrogate, 1 for a single byte at the end of UTF-16 */
    nody_kind_t kind; /* NODY_KIND_OK, or the reason of the fault */
} nody_located_t;

/* The fault at which a strict call stopped. If the call met no fault, the kind is NODY_KIND_NONE, and len and back are 0.
 * nody_recode_strict reads the bytes before the fault, and no more. The other strict calls read the fault too, and sometimes
 * bytes after it; `back` counts all of these. To get the offset of the fault in the whole input, add up `*read` of all calls so
 * far, and subtract `back`. */
typedef struct {
    size_t len;       /* in bytes: 1 in UTF-8, 2 for a lone surrogate, 1 for a single byte at the end of UTF-16 */
    size_t back;      /* in bytes: how far before the end of what was read the fault begins */
    nody_kind_t kind; /* the reason, or NODY_KIND_NONE */
} nody_fault_t;

/* What bytes have, as units of UTF-16 in one byte order. */
typedef struct {
    uint64_t plain;    /* units that occur in nearly every text: tab, LF, CR, 20 to 7E, and the signs 3001, 3002 and FF0C */
    uint64_t stray;    /* units that do not occur in text: controls, FFFE and FFFF */
    uint64_t unpaired; /* units of which the one before begins a pair that this one does not end, or the other way round */
} nody_unit_counts_t;

/* What bytes have, as UTF-8. */
typedef struct {
    uint64_t chars;       /* characters of several bytes */
    uint64_t faults;      /* invalid bytes */
    uint64_t third;       /* of these, other than A0, those after two bytes above 7F */
    uint64_t signs;       /* of these, those between two ASCII letters, where Windows-1252 rarely has them */
    uint64_t undefined;   /* of these, those for which Windows-1252 has no character: 81, 8D, 8F, 90 and 9D */
    uint64_t surrogates;  /* surrogates that are written as characters of three bytes */
    uint64_t twice;       /* sequences that were read as Windows-1252 and encoded once more */
    uint64_t twice_chars; /* the characters of these sequences */
} nody_utf8_counts_t;

/* What was counted in an input. */
typedef struct {
    uint64_t len;     /* bytes */
    uint64_t nul;     /* bytes that are 00 */
    uint64_t control; /* other controls that do not occur in text: 01 to 06, 0E to 1A, and 1C to 1F */
    nody_utf8_counts_t utf8;
    nody_unit_counts_t utf16le;
    nody_unit_counts_t utf16be;
    uint8_t front[4]; /* the first four bytes, with zeros for those that are missing */
    uint8_t head;     /* continuation bytes before any other byte, at most three: the rest of a character */
    uint8_t tail;     /* bytes at the end, at most three, that begin a character whose other bytes are missing */
} nody_survey_t;

/* A surveyor of input that comes in parts. nody_surveyor makes it; you may copy it. Leave its content alone. */
typedef struct {
    uint64_t state[22];
} nody_surveyor_t;

/* The name of a kind, and a sentence about a kind. Both are ASCII, with zeros after the last letter. */
typedef struct {
    char text[32];
} nody_name_t;

typedef struct {
    char text[64];
} nody_sentence_t;

/* ---- One character ---------------------------------------------------------------------------------------------------------- */

/* The first piece of some bytes, or units.
 *
 * bytes or units, len: the input. At most its first four bytes, or two units, matter.
 * Result: the piece, or NODY_KIND_NONE if len is 0.
 * Errors: none. Cost: constant.
 *
 *     nody_piece_t piece = nody_utf8_first(bytes, len);
 *     if (piece.kind == NODY_KIND_OK) use(piece.scalar);
 */
nody_piece_t nody_utf8_first(const uint8_t *bytes, size_t len);
nody_piece_t nody_utf16_first(const uint16_t *units, size_t len);

/* In C99, C++11 and later, nody_utf8_first is also a macro that handles ASCII inline. It evaluates each argument once and returns what
 * the function returns. `(nody_utf8_first)(bytes, len)` always calls the function, and a pointer to nody_utf8_first is one to the
 * function.
 *
 * bytes, len: the input. Result, errors, cost: as for nody_utf8_first.
 */
static inline nody_piece_t nody_utf8_first_inline(const uint8_t *bytes, size_t len) {
    nody_piece_t piece;
    if (len == 0 || bytes[0] >= 0x80) return nody_utf8_first(bytes, len);
    piece.len = 1;
    piece.scalar = bytes[0];
    piece.kind = NODY_KIND_OK;
    return piece;
}
#if (defined(__STDC_VERSION__) && __STDC_VERSION__ >= 199901L) || (defined(__cplusplus) && __cplusplus >= 201103L)
#define nody_utf8_first(...) nody_utf8_first_inline(__VA_ARGS__)
#endif

/* The last piece of some bytes, or units.
 *
 * bytes or units, len: the input. At most its last four bytes, or two units, matter.
 * Result: the piece, or NODY_KIND_NONE if len is 0. The kind of a fault is determined as if nothing came after these `len`
 * bytes or units. If your input goes on after len, a reader from the front may find another kind. If the input
 * ends inside a character, because it was cut there, the bytes of that character are faults.
 * Errors: none. Cost: constant.
 *
 *     size_t shorter = len - nody_utf8_last(bytes, len).len;
 */
nody_piece_t nody_utf8_last(const uint8_t *bytes, size_t len);
nody_piece_t nody_utf16_last(const uint16_t *units, size_t len);

/* Writes one character as UTF-8, or as UTF-16.
 *
 * scalar: the number of the character.
 * out, capacity: where to write. If the capacity is too small, nothing is written. What is after the character in `out` does not
 * change.
 * Result: the length of the character, 1 to 4 bytes or 1 to 2 units. A result above `capacity` means that nothing was written.
 * Errors: 0 if the number is not a character: it is a surrogate, or above 10FFFF. Cost: constant.
 *
 *     uint8_t euro[4];
 *     size_t len = nody_utf8_encode(0x20AC, euro, sizeof euro); // 3: E2 82 AC
 */
size_t nody_utf8_encode(uint32_t scalar, uint8_t *out, size_t capacity);
size_t nody_utf16_encode(uint32_t scalar, uint16_t *out, size_t capacity);

/* ---- All characters --------------------------------------------------------------------------------------------------------- */

/* How far some bytes are valid UTF-8, or some units valid UTF-16.
 *
 * bytes or units, len: the input.
 * Result: the offset of the first fault, or len if all of the input is valid.
 * Errors: none. Cost: linear, in blocks.
 *
 *     if (nody_utf8_valid_up_to(bytes, len) != len) return invalid();
 */
size_t nody_utf8_valid_up_to(const uint8_t *bytes, size_t len);
size_t nody_utf16_valid_up_to(const uint16_t *units, size_t len);

/* How far some bytes are valid in an encoding.
 *
 * encoding: the encoding. UTF-8 is allowed too, in spite of the name of the call. bytes, len: the input.
 * Result: the offset in bytes of the first fault, or len if all of the input is valid. A single byte at the end of UTF-16 is a
 * fault.
 * Errors: SIZE_MAX if the encoding is above 2. So compare by `!= len`: `< len` would take SIZE_MAX for valid. Cost: linear, in
 * blocks.
 *
 *     if (nody_utf16_bytes_valid_up_to(NODY_UTF16BE, bytes, len) != len) return invalid();
 */
size_t nody_utf16_bytes_valid_up_to(nody_encoding_t encoding, const uint8_t *bytes, size_t len);

/* The number of pieces: a character counts as one, and so does a fault.
 *
 * bytes or units, len: the input.
 * Result: the number.
 * Errors: none. Cost: linear; UTF-8 in blocks if it is text, UTF-16 in blocks.
 *
 *     size_t count = nody_utf8_char_count((const uint8_t *)"\xe2\x82\xac!", 4); // 2
 */
size_t nody_utf8_char_count(const uint8_t *bytes, size_t len);
size_t nody_utf16_char_count(const uint16_t *units, size_t len);

/* The offset of the piece with a number. Pieces are counted from 0.
 *
 * bytes or units, len: the input. number: the number.
 * Result: the offset, in bytes or units. It is len if the input has no more pieces.
 * Errors: none. Cost: linear in the result; UTF-8 in blocks if it is text, UTF-16 in blocks.
 *
 *     size_t offset = nody_utf8_offset_of((const uint8_t *)"h\xc3\xa9\xe2\x82" "A", 6, 2); // 3: E2, after h and the two bytes of e with an accent
 */
size_t nody_utf8_offset_of(const uint8_t *bytes, size_t len, size_t number);
size_t nody_utf16_offset_of(const uint16_t *units, size_t len, size_t number);

/* How many pieces begin before an offset. If a piece begins at the offset, this is its number, counted from 0.
 *
 * bytes or units, len: the input. offset: the offset, in bytes or units. It may lie inside a character, which is counted then.
 * Result: how many. If `offset` is len or more, all pieces are counted.
 * Errors: none. Cost: linear in the offset; UTF-8 in blocks if it is text, UTF-16 in blocks.
 *
 *     size_t column = nody_utf8_number_of(line, len, offset); // how many characters and faults of the line are before the offset
 */
size_t nody_utf8_number_of(const uint8_t *bytes, size_t len, size_t offset);
size_t nody_utf16_number_of(const uint16_t *units, size_t len, size_t offset);

/* nody_utf8_char_count, nody_utf8_offset_of and nody_utf8_number_of for bytes in any encoding, as UTF-16 in bytes. The pieces are those of
 * a decoder (nody_decoder_feed): in UTF-16 a single byte at the end is one more.
 *
 * encoding: the encoding. bytes, len: the input. number: counted from 0. offset: in bytes. It may lie inside a character, or a unit,
 * which is counted then.
 * Result: the number of all pieces; the offset in bytes of the piece with a number, or len if there are no more; how many pieces
 * begin before an offset.
 * Errors: SIZE_MAX if the encoding is above 2. Cost: as for units, and for UTF-8 as above. nody_offset_of reads the input twice if
 * the result is its last byte or len, and its length is odd.
 *
 *     size_t count = nody_char_count(NODY_UTF16LE, (const uint8_t *)"\x3d\xd8\x00\xde!", 5); // 2: an emoji, and a single byte
 */
size_t nody_char_count(nody_encoding_t encoding, const uint8_t *bytes, size_t len);
size_t nody_offset_of(nody_encoding_t encoding, const uint8_t *bytes, size_t len, size_t number);
size_t nody_number_of(nody_encoding_t encoding, const uint8_t *bytes, size_t len, size_t offset);

/* Makes a cursor over some bytes, or units.
 *
 * bytes or units, len: the input. It must stay valid and unchanged for as long as you use the cursor.
 * Result: the cursor.
 * Errors: none. Cost: constant.
 *
 *     nody_bytes_t left = nody_bytes(bytes, len);
 */
static inline nody_bytes_t nody_bytes(const uint8_t *bytes, size_t len) {
    static const uint8_t nothing = 0;
    nody_bytes_t left;
    left.bytes = len ? bytes : &nothing;
    left.len = len;
    return left;
}
static inline nody_units_t nody_units(const uint16_t *units, size_t len) {
    static const uint16_t nothing = 0;
    nody_units_t left;
    left.units = len ? units : &nothing;
    left.len = len;
    return left;
}

/* Takes the first piece off a cursor (`next`), or the last piece (`next_back`). You may mix both: each piece is returned once.
 *
 * left: the cursor. After the call it has what is left. After `next`, left->bytes points just past the piece. After
 * `next_back`, left->bytes + left->len points to the first byte of the piece. (For units: left->units.)
 * Result: the piece. If nothing was left, NODY_KIND_NONE, and the cursor does not change. The piece depends only
 * on what the cursor had before the call. In E0 80 41, for example, the kind of E0 is
 * NODY_KIND_INTERRUPTED_SEQUENCE; once `next_back` took 41, it is NODY_KIND_TOO_FEW_BYTES. Only kinds change in this way, never
 * offsets.
 * Errors: none. Cost: constant.
 *
 *     nody_bytes_t left = nody_bytes(bytes, len);
 *     nody_piece_t piece;
 *     while ((piece = nody_utf8_next(&left)).kind != NODY_KIND_NONE) {
 *         if (piece.kind == NODY_KIND_OK) use(piece.scalar);
 *         else report(left.bytes - piece.len - bytes, nody_kind_sentence(piece.kind)); // (offset and reason)
 *     }
 */
nody_piece_t nody_utf8_next(nody_bytes_t *left);
nody_piece_t nody_utf8_next_back(nody_bytes_t *left);
nody_piece_t nody_utf16_next(nody_units_t *left);
nody_piece_t nody_utf16_next_back(nody_units_t *left);

/* In C99, C++11 and later, nody_utf8_next is also a macro that handles ASCII inline. It evaluates its argument once and returns what the
 * function returns. `(nody_utf8_next)(&left)` always calls the function, and a pointer to nody_utf8_next is one to the function.
 *
 * left: the cursor. Result, errors, cost: as for nody_utf8_next.
 */
static inline nody_piece_t nody_utf8_next_inline(nody_bytes_t *left) {
    nody_piece_t piece;
    if (left->len > 0 && left->bytes[0] < 0x80) {
        piece.len = 1;
        piece.scalar = left->bytes[0];
        piece.kind = NODY_KIND_OK;
        left->bytes++;
        left->len--;
    } else {
        nody_bytes_t rest = *left; /* (of a copy, so that a compiler may keep the cursor in registers) */
        piece = nody_utf8_next(&rest);
        left->bytes = rest.bytes;
        left->len = rest.len;
    }
    return piece;
}
#if (defined(__STDC_VERSION__) && __STDC_VERSION__ >= 199901L) || (defined(__cplusplus) && __cplusplus >= 201103L)
/* (an argument may have commas, as a compound literal has) */
#define nody_utf8_next(...) nody_utf8_next_inline(__VA_ARGS__)
#endif

/* Takes many pieces off the front of a cursor.
 *
 * left: the cursor, as for `next`. out, capacity: where to write pieces, and how many. What is after them in `out` does not change.
 * Result: how many pieces were written: `capacity`, or fewer if nothing is left after them.
 * Errors: none. Cost: linear in the result.
 *
 *     while ((count = nody_utf8_pieces(&left, pieces, 256)) > 0) use(pieces, count);
 */
size_t nody_utf8_pieces(nody_bytes_t *left, nody_piece_t *out, size_t capacity);
size_t nody_utf16_pieces(nody_units_t *left, nody_piece_t *out, size_t capacity);

/* The next faults, many in one call, each with its offset. Text between them is skipped in blocks, at the speed of
 * nody_utf8_valid_up_to. The faults are those of nody_utf8_pieces, with the same kinds.
 *
 * left: the cursor. After the call it begins with the first fault that did not fit, or has nothing left.
 * offset: in and out. The offset of the first byte, or unit, of the cursor: 0 for the front of the input. The call adds the
 * number of bytes, or units, that it took off the cursor. In nody_utf16_faults offsets and lengths are in units.
 * out, capacity: where to write faults, and how many. What is after them in `out` does not change.
 * Result: how many faults were written: `capacity`, or fewer if nothing is left after them.
 * Errors: none. Cost: linear in what is skipped, in blocks if it is text.
 *
 *     nody_bytes_t left = nody_bytes(bytes, len);
 *     nody_located_t faults[64];
 *     uint64_t offset = 0;
 *     while ((count = nody_utf8_faults(&left, &offset, faults, 64)) > 0)
 *         for (size_t k = 0; k < count; k++) report(faults[k].offset, nody_kind_sentence(faults[k].kind));
 */
size_t nody_utf8_faults(nody_bytes_t *left, uint64_t *offset, nody_located_t *out, size_t capacity);
size_t nody_utf16_faults(nody_units_t *left, uint64_t *offset, nody_located_t *out, size_t capacity);

/* ---- Where text may be divided ---------------------------------------------------------------------------------------------- */

/* The boundary near an offset: nody_boundary_before gives the last one up to `at`, nody_boundary_after the first one from `at` on.
 * If you divide the input at a boundary and recode each side by itself, the outputs, joined, are the output of the whole.
 * (This does not hold for the lossy calls.) Only kinds may differ: a fault just before the boundary may have one kind in the
 * divided input, and another in the whole input.
 *
 * encoding: the encoding of the input. bytes, len: the input. at: the offset.
 * Result: the boundary, at most three bytes from `at`. If `at` is len or more, it is len.
 * Errors: SIZE_MAX if the encoding is above 2: test for it before you use the result. Cost: constant.
 *
 *     size_t most = nody_boundary_before(NODY_UTF8, name, len, 255); // as much of a name as fits into 255 bytes
 */
size_t nody_boundary_before(nody_encoding_t encoding, const uint8_t *bytes, size_t len, size_t at);
size_t nody_boundary_after(nody_encoding_t encoding, const uint8_t *bytes, size_t len, size_t at);

/* The boundary near an offset, for units.
 *
 * units, len: the input. at: the offset, in units.
 * Result: the boundary, at most one unit from `at`. If `at` is len or more, it is len.
 * Errors: none. Cost: constant.
 *
 *     size_t most = nody_utf16_boundary_before(units, len, 100); // as much as fits into 100 units
 */
size_t nody_utf16_boundary_before(const uint16_t *units, size_t len, size_t at);
size_t nody_utf16_boundary_after(const uint16_t *units, size_t len, size_t at);

/* The part of an input outside of which no piece changes if some bytes are replaced: what to decode again after an edit. The pieces
 * before its start stay as they are. Those from its end on stay too, and move with their bytes. It does not matter which bytes come
 * in place of the others, nor how many.
 *
 * In UTF-16, if the length of the input changes by an odd number of bytes, the pieces from the end on may change too, since each unit
 * has other bytes then.
 *
 * encoding: the encoding of the input. bytes, len: the input after the edit, and start, end: the new bytes in it, without the one at
 * `end`. Or the input before the edit, and the bytes that are to be replaced. Both give the same pieces: after the edit the end has
 * moved by as much as the length has grown.
 * Result: two boundaries. The start is at most six bytes before `start`, the end at most six bytes after `end`. Offsets above len
 * count as len, and a `start` above `end` counts as `end`.
 * Errors: both are SIZE_MAX if the encoding is above 2. Cost: constant.
 *
 *     memmove(text + at + 1, text + at, len - at); // insert one byte
 *     text[at] = byte;
 *     nody_range_t changed = nody_changed_range(NODY_UTF8, text, ++len, at, at + 1);
 *     decode_again(text, changed.start, changed.end);
 */
nody_range_t nody_changed_range(nody_encoding_t encoding, const uint8_t *bytes, size_t len, size_t start, size_t end);

/* The number of bytes at the end, 0 to 3, that cannot be decoded until more input arrives. If you read a large input in blocks, carry
 * them over to the front of the next block. It is the number of bytes that a decoder holds which was fed only these bytes.
 *
 * They are the front of a character, or faults whose kind the next bytes decide: of ED A0 both are, although no third byte makes it a
 * character. All pieces before them are known: of F0 41 the first byte is a fault whatever follows, and the result is 0. If no byte
 * follows, all that is left are faults. Pieces and offsets of such blocks are those of the whole input. For the kinds use a decoder: the
 * calls for a whole input, as nody_utf8_faults, take the end of a block for the end of the input.
 *
 * encoding: the encoding of the input. bytes, len: the input, or a part of it that begins at a boundary.
 * Result: 0 to 3.
 * Errors: SIZE_MAX if the encoding is above 2: test for it before you use the result. Cost: constant.
 *
 *     size_t whole = len - nody_undecided_len(NODY_UTF8, block, len); // of 61 E2 82 it is 1
 */
size_t nody_undecided_len(nody_encoding_t encoding, const uint8_t *bytes, size_t len);

/* The encoding of an input that begins with a byte order mark, and the length of the mark. UTF-8 has EF BB BF, little-endian UTF-16 FF FE,
 * and big-endian UTF-16 FE FF. Little-endian UTF-32 begins with FF FE too: this call takes it for UTF-16.
 *
 * bytes, len: the input. Its first three bytes are enough.
 * encoding: receives the encoding if there is a mark. Else it stays as it was: so set it before to the encoding that you assume
 * without a mark.
 * Result: the length of the mark in bytes, 2 or 3; 0 if the input begins with none.
 * Errors: none. Cost: constant.
 *
 *     nody_encoding_t encoding = NODY_UTF8;
 *     size_t mark = nody_encoding_of_bom(in, len, &encoding); // the text is in + mark, of len - mark bytes
 */
size_t nody_encoding_of_bom(const uint8_t *bytes, size_t len, nody_encoding_t *encoding);

/* Counts what the bytes of an input have, by which nody_guess says what they most likely are.
 *
 * bytes, len: all of the input. Zeros stand for the bytes before it and after it.
 * survey: receives the counts.
 * Errors: none. Cost: linear.
 *
 *     nody_survey_t survey;
 *     nody_survey(in, len, &survey);
 *     if (nody_guess(&survey) == NODY_GUESS_WINDOWS1252) read_as_windows1252(in, len);
 */
void nody_survey(const uint8_t *bytes, size_t len, nody_survey_t *survey);

/* Makes a surveyor, which counts what input in parts has, however it is divided.
 *
 * Result: the surveyor. Cost: constant.
 *
 *     nody_surveyor_t surveyor = nody_surveyor();
 *     while ((len = fread(part, 1, sizeof part, file)) > 0) nody_surveyor_feed(&surveyor, part, len);
 *     nody_surveyor_survey(&surveyor, &survey);
 */
nody_surveyor_t nody_surveyor(void);

/* Counts what the next part of the input has.
 *
 * surveyor: the surveyor. part, len: the part, which may begin and end anywhere.
 * Result: NODY_STATUS_DONE.
 * Errors: NODY_STATUS_REFUSED, with nothing changed, if the struct is no surveyor. Cost: linear.
 *
 *     if (nody_surveyor_feed(&surveyor, part, len) != NODY_STATUS_DONE) return failed();
 */
nody_status_t nody_surveyor_feed(nody_surveyor_t *surveyor, const uint8_t *part, size_t len);

/* The survey of all parts so far, which is that of nody_survey for the joined parts. You may feed more afterwards.
 *
 * surveyor: the surveyor. survey: receives the counts.
 * Result: NODY_STATUS_DONE.
 * Errors: NODY_STATUS_REFUSED, with the survey of no bytes, if the struct is no surveyor. Cost: constant.
 *
 *     if (nody_surveyor_survey(&surveyor, &survey) == NODY_STATUS_DONE) puts(nody_guess_text(nody_guess(&survey)));
 */
nody_status_t nody_surveyor_survey(const nody_surveyor_t *surveyor, nody_survey_t *survey);

/* What a surveyed input most likely is. It is a guess, by thresholds that were set on texts in 74 languages: Hungarian, Turkish and
 * Baltic texts in their own 8-bit encodings, for one, are taken for Windows-1252.
 *
 * survey: the survey of all of the input.
 * Result: the guess.
 * Errors: none. Cost: constant.
 *
 *     puts(nody_guess_text(nody_guess(&survey)));
 */
nody_guess_t nody_guess(const nody_survey_t *survey);

/* What a surveyed input may be: one to three guesses, the likeliest first. The first is that of nody_guess, and each of the others says what
 * the input is if those before it are wrong.
 *
 * survey: the survey of all of the input. guesses: receives the guesses. capacity: how many it can hold; 3 is always enough.
 * Result: how many guesses were written.
 * Errors: none. Cost: constant.
 *
 *     nody_guess_t guesses[3];
 *     size_t count = nody_guesses(&survey, guesses, 3);
 *     for (size_t i = 0; i < count; i++) printf("%s%s", i == 0 ? "" : "; or ", nody_guess_text(guesses[i]));
 */
size_t nody_guesses(const nody_survey_t *survey, nody_guess_t *guesses, size_t capacity);

/* What a guess says, for people: a text in ASCII, which is static. For a number that is no guess it is "?".
 *
 * guess: the guess.
 * Errors: none. Cost: constant.
 *
 *     puts(nody_guess_text(NODY_GUESS_UTF8_CUT)); // UTF-8, cut off inside a character
 */
static inline const char *nody_guess_text(nody_guess_t guess) {
    static const char *const texts[] = {
        "ASCII",
        "UTF-8",
        "UTF-8, by its byte order mark",
        "UTF-8, cut off inside a character",
        "UTF-8, with single bytes of an 8-bit encoding",
        "UTF-8 that was encoded twice",
        "CESU-8 or Java's modified UTF-8: UTF-8 with surrogates",
        "UTF-16LE, without a byte order mark",
        "UTF-16BE, without a byte order mark",
        "UTF-16LE, by its byte order mark",
        "UTF-16BE, by its byte order mark",
        "UTF-32, by its byte order mark",
        "Windows-1252, or another encoding of Latin letters",
        "some 8-bit encoding, but not Windows-1252",
        "not text",
    };
    const size_t at = guess;
    return at < sizeof texts / sizeof *texts ? texts[at] : "?";
}

/* ---- A whole input recoded -------------------------------------------------------------------------------------------------- */

/* Recodes a whole input. Each fault becomes one U+FFFD. A single byte at the end of UTF-16 is a fault too.
 *
 * from, to: the encodings, which may be the same. in, len: the input.
 * out, capacity: where to write, and how many bytes. nody_recoded_len gives a sufficient capacity.
 * written: receives how many bytes were written. After them, up to `capacity`, `out` may hold anything. Nothing outside of it is
 * changed.
 * Result:
 *   NODY_STATUS_DONE: the whole input was recoded.
 *   NODY_STATUS_FULL: the capacity is too small. What was written ends after a whole character. You cannot go on from there: to
 *   recode part by part, use a recoder.
 * Errors: NODY_STATUS_REFUSED, with 0 in `*written`, if an encoding is above 2. Cost: linear.
 *
 *     size_t written, capacity = nody_recoded_len(from, to, bytes, len); // in bytes
 *     uint8_t *out = capacity < SIZE_MAX ? (uint8_t *)malloc(capacity + 1) : NULL;
 *     if (!out || nody_recode(from, to, bytes, len, out, capacity, &written) != NODY_STATUS_DONE) return failed();
 */
nody_status_t nody_recode(nody_encoding_t from, nody_encoding_t to, const uint8_t *in, size_t len, uint8_t *out, size_t capacity,
                          size_t *written);

/* Recodes a whole input, but stops at the first fault.
 *
 * from, to, in, len, out, capacity: as for nody_recode. A capacity of 2 * len is always enough.
 * read: receives how many bytes of the input were recoded. These are valid.
 * written: receives how many bytes were written. After them, up to `capacity`, `out` may hold anything.
 * fault: receives the fault. Its `back` is 0.
 * Result:
 *   NODY_STATUS_DONE: the whole input is valid, and was recoded.
 *   NODY_STATUS_FAULT: there is a fault. `*read` is its offset.
 *   NODY_STATUS_FULL: the next character does not fit. The input after `*read` was not examined.
 * Errors: NODY_STATUS_REFUSED, with 0 in `*read` and `*written`, if an encoding is above 2. Cost: linear.
 *
 *     switch (nody_recode_strict(from, to, in, len, out, capacity, &read, &written, &fault)) {
 *     case NODY_STATUS_DONE: return use(out, written);
 *     case NODY_STATUS_FAULT: return report(read, nody_kind_sentence(fault.kind)); // (offset and reason)
 *     default: return failed();
 *     }
 */
nody_status_t nody_recode_strict(nody_encoding_t from, nody_encoding_t to, const uint8_t *in, size_t len, uint8_t *out, size_t capacity,
                                 size_t *read, size_t *written, nody_fault_t *fault);

/* The exact number of bytes that nody_recode writes for this input.
 *
 * from, to: the encodings. in, len: the input.
 * Result: the number of bytes.
 * Errors: SIZE_MAX if a size_t cannot hold the number, or an encoding is above 2. Cost: linear. It recodes in parts, into
 * a buffer on the stack.
 *
 *     size_t capacity = nody_recoded_len(NODY_UTF8, NODY_UTF16LE, bytes, len);
 */
size_t nody_recoded_len(nody_encoding_t from, nody_encoding_t to, const uint8_t *in, size_t len);

/* The most bytes that any input of this length can become: at most three for each byte.
 *
 * from, to: the encodings. len: the length of the input. For a part that you feed to a recoder, pass the length of
 * the part plus the number of bytes that the recoder holds.
 * Result: the number of bytes.
 * Errors: SIZE_MAX if a size_t cannot hold the number, or an encoding is above 2. Cost: constant.
 *
 *     size_t most = nody_recoded_len_max(NODY_UTF8, NODY_UTF16LE, 100); // 200
 */
size_t nody_recoded_len_max(nody_encoding_t from, nody_encoding_t to, size_t len);

/* nody_recode between UTF-8 and an array of uint16_t.
 *
 * in, len, out, capacity, written: as for nody_recode. `len` counts what `in` points to: bytes or units. `capacity` and `*written`
 * count what `out` points to. `len` or `capacity`, whichever counts units, must be below SIZE_MAX / 2: this is not checked. Do not
 * cast a buffer of bytes to uint16_t *. For UTF-16 in bytes call nody_recode.
 * Result: NODY_STATUS_DONE, or NODY_STATUS_FULL if the capacity is too small.
 * Errors: none. Cost: linear.
 *
 *     size_t count, size = nody_recoded_len(NODY_UTF8, NODY_UTF16_NATIVE, bytes, len); // in bytes
 *     uint16_t *units = size < SIZE_MAX ? (uint16_t *)malloc(size + 1) : NULL;
 *     if (!units || nody_utf8_to_utf16(bytes, len, units, size / 2, &count) != NODY_STATUS_DONE) return failed();
 */
static inline nody_status_t nody_utf8_to_utf16(const uint8_t *in, size_t len, uint16_t *out, size_t capacity, size_t *written) {
    nody_status_t status = nody_recode(NODY_UTF8, NODY_UTF16_NATIVE, in, len, NODY_CAST(uint8_t *, out), 2 * capacity, written);
    *written /= 2;
    return status;
}
static inline nody_status_t nody_utf16_to_utf8(const uint16_t *in, size_t len, uint8_t *out, size_t capacity, size_t *written) {
    return nody_recode(NODY_UTF16_NATIVE, NODY_UTF8, NODY_CAST(const uint8_t *, in), 2 * len, out, capacity, written);
}

/* ---- Input that comes in parts ---------------------------------------------------------------------------------------------- */

/* Makes a recoder, which holds nothing and has replaced nothing.
 *
 * from, to: the encodings. They may be the same: then valid text is copied, and each fault becomes U+FFFD.
 * Result: the recoder.
 * Errors: if an encoding is above 2, all calls refuse this recoder. Cost: constant.
 *
 *     nody_recoder_t recoder = nody_recoder(NODY_UTF8, NODY_UTF16LE);
 */
nody_recoder_t nody_recoder(nody_encoding_t from, nody_encoding_t to);

/* Feeds the next part of the input to a recoder. The output of all calls, joined, does not depend on how the input is divided into
 * parts.
 *
 * recoder: the recoder. For each fault that the call replaces, `recoder->replaced` grows by 1. A U+FFFD in the input does not
 * count.
 * in, in_len: the part.
 * out, capacity: where to write, and how many bytes. Give a capacity of 4 or more: with less, a loop may never end.
 * read: receives how many bytes of the part were read. The recoder may hold up to three of them: do not feed them again.
 * written: receives how many bytes were written. After them, up to `capacity`, `out` may hold anything. Nothing outside of it is
 * changed.
 * Result:
 *   NODY_STATUS_DONE: the whole part was read, and all output was written.
 *   NODY_STATUS_FULL: the next character does not fit. Empty `out`, and call again with the rest of the part, even if that is
 *   empty.
 * Errors: NODY_STATUS_REFUSED, with 0 in `*read` and `*written`, if an encoding of the recoder is above 2, or its `count` is above 3
 * (only in a struct that nody_recoder did not make). Cost: linear.
 *
 *     do {
 *         status = nody_recoder_feed(&recoder, in + place, len - place, out, sizeof out, &read, &written);
 *         fwrite(out, 1, written, stdout);
 *         place += read;
 *     } while (status == NODY_STATUS_FULL);
 *     if (status != NODY_STATUS_DONE) return failed();
 */
nody_status_t nody_recoder_feed(nody_recoder_t *recoder, const uint8_t *in, size_t in_len, uint8_t *out, size_t capacity, size_t *read,
                                size_t *written);

/* Ends the input: recodes the bytes that the recoder still holds. That writes at most nine bytes. After NODY_STATUS_DONE you may
 * feed another input.
 *
 * recoder: the recoder. `recoder->replaced` grows as for nody_recoder_feed, and is not reset.
 * out, capacity: where to write, and how many bytes. Give a capacity of 4 or more.
 * written: receives how many bytes were written. After them, up to `capacity`, `out` may hold anything.
 * Result:
 *   NODY_STATUS_DONE: all was written. The recoder holds nothing.
 *   NODY_STATUS_FULL: the next character does not fit. Empty `out`, and call this again, and not nody_recoder_feed.
 * Errors: NODY_STATUS_REFUSED, with 0 in `*written`, as for nody_recoder_feed. Cost: constant.
 *
 *     do {
 *         status = nody_recoder_finish(&recoder, out, sizeof out, &written);
 *         fwrite(out, 1, written, stdout);
 *     } while (status == NODY_STATUS_FULL);
 *     if (status != NODY_STATUS_DONE) return failed();
 */
nody_status_t nody_recoder_finish(nody_recoder_t *recoder, uint8_t *out, size_t capacity, size_t *written);

/* Feeds the next part of the input, but stops at the first fault. What is written, and the faults, do not depend on how the
 * input is divided into parts.
 *
 * recoder: the recoder. `recoder->replaced` does not change. You may mix calls of this and of nody_recoder_feed.
 * in, in_len, out, capacity, written: as for nody_recoder_feed. When a call stops at a fault, all text before
 * the fault was written, by this call and those before it.
 * read: receives how many bytes of the part were read. Bytes that the recoder now holds are included.
 * fault: receives the fault. It may lie in this part or, if the recoder held it, in an earlier one. Its offset in the whole input
 * is the sum of `*read` of all calls, this one included, minus `fault->back`.
 * Result:
 *   NODY_STATUS_DONE: the whole part was read. If the last bytes of the part cannot be decoded without the
 *   bytes after them, the recoder holds these last bytes, at most three. After E9 0A, for example, the kind of
 *   E9 is NODY_KIND_INTERRUPTED_SEQUENCE if a third byte comes, and NODY_KIND_TOO_FEW_BYTES if the input ends.
 *   NODY_STATUS_FAULT: the call stopped at a fault, which it has read. To go on after the fault, call again with the bytes of
 *   the part after `*read`, even if there are none. To refuse the input, stop, and make a new recoder for the next one.
 *   NODY_STATUS_FULL: as for nody_recoder_feed.
 * Errors: NODY_STATUS_REFUSED, as for nody_recoder_feed. Cost: linear.
 *
 *     do {
 *         status = nody_recoder_feed_strict(&recoder, in + place, len - place, out, sizeof out, &read, &written, &fault);
 *         fwrite(out, 1, written, stdout);
 *         place += read, total += read;
 *     } while (status == NODY_STATUS_FULL);
 *     if (status == NODY_STATUS_FAULT) return report(total - fault.back, nody_kind_sentence(fault.kind));
 */
nody_status_t nody_recoder_feed_strict(nody_recoder_t *recoder, const uint8_t *in, size_t in_len, uint8_t *out, size_t capacity,
                                       size_t *read, size_t *written, nody_fault_t *fault);

/* Ends the input, but stops at the first fault. An input that ends inside a character ends with a fault.
 *
 * recoder: the recoder. `recoder->replaced` does not change.
 * out, capacity, written: as for nody_recoder_finish.
 * fault: receives the fault. Its offset is the sum of `*read` of all calls, minus `fault->back`.
 * Result:
 *   NODY_STATUS_DONE, NODY_STATUS_FULL: as for nody_recoder_finish.
 *   NODY_STATUS_FAULT: the call stopped at a fault, which the recoder holds no longer. To go on after it, call this again.
 * Errors: NODY_STATUS_REFUSED, as for nody_recoder_finish. Cost: constant.
 *
 *     do {
 *         status = nody_recoder_finish_strict(&recoder, out, sizeof out, &written, &fault);
 *         fwrite(out, 1, written, stdout);
 *     } while (status == NODY_STATUS_FULL);
 *     if (status == NODY_STATUS_FAULT) return report(total - fault.back, nody_kind_sentence(fault.kind));
 */
nody_status_t nody_recoder_finish_strict(nody_recoder_t *recoder, uint8_t *out, size_t capacity, size_t *written, nody_fault_t *fault);

/* Feeds the next part of the input, and writes one U+FFFD for each maximal subpart, and not for each fault. If a character is
 * not complete, because the input ends or because the next byte cannot continue it, then its one to three bytes are a maximal
 * subpart. In E2 82 41 it is E2 82, so E2 82 41 becomes U+FFFD A. Any other invalid byte is a subpart of its own.
 * E0 80 becomes U+FFFD U+FFFD: no character begins with E0 80, so E0 is one maximal subpart, and 80 another. The Unicode standard
 * recommends this (chapter 3, "U+FFFD Substitution of Maximal Subparts"). Browsers, Python's errors="replace" and Rust's
 * from_utf8_lossy do it. In UTF-16 this call and nody_recoder_feed write the same, but for one end: a leading surrogate and a single
 * byte after it are one subpart, if the input ends there. In valid input they write the same.
 *
 * recoder: the recoder. The number of faults is added to `recoder->replaced`, and not that of U+FFFD: E2 82 41 adds two. You may
 * mix calls of this, of nody_recoder_feed and of nody_recoder_feed_strict. End the input by nody_recoder_finish_lossy.
 * in, in_len: the part. Parts that you feed to one recoder may end anywhere. nody_recoder_feed lets you divide the input at
 * nody_boundary_before and give the sides to two recoders. This call does not: the boundary may lie inside a maximal subpart.
 * out, capacity, read, written: as for nody_recoder_feed. Three bytes for each byte that is fed or held are always enough.
 * Result, errors, cost: as for nody_recoder_feed. The loop is the same.
 *
 *     nody_recoder_t recoder = nody_recoder(NODY_UTF8, NODY_UTF8);
 *     nody_recoder_feed_lossy(&recoder, (const uint8_t *)"\xe2\x82" "A", 3, out, sizeof out, &read, &written);
 *     // written is 4: EF BF BD 41; recoder.replaced is 2
 */
nody_status_t nody_recoder_feed_lossy(nody_recoder_t *recoder, const uint8_t *in, size_t in_len, uint8_t *out, size_t capacity,
                                      size_t *read, size_t *written);

/* Ends the input after nody_recoder_feed_lossy. If the recoder holds the front of a character, that becomes one U+FFFD, in each
 * encoding.
 *
 * recoder: the recoder. The number of faults is added to `recoder->replaced`: each byte of that front, or in UTF-16 its unit and a
 * single byte after it.
 * out, capacity, written: as for nody_recoder_finish.
 * Result, errors, cost: as for nody_recoder_finish.
 *
 *     nody_recoder_feed_lossy(&recoder, (const uint8_t *)"\xf0\x9f\x98", 3, out, sizeof out, &read, &written);
 *     // written is 0: they are held
 *     nody_recoder_finish_lossy(&recoder, out, sizeof out, &written);
 *     // written is 3: EF BF BD
 */
nody_status_t nody_recoder_finish_lossy(nody_recoder_t *recoder, uint8_t *out, size_t capacity, size_t *written);

/* Feeds the next part of the input, and writes for each invalid byte of UTF-8 what a table has for it: a character, or nothing. This
 * repairs text that is UTF-8 with single bytes of an older encoding in it: by NODY_REPAIR_WINDOWS_1252, 63 61 66 E9 becomes 63 61 66 C3
 * A9. Valid input stays as it is. In UTF-16 each fault becomes U+FFFD, or nothing if the table is empty, as that of NODY_REPAIR_DROP is. The
 * output of all calls, joined, does not depend on how the input is divided into parts.
 *
 * recoder: the recoder. For each fault `recoder->replaced` grows by 1, even if nothing is written for it. You may mix calls of
 * this and of the other feed calls. End the input by nody_recoder_finish_repair.
 * in, in_len: the part.
 * out, capacity, read, written: as for nody_recoder_feed. Three bytes for each byte that is fed or held are always enough.
 * repair: which table.
 * table, table_len: for NODY_REPAIR_TABLE, the characters for the bytes 80, 81, and so on up to FF. A surrogate or a number above FFFF
 * means nothing: the byte is left out. So is a byte for which the table has no entry. Entries after the 128th are ignored. For
 * the other repairs pass NULL and 0.
 * Result, cost: as for nody_recoder_feed. The loop is the same.
 * Errors: NODY_STATUS_REFUSED, as for nody_recoder_feed, and if `repair` is above 3.
 *
 *     nody_recoder_t recoder = nody_recoder(NODY_UTF8, NODY_UTF8);
 *     nody_recoder_feed_repair(&recoder, (const uint8_t *)"caf\xe9!", 5, out, sizeof out, NODY_REPAIR_WINDOWS_1252, NULL, 0, &read, &written);
 *     // written is 6: 63 61 66 C3 A9 21
 */
nody_status_t nody_recoder_feed_repair(nody_recoder_t *recoder, const uint8_t *in, size_t in_len, uint8_t *out, size_t capacity,
                                       nody_repair_t repair, const uint32_t *table, size_t table_len, size_t *read, size_t *written);

/* Ends the input after nody_recoder_feed_repair: the bytes that the recoder holds are faults, and become what the table has for them.
 *
 * recoder: the recoder. `recoder->replaced` grows as for nody_recoder_feed_repair.
 * out, capacity, written: as for nody_recoder_finish.
 * repair, table, table_len: the same as for nody_recoder_feed_repair.
 * Result, cost: as for nody_recoder_finish.
 * Errors: NODY_STATUS_REFUSED, as for nody_recoder_finish, and if `repair` is above 3.
 *
 *     nody_recoder_feed_repair(&recoder, (const uint8_t *)"caf\xe9", 4, out, sizeof out, NODY_REPAIR_WINDOWS_1252, NULL, 0, &read, &written);
 *     // written is 3: E9 may begin a character, and is held
 *     nody_recoder_finish_repair(&recoder, out, sizeof out, NODY_REPAIR_WINDOWS_1252, NULL, 0, &written);
 *     // written is 2: C3 A9
 */
nody_status_t nody_recoder_finish_repair(nody_recoder_t *recoder, uint8_t *out, size_t capacity, nody_repair_t repair,
                                         const uint32_t *table, size_t table_len, size_t *written);

/* The bytes that a recoder holds: those of the input that were read and not recoded yet.
 *
 * recoder: the recoder. out, capacity: where to write them. If the capacity is too small, nothing is written.
 * Result: how many they are, 0 to 3.
 * Errors: SIZE_MAX if an encoding of the recoder is above 2, or its `count` is above 3 (only in a
 * struct that nody_recoder did not make). Cost: constant.
 *
 *     uint8_t held[3];
 *     size_t count = nody_recoder_held(&recoder, held, sizeof held);
 */
size_t nody_recoder_held(const nody_recoder_t *recoder, uint8_t *out, size_t capacity);

/* nody_recode with one U+FFFD for each maximal subpart, as nody_recoder_feed_lossy writes it, and not for each fault.
 *
 * from, to, in, len, out, capacity, written: as for nody_recode. nody_recoded_len gives a sufficient capacity.
 * Result, errors, cost: as for nody_recode.
 *
 *     nody_recode_lossy(NODY_UTF8, NODY_UTF8, (const uint8_t *)"\xe2\x82" "A", 3, out, sizeof out, &written);
 *     // written is 4: EF BF BD 41
 */
static inline nody_status_t nody_recode_lossy(nody_encoding_t from, nody_encoding_t to, const uint8_t *in, size_t len, uint8_t *out,
                                              size_t capacity, size_t *written) {
    nody_recoder_t recoder = nody_recoder(from, to);
    size_t read, more;
    nody_status_t status = nody_recoder_feed_lossy(&recoder, in, len, out, capacity, &read, written);
    if (status != NODY_STATUS_DONE) return status;
    status = nody_recoder_finish_lossy(&recoder, *written > 0 ? out + *written : out, capacity - *written, &more);
    *written += more;
    return status;
}

/* nody_recode, but each invalid byte of UTF-8 becomes what a table has for it, as nody_recoder_feed_repair writes it.
 *
 * from, to, in, len, out, capacity, written: as for nody_recode. nody_recoded_len gives a sufficient capacity: no character up to U+FFFF
 * takes more bytes than U+FFFD.
 * repair, table, table_len: as for nody_recoder_feed_repair.
 * Result, cost: as for nody_recode.
 * Errors: NODY_STATUS_REFUSED, with 0 in `*written`, if an encoding is above 2, or `repair` is above 3.
 *
 *     nody_recode_repair(NODY_UTF8, NODY_UTF8, (const uint8_t *)"caf\xe9", 4, out, sizeof out, NODY_REPAIR_WINDOWS_1252, NULL, 0, &written);
 *     // written is 5: 63 61 66 C3 A9
 */
static inline nody_status_t nody_recode_repair(nody_encoding_t from, nody_encoding_t to, const uint8_t *in, size_t len, uint8_t *out,
                                               size_t capacity, nody_repair_t repair, const uint32_t *table, size_t table_len,
                                               size_t *written) {
    nody_recoder_t recoder = nody_recoder(from, to);
    size_t read, more;
    nody_status_t status = nody_recoder_feed_repair(&recoder, in, len, out, capacity, repair, table, table_len, &read, written);
    if (status != NODY_STATUS_DONE) return status;
    status = nody_recoder_finish_repair(&recoder, *written > 0 ? out + *written : out, capacity - *written, repair, table, table_len,
                                        &more);
    *written += more;
    return status;
}

/* ---- Pieces of input in parts ----------------------------------------------------------------------------------------------- */

/* Makes a decoder, which returns the pieces of input in parts, each with its offset.
 *
 * encoding: the encoding of the input.
 * Result: the decoder. It holds nothing, and counts offsets from 0. If the encoding is above 2, the other calls refuse it. It has 16
 * bytes, and you may copy it: both copies then continue independently.
 * Errors: none. Cost: constant.
 *
 *     nody_decoder_t decoder = nody_decoder(NODY_UTF8);
 */
nody_decoder_t nody_decoder(nody_encoding_t encoding);

/* Feeds the next part of the input. The pieces depend neither on how the input is divided into parts, nor on the capacity.
 *
 * They are those that nody_utf8_pieces gives of the whole input, with the same kinds, except in one case: a decoder names a byte that
 * breaks a character as soon as it sees that byte. So for the first byte of F0 41, at the end of the input, the kind is
 * NODY_KIND_INTERRUPTED_SEQUENCE, and not NODY_KIND_TOO_FEW_BYTES (as nody_utf8_streamed_at has it).
 *
 * decoder: the decoder. It holds at most three bytes, the last of the part: the front of a character, or faults whose kind the
 * next bytes decide (as ED A0). No other byte is held.
 * in, in_len: the part. It may end anywhere, also inside a character or a unit, and may be empty.
 * out, capacity: where to write pieces, and how many. What is after them in `out` does not change.
 * read: receives how many bytes of the part were read. Bytes that the decoder now holds are included.
 * written: receives how many pieces were written.
 * Result:
 *   NODY_STATUS_DONE: the whole part was read.
 *   NODY_STATUS_FULL: the output is full, and the next piece is known already. Empty `out`, and call again with the bytes of the part
 *   after `*read`, even if there are none. If the capacity is not 0, each call that is given a byte reads or writes something.
 * Errors: NODY_STATUS_REFUSED, with 0 in `*read` and `*written`, if the encoding is above 2, or `count` is above 3 (only in a
 * struct that nody_decoder did not make). Cost: linear in what is read.
 *
 *     do {
 *         status = nody_decoder_feed(&decoder, in + place, len - place, pieces, 256, &read, &written);
 *         for (size_t k = 0; k < written; k++)
 *             if (pieces[k].kind != NODY_KIND_OK) report(pieces[k].offset, nody_kind_sentence(pieces[k].kind));
 *         place += read;
 *     } while (status == NODY_STATUS_FULL);
 */
nody_status_t nody_decoder_feed(nody_decoder_t *decoder, const uint8_t *in, size_t in_len, nody_located_t *out, size_t capacity,
                                size_t *read, size_t *written);

/* Ends the input: gives the pieces of what the decoder holds. These are faults. In UTF-8 the first one has the kind
 * NODY_KIND_TOO_FEW_BYTES, and those after it NODY_KIND_UNEXPECTED_CONTINUATION_BYTE. In UTF-16 all have NODY_KIND_INCOMPLETE.
 *
 * decoder: the decoder. Its offset goes on by the bytes that it no longer holds: after NODY_STATUS_DONE it is that of the end of the
 * input. For other input make another decoder.
 * out, capacity, written: as for nody_decoder_feed. A capacity of 3 is always enough.
 * Result:
 *   NODY_STATUS_DONE: all was written. The decoder holds nothing.
 *   NODY_STATUS_FULL: the output is full, and something is still held. Empty `out`, and call this again.
 * Errors: NODY_STATUS_REFUSED, with 0 in `*written`, as for nody_decoder_feed. Cost: constant.
 *
 *     nody_located_t last[3];
 *     if (nody_decoder_finish(&decoder, last, 3, &written) != NODY_STATUS_DONE) return failed();
 */
nody_status_t nody_decoder_finish(nody_decoder_t *decoder, nody_located_t *out, size_t capacity, size_t *written);

/* Feeds the next part of the input, and returns only the faults: those of nody_decoder_feed, with the same offsets and kinds. Text
 * between them is skipped in blocks, at the speed of nody_utf8_valid_up_to.
 *
 * decoder: the decoder. It is then as after nody_decoder_feed, so you may mix calls of both.
 * in, in_len, read: as for nody_decoder_feed.
 * out, capacity: where to write faults, and how many. What is after them in `out` does not change.
 * written: receives how many faults were written. A fault may lie up to three bytes before the part (with
 * nody_decoder_feed too): to show its value, keep the last three bytes of each part.
 * Result:
 *   NODY_STATUS_DONE: the whole part was read.
 *   NODY_STATUS_FULL: the output is full, and the next fault is known already. Empty `out`, and call again with what is left of the
 *   part after `*read`, even if that is empty. With a capacity of 0, `decoder->offset` is then the offset of that fault.
 * Errors: NODY_STATUS_REFUSED, as for nody_decoder_feed. Cost: linear in what is read.
 *
 *     do {
 *         status = nody_decoder_feed_faults(&decoder, in + place, len - place, faults, 64, &read, &written);
 *         for (size_t k = 0; k < written; k++) report(faults[k].offset, nody_kind_sentence(faults[k].kind));
 *         place += read;
 *     } while (status == NODY_STATUS_FULL);
 */
nody_status_t nody_decoder_feed_faults(nody_decoder_t *decoder, const uint8_t *in, size_t in_len, nody_located_t *out, size_t capacity,
                                       size_t *read, size_t *written);

/* Ends the input: gives the faults of what the decoder holds, as nody_decoder_finish does.
 *
 * decoder, out, capacity, written: as for nody_decoder_finish.
 * Result:
 *   NODY_STATUS_DONE: all was written. The decoder holds nothing.
 *   NODY_STATUS_FULL: the output is full, and what is still held begins with a fault. Empty `out`, and call this again.
 * Errors, cost: as for nody_decoder_finish.
 *
 *     nody_located_t last[3];
 *     if (nody_decoder_finish_faults(&decoder, last, 3, &written) != NODY_STATUS_DONE) return failed();
 */
nody_status_t nody_decoder_finish_faults(nody_decoder_t *decoder, nody_located_t *out, size_t capacity, size_t *written);

/* ---- Lines and columns ------------------------------------------------------------------------------------------------------ */

/* The position at the front of an input: line 1, column 1, byte column 1.
 *
 * Result: the position. It has 32 bytes, and you may copy it: both copies then continue independently.
 * Errors: none. Cost: constant.
 *
 *     nody_position_t at = nody_position();
 */
nody_position_t nody_position(void);

/* Advances a position over the next bytes of the input.
 *
 * A line ends after its line feed (0A; in UTF-16 the unit 000A), and after nothing else: a carriage return counts as a character. The
 * column is 1 more than the number of pieces since the line began, and the byte column 1 more than the number of bytes.
 * The position depends on all bytes that were passed, and not on how they are divided into parts. It is the one that these bytes have if
 * they are the whole input: after the first two bytes of E2 82 AC, which are two faults until the third follows, the column is 3, and
 * after all three it is 2. At the offset of a piece the column counts the pieces before it.
 *
 * position: the position. The bytes that were passed so far are those before these.
 * encoding: the encoding of the input, one for all of its parts.
 * bytes, len: the next bytes. They may begin and end anywhere, also inside a character or a unit, and there may be none.
 * Result: NODY_STATUS_DONE.
 * Errors: NODY_STATUS_REFUSED, with nothing changed, if the encoding is above 2, or `count` is above 3 (only in a struct that
 * nody_position did not make). Cost: linear in `len`. Line feeds are counted in blocks, and pieces after the last of them.
 *
 *     size_t passed = 0; // of a part, in which these faults are
 *     for (size_t k = 0; k < written; k++) {
 *         nody_position_advance(&at, NODY_UTF8, part + passed, (size_t)faults[k].offset - passed);
 *         passed = (size_t)faults[k].offset;
 *         report(at.line, at.column, nody_kind_sentence(faults[k].kind));
 *     }
 *     nody_position_advance(&at, NODY_UTF8, part + passed, len - passed);
 */
nody_status_t nody_position_advance(nody_position_t *position, nody_encoding_t encoding, const uint8_t *bytes, size_t len);

/* ---- Kinds in words --------------------------------------------------------------------------------------------------------- */

/* Writes the address of the name of a kind, or of a sentence about it. From C and C++ call nody_kind_name and nody_kind_sentence
 * below, which are easier.
 *
 * kind: the kind. name or sentence: receives the address. Names and sentences live as long as the program.
 * Errors: if the number is no kind, `*name` or `*sentence` stays as it was. So put a valid pointer there before. Cost: constant.
 *
 *     static const nody_name_t unknown = {"?"};
 *     const nody_name_t *name = &unknown;
 *     nody_put_kind_name(kind, &name);
 */
void nody_put_kind_name(nody_kind_t kind, const nody_name_t **name);
void nody_put_kind_sentence(nody_kind_t kind, const nody_sentence_t **sentence);

/* The name of a kind.
 *
 * kind: the kind.
 * Result: the name, such as "OverlongEncoding". It lives as long as the program.
 * Errors: "?" if the number is no kind. Cost: constant.
 *
 *     puts(nody_kind_name(piece.kind));
 */
static inline const char *nody_kind_name(nody_kind_t kind) {
    static const nody_name_t unknown = {"?"};
    const nody_name_t *name = &unknown;
    nody_put_kind_name(kind, &name);
    return name->text;
}

/* What a kind means.
 *
 * kind: the kind.
 * Result: a sentence, such as "overlong encoding: the value has a shorter code". It lives as long as the program.
 * Errors: "?" if the number is no kind. Cost: constant.
 *
 *     puts(nody_kind_sentence(piece.kind));
 */
static inline const char *nody_kind_sentence(nody_kind_t kind) {
    static const nody_sentence_t unknown = {"?"};
    const nody_sentence_t *sentence = &unknown;
    nody_put_kind_sentence(kind, &sentence);
    return sentence->text;
}

/* ---- The library ------------------------------------------------------------------------------------------------------------ */

/* The version of the library.
 *
 * Result: major * 1000000 + minor * 1000 + patch. A program needs a library of the same major version as its header, and of the
 * same or a higher minor version.
 * Errors: none. Cost: constant.
 *
 *     uint32_t version = nody_version();
 *     if (version / 1000000 != NODY_VERSION_MAJOR || version / 1000 < NODY_VERSION / 1000) return other_version();
 */
uint32_t nody_version(void);

/* Whether the library runs on this processor. On x86-64 it needs x86-64-v2.
 *
 * Result: 0 if it does not, another number if it does. No other call tests this: on a processor without x86-64-v2 the signal
 * SIGILL may end your program.
 * Errors: none. Cost: constant.
 *
 *     if (!nody_supported()) return use_another_library();
 */
int nody_supported(void);

/* The vector width of validation, in bytes: which code the library has chosen for this CPU.
 *
 * Result: 32 on x86-64 if the CPU has x86-64-v3 (AVX2 and related features), otherwise 16. Conversion is faster with 32 too. The
 * results of calls do not depend on it. The library tests the CPU once, when it is loaded. Before that the result is 16.
 * Errors: none. Cost: constant.
 *
 *     printf("vectors of %d bytes\n", nody_lanes());
 */
int nody_lanes(void);

/* ---- Rarely needed ---------------------------------------------------------------------------------------------------------- */

/* Where to cut an input for several workers: the last offset up to `at` that is not inside a character or a maximal subpart,
 * and in UTF-16 not inside a unit. If each shard ends where this call says, and the last one at len, you may convert each
 * separately, also on several machines, and join the outputs. They are what the whole becomes: by nody_recode, by the _lossy and the
 * _repair calls, and by the _strict calls up to the first shard with a fault. (nody_boundary_before may return an offset inside a
 * maximal subpart: of E2 82 41, cut after E2, the _lossy calls write two U+FFFD, and of the whole one.)
 *
 * from: the encoding of the input. bytes, len: the input. at: about where the shard should end.
 * Result: where it ends, at most three bytes before `at`. If `at` is 0, it is 0. If `at` is len or more, it is len.
 * Errors: SIZE_MAX if the encoding is above 2. Cost: constant: it looks at seven bytes around `at`.
 *
 *     size_t end = i + 1 < count ? nody_shard_end(NODY_UTF8, bytes, len, (i + 1) * (len / count)) : len;
 */
size_t nody_shard_end(nody_encoding_t from, const uint8_t *bytes, size_t len, size_t at);

/* The piece that begins at an offset, with the kind that the Rust crate encode_unicode reports when it decodes an iterator of
 * bytes. Its decoder takes one byte at a time. It reports an invalid byte as soon as it sees it, before it can know how much input
 * is left.
 *
 * bytes, len: the input. place: the offset.
 * Result: what nody_utf8_first returns for the bytes from `place` on, except in one case. If fewer bytes are left than the first byte
 * needs, and one of the bytes after the first is not 80 to BF, the kind is NODY_KIND_INTERRUPTED_SEQUENCE, and not
 * NODY_KIND_TOO_FEW_BYTES. If `place` is len or more, the kind is NODY_KIND_NONE.
 * Errors: none. Cost: constant.
 *
 *     nody_kind_t kind = nody_utf8_streamed_at((const uint8_t *)"\xf0\x9f!", 3, 0).kind; // NODY_KIND_INTERRUPTED_SEQUENCE
 */
nody_piece_t nody_utf8_streamed_at(const uint8_t *bytes, size_t len, size_t place);

#undef NODY_CAST
#ifdef __cplusplus
}
#endif

/* From C++11 on, a stream shows these constants as numbers. In C++98 they are of the type uint8_t: there write +kind. */
#if defined(__cplusplus) && __cplusplus >= 201103L
#define NODY_SHOWN(name) \
    template <typename Out> auto operator<<(Out &out, name value) -> decltype(static_cast<void>(out.put(typename Out::char_type())), out) { \
        return out << static_cast<int>(value), out; \
    }
extern "C++" {
NODY_SHOWN(nody_kind_t)
NODY_SHOWN(nody_encoding_t)
NODY_SHOWN(nody_status_t)
}
#undef NODY_SHOWN
#endif

#endif

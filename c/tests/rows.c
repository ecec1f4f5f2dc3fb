/* Compares the library's calls with the rows of crates/conformance and crates/run_vectors, as far as a call for C returns what a
 * row asks: rows CRATES. Prints what differs, and then `N passed, M failed`. */
#include "noddychest.h"
#include "rows.h"

/* Lines that grow, with `;` after each. */
struct text {
    char *at;
    size_t len;
    FILE *file;
};

static void open_text(struct text *text) {
    if (!(text->file = open_memstream(&text->at, &text->len))) stop("no memory", "for a text");
}

static void put_answer(FILE *out, nody_piece_t piece) {
    if (piece.kind == NODY_KIND_OK) {
        fprintf(out, "%06lx;", (unsigned long)piece.scalar);
    } else {
        fprintf(out, "%s;", nody_kind_name(piece.kind));
    }
}

static void put_piece(FILE *out, size_t place, nody_piece_t piece) {
    if (piece.kind == NODY_KIND_NONE) {
        fputs("none;", out);
    } else {
        fprintf(out, "%lu %lu ", (unsigned long)place, (unsigned long)piece.len);
        put_answer(out, piece);
    }
}

/* Whether the text is that of the column, which may lack the last `;`. Closes the text. */
static void expect_text(struct text *text, const char *want, const char *what, const char *which) {
    fclose(text->file);
    size_t len = strlen(want);
    int lacks_end = len > 0 && want[len - 1] != ';';
    expect(text->len == len + (size_t)lacks_end && memcmp(text->at, want, len) == 0, what, which);
    free(text->at);
}

/* The next piece by the header's inline path: nody_utf8_next is a macro here. */
static nody_piece_t next_in_line(nody_bytes_t *left) {
    return nody_utf8_next(left);
}

static void forward_by(nody_piece_t (*next)(nody_bytes_t *left), const char *name, const uint8_t *bytes, size_t len, const char *want, const char *which) {
    struct text text;
    nody_bytes_t left = nody_bytes(bytes, len);
    nody_piece_t piece;
    open_text(&text);
    for (size_t place = 0; (piece = next(&left)).kind != NODY_KIND_NONE; place += piece.len) put_piece(text.file, place, piece);
    expect_text(&text, want, name, which);
}

static void forward(const uint8_t *bytes, size_t len, const char *want, const char *which) {
    forward_by(next_in_line, "nody_utf8_next in line", bytes, len, want, which);
    forward_by(nody_utf8_next, "nody_utf8_next", bytes, len, want, which);
}

static void forward_by_three(const uint8_t *bytes, size_t len, const char *want, const char *which) {
    struct text text;
    nody_bytes_t left = nody_bytes(bytes, len);
    nody_piece_t pieces[3];
    size_t count, place = 0;
    open_text(&text);
    while ((count = nody_utf8_pieces(&left, pieces, 3)) > 0)
        for (size_t i = 0; i < count; place += pieces[i++].len) put_piece(text.file, place, pieces[i]);
    expect_text(&text, want, "nody_utf8_pieces", which);
}

static void merged(const uint8_t *bytes, size_t len, const char *want, const char *which) {
    struct text text;
    nody_piece_t piece;
    open_text(&text);
    for (size_t place = 0; (piece = nody_utf8_streamed_at(bytes, len, place)).kind != NODY_KIND_NONE; place += piece.len) put_answer(text.file, piece);
    expect_text(&text, want, "nody_utf8_streamed_at", which);
}

static void walk(const uint8_t *bytes, size_t len, const char *word, const char *want, const char *which) {
    struct text text;
    nody_bytes_t left = nody_bytes(bytes, len);
    const uint8_t *front = left.bytes;
    open_text(&text);
    for (; *word; word++) {
        size_t place = (size_t)(left.bytes - front);
        nody_piece_t piece = *word == 'F' ? nody_utf8_next(&left) : nody_utf8_next_back(&left);
        put_piece(text.file, *word == 'F' ? place : place + left.len, piece);
    }
    expect_text(&text, want, "a walk over bytes", which);
}

static void forward_units(const uint16_t *units, size_t len, const char *want, const char *which) {
    struct text text;
    nody_units_t left = nody_units(units, len);
    nody_piece_t piece;
    open_text(&text);
    for (size_t place = 0; (piece = nody_utf16_next(&left)).kind != NODY_KIND_NONE; place += piece.len) put_piece(text.file, place, piece);
    expect_text(&text, want, "nody_utf16_next", which);
}

static void forward_units_by_three(const uint16_t *units, size_t len, const char *want, const char *which) {
    struct text text;
    nody_units_t left = nody_units(units, len);
    nody_piece_t pieces[3];
    size_t count, place = 0;
    open_text(&text);
    while ((count = nody_utf16_pieces(&left, pieces, 3)) > 0)
        for (size_t i = 0; i < count; place += pieces[i++].len) put_piece(text.file, place, pieces[i]);
    expect_text(&text, want, "nody_utf16_pieces", which);
}

static void walk_units(const uint16_t *units, size_t len, const char *word, const char *want, const char *which) {
    struct text text;
    nody_units_t left = nody_units(units, len);
    const uint16_t *front = left.units;
    open_text(&text);
    for (; *word; word++) {
        size_t place = (size_t)(left.units - front);
        nody_piece_t piece = *word == 'F' ? nody_utf16_next(&left) : nody_utf16_next_back(&left);
        put_piece(text.file, *word == 'F' ? place : place + left.len, piece);
    }
    expect_text(&text, want, "a walk over units", which);
}

static void of_bytes(const char *crates) {
    struct rows rows = open_rows(crates, "conformance/data/bytes.txt");
    while (next_row(&rows)) {
        size_t len;
        char **column = rows.column;
        uint8_t *bytes = bytes_of(column[0], &len);
        forward(bytes, len, column[1], column[0]);
        forward_by_three(bytes, len, column[1], column[0]);
        merged(bytes, len, column[2], column[0]);
        walk(bytes, len, column[3], column[4], column[0]);
        free(bytes);
    }
}

static void of_units(const char *crates) {
    struct rows rows = open_rows(crates, "conformance/data/units.txt");
    while (next_row(&rows)) {
        size_t len;
        char **column = rows.column;
        uint16_t *units = units_of(column[0], &len);
        forward_units(units, len, column[1], column[0]);
        forward_units_by_three(units, len, column[1], column[0]);
        walk_units(units, len, column[2], column[3], column[0]);
        free(units);
    }
}

static void of_lists(const char *crates) {
    struct rows rows = open_rows(crates, "run_vectors/data/lists.txt");
    while (next_row(&rows)) {
        size_t len;
        char **column = rows.column;
        if (strstr(column[0], "utf8")) {
            uint8_t *bytes = bytes_of(column[1], &len);
            if (strcmp(column[0], "walk_utf8") == 0) walk(bytes, len, column[2], column[3], column[1]);
            if (strcmp(column[0], "merge_utf8") == 0) merged(bytes, len, column[3], column[1]);
            free(bytes);
        } else {
            uint16_t *units = units_of(column[1], &len);
            if (strcmp(column[0], "walk_utf16") == 0) walk_units(units, len, column[2], column[3], column[1]);
            if (strcmp(column[0], "forward_utf16") == 0) forward_units(units, len, column[3], column[1]);
            free(units);
        }
    }
}

/* The encoding that a word names; `end` is where the word ends. */
static uint8_t encoding_of(const char *word, const char **end) {
    size_t len = strcspn(word, " ");
    *end = word + len + (word[len] == ' ');
    return len == 4 ? NODY_UTF8 : word[5] == 'l' ? NODY_UTF16LE : NODY_UTF16BE;
}

/* Offsets of faults, ends of shards and bounds of what is recoded. */
static void of_places(const char *crates, const char *name) {
    struct rows rows = open_rows(crates, name);
    while (next_row(&rows)) {
        size_t len, want = strtoul(rows.column[3], NULL, 10), is = want;
        const char *asked = rows.column[2], *call = rows.column[0], *digits = rows.column[1];
        if (strcmp(call, "units_valid_up_to") == 0) {
            uint16_t *units = units_of(digits, &len);
            is = nody_utf16_valid_up_to(units, len);
            free(units);
        } else if (strcmp(call, "front_of_text") != 0) {
            uint8_t *bytes = bytes_of(digits, &len), from = *asked ? encoding_of(asked, &asked) : NODY_UTF8;
            if (strcmp(call, "valid_up_to") == 0) is = nody_utf8_valid_up_to(bytes, len);
            if (strcmp(call, "shard_end") == 0) is = nody_shard_end(from, bytes, len, strtoul(asked, NULL, 10));
            if (strcmp(call, "room_for") == 0) {
                uint8_t to = encoding_of(asked, &asked);
                is = nody_recoded_len_max(from, to, strtoul(asked, NULL, 10));
                if (strcmp(rows.column[3], "none") == 0) want = SIZE_MAX;
            }
            free(bytes);
        } else {
            continue;
        }
        expect(is == want, call, *digits ? digits : rows.column[2]);
    }
}

/* The scalar of a character as Rust writes it between quotes. */
static unsigned long scalar_of(const char *text) {
    unsigned first = (unsigned char)text[0], len = first < 0xe0 ? 2 : first < 0xf0 ? 3 : 4;
    unsigned long scalar = first & (0xffu >> (len + 1));
    if (first == '\\') return text[1] == 'u' ? strtoul(text + 3, NULL, 16) : text[1] == '0' ? 0 : text[1] == 'n' ? '\n' : text[1] == 't' ? '\t' : text[1] == 'r' ? '\r' : (unsigned long)text[1];
    if (first < 0x80) return first;
    for (unsigned i = 1; i < len; i++) scalar = scalar << 6 | ((unsigned char)text[i] & 0x3f);
    return scalar;
}

/* Whether a piece is the result in calls.txt: `Ok('A')`, `Ok(('A', 1))`, `Some((0, Ok('A'), 1))`, `None`, and with
 * `Err(KIND)` or `Err(Utf8Error { kind: KIND })` in place of `Ok`. */
static int is_answer(nody_piece_t piece, size_t place, const char *answer) {
    const char *ok = strstr(answer, "Ok("), *err = strstr(answer, "kind: "), *end = strrchr(answer, ',');
    if (strncmp(answer, "None", 4) == 0) return piece.kind == NODY_KIND_NONE;
    if (strncmp(answer, "Some((", 6) == 0 && strtoul(answer + 6, NULL, 10) != place) return 0;
    if (end && end[1] == ' ' && end[2] >= '1' && end[2] <= '4' && strtoul(end + 2, NULL, 10) != piece.len) return 0;
    if (ok) return piece.kind == NODY_KIND_OK && piece.scalar == scalar_of(strchr(ok, '\'') + 1);
    err = err ? err + 6 : strstr(answer, "Err(") + 4;
    const char *name = nody_kind_name(piece.kind);
    return strncmp(err, name, strlen(name)) == 0 && !strchr("abcdefghijklmnopqrstuvwxyz", err[strlen(name)]);
}

/* Cuts a text at the first occurrence of another, and returns what follows, or NULL. */
static char *cut_at(char *text, const char *between) {
    char *at = text ? strstr(text, between) : NULL;
    if (!at) return NULL;
    *at = 0;
    return at + strlen(between);
}

static void decode_bytes(char *digits, char *calls, char *answers) {
    size_t len;
    uint8_t *bytes = bytes_of(digits, &len);
    nody_bytes_t left = nody_bytes(bytes, len);
    const uint8_t *front = left.bytes;
    while (calls && answers) {
        char *more_calls = cut_at(calls, " "), *more = cut_at(answers, " ; ");
        int is_front = strcmp(calls, "next") == 0;
        size_t place = (size_t)(left.bytes - front);
        nody_bytes_t called = left;
        nody_piece_t piece = is_front ? nody_utf8_next(&left) : nody_utf8_next_back(&left);
        if (is_front) expect(is_answer((nody_utf8_next)(&called), place, answers) && called.len == left.len, "a decoder, by a call", digits);
        expect(is_answer(piece, is_front ? place : place + left.len, answers), "a decoder", digits);
        calls = more_calls;
        answers = more;
    }
    free(bytes);
}

static void decode_units(char *digits, char *calls, char *answers) {
    size_t len;
    uint16_t *units = units_of(digits, &len);
    nody_units_t left = nody_units(units, len);
    const uint16_t *front = left.units;
    while (calls && answers) {
        char *more_calls = cut_at(calls, " "), *more = cut_at(answers, " ; ");
        int is_front = strcmp(calls, "next") == 0;
        size_t place = (size_t)(left.units - front);
        nody_piece_t piece = is_front ? nody_utf16_next(&left) : nody_utf16_next_back(&left);
        expect(is_answer(piece, is_front ? place : place + left.len, answers), "a decoder of units", digits);
        calls = more_calls;
        answers = more;
    }
    free(units);
}

static void one_of_bytes(const char *digits, const char *call, char *answers) {
    size_t len;
    uint8_t *bytes = bytes_of(digits, &len);
    int is_end = strcmp(call, "from_slice_end") == 0;
    cut_at(answers, " ; ");
    if (is_end || strncmp(call, "char::from_utf8_slice_start", 27) == 0 || strncmp(call, "char::from_utf8_array", 21) == 0)
        expect(is_answer(is_end ? nody_utf8_last(bytes, len) : nody_utf8_first(bytes, len), 0, answers), call, digits);
    free(bytes);
}

/* The kind of a fault in units, which single calls of Rust name otherwise. */
static int is_kind_of_units(uint8_t kind, const char *answer) {
    if (strstr(answer, "FirstIsTrailingSurrogate")) return kind == NODY_KIND_UNEXPECTED_TRAILING_SURROGATE;
    if (strstr(answer, "SecondIsNotTrailingSurrogate")) return kind == NODY_KIND_UNMATCHED_LEADING_SURROGATE;
    return kind == NODY_KIND_INCOMPLETE;
}

/* (a character and a second unit in one tuple is a fault, which a slice has not) */
static void one_of_units(const char *digits, const char *call, char *answers) {
    size_t len;
    uint16_t *units = units_of(digits, &len);
    int is_end = strcmp(call, "from_slice_end") == 0;
    if (!is_end && strncmp(call, "char::from_utf16_", 17) != 0) {
        free(units);
        return;
    }
    nody_piece_t piece = is_end ? nody_utf16_last(units, len) : nody_utf16_first(units, len);
    cut_at(answers, " ; ");
    if (strstr(answers, "Ok(")) {
        expect(is_answer(piece, 0, answers), call, digits);
    } else if (!strstr(answers, "SuperfluousSecond")) {
        expect(is_kind_of_units(piece.kind, answers), call, digits);
    }
    free(units);
}

static void number(const char *digits, const char *call, const char *answers) {
    uint8_t code[4];
    uint32_t scalar = (uint32_t)strtoul(digits, NULL, 16);
    size_t len = nody_utf8_encode(scalar, code, 4);
    if (strcmp(call, "from_u32_detailed") != 0) return;
    expect(len ? is_answer(nody_utf8_first(code, len), 0, answers) : strncmp(answers, "Err(", 4) == 0, call, digits);
}

/* Rows of `ASKED | INPUT | CALLS | ANSWERS`. Asked are those of no bytes, which C calls NONE and no error, of what only Rust has,
 * and of what the library has no call for, are left out. */
static void of_calls(const char *crates) {
    struct rows rows = open_rows(crates, "conformance/data/calls.txt");
    while (next_row(&rows)) {
        char *asked = rows.column[0], *digits = rows.column[1] + 1, *calls = rows.column[2] + 1, *answers = rows.column[3] + 1;
        if (!*rows.column[3] || rows.column[4][0]) continue;
        cut_at(digits, " ");
        calls[strlen(calls) - 1] = 0;
        int is_decoder = strspn(calls, "next_back ") == strlen(calls);
        if (strcmp(asked, "decoder ") == 0 && is_decoder) decode_bytes(digits, calls, answers);
        if (strcmp(asked, "decoder of units ") == 0 && is_decoder) decode_units(digits, calls, answers);
        if (strcmp(asked, "bytes ") == 0 && *digits) one_of_bytes(digits, calls, answers);
        if (strcmp(asked, "units ") == 0 && *digits) one_of_units(digits, calls, answers);
        if (strcmp(asked, "number ") == 0) number(digits, calls, answers);
    }
}

int main(int argc, char **argv) {
    if (argc != 2) stop("usage", "rows CRATES");
    of_bytes(argv[1]);
    of_units(argv[1]);
    of_lists(argv[1]);
    of_calls(argv[1]);
    of_places(argv[1], "run_vectors/data/places.txt");
    of_places(argv[1], "run_vectors/data/block_places.txt");
    expect(nody_supported(), "nody_supported", "on this processor");
    return tell();
}

/* The line around an invalid byte, as people see it: invalid bytes as \xE9, a mark under the first, and nothing that commands a terminal. */
#include "nody.h"

#include <stdlib.h>
#include <string.h>

/* Bytes that are looked at before and after the invalid one, and the most columns that are filled. */
enum { REACH = 4096, MOST_WIDTH = 400, INDENT = 4 };

/* A part of the input around an invalid byte, and room for what becomes of it: at most three bytes for each. */
struct around {
    uint8_t bytes[3 * 2 * REACH];
    nody_encoding_t encoding;
    size_t begin, at, end; /* the line's part, and the invalid byte in it */
    bool is_cut, goes_on;  /* the line begins before it, and ends after it */
};

/* A terminal that can show colours and several lines for one. */
static bool is_able(const struct output *out) {
    const char *kind = getenv("TERM");
    return out->is_shown && kind && strcmp(kind, "dumb") != 0;
}

bool is_colored(const struct request *request, const struct output *out) {
    const char *none = getenv("NO_COLOR");
    return request->color == ALWAYS || (request->color == AUTO && is_able(out) && !(none && *none));
}

/* Settles the defaults: lines are shown on a terminal, and colours too. */
void set_context(struct request *request, const struct output *out) {
    if (request->context == AUTO) request->context = is_able(out) ? ALWAYS : NEVER;
    request->color = is_colored(request, out) ? ALWAYS : NEVER;
}

static size_t width_of_output(const struct output *out) {
    const char *told = getenv("COLUMNS");
    size_t width = width_of_terminal(out->file);
    if (!width) width = told ? (size_t)strtoul(told, NULL, 10) : 80;
    return width < 20 ? 20 : width > MOST_WIDTH ? MOST_WIDTH : width;
}

/* Reads what is around the byte: from the file, or of a pipe from the block. */
static void load_around(struct around *it, const struct run *run, const struct block *block, size_t at) {
    int error;
    uint64_t offset = block->at + at;
    size_t before = REACH, len;
    it->encoding = block->encoding;
    if (S_ISREG(run->source.about.st_mode)) {
        if (offset < REACH) before = (size_t)offset;
        len = read_at(&run->source, it->bytes, before + REACH, offset - before, &error);
    } else {
        if (at < REACH) before = at;
        len = before + (block->end - at < REACH ? block->end - at : REACH);
        memcpy(it->bytes, block->bytes + at - before, len);
    }
    it->at = before;
    it->goes_on = len == before + REACH;
    it->end = it->goes_on ? cut_before(it->encoding, it->bytes, len, len - LEAD) : len < before ? before : len;
    it->is_cut = offset > before;
}

/* The end of the line: before its line feed, and a carriage return before that. */
static size_t end_of_line(struct around *it) {
    size_t end = it->at;
    for (size_t at = it->at; at < it->end;) {
        nody_piece_t piece = piece_at(it->encoding, it->bytes + at, it->end - at);
        at += piece.len;
        if (piece.kind != NODY_KIND_OK || (piece.scalar != '\r' && piece.scalar != '\n')) end = at;
        if (piece.kind != NODY_KIND_OK || piece.scalar != '\n') continue;
        it->goes_on = false;
        break;
    }
    return end;
}

/* Narrows the part to the line. */
static void find_line(struct around *it) {
    size_t at = it->is_cut && it->at == REACH ? cut_before(it->encoding, it->bytes, it->end, LEAD) : 0;
    it->begin = at;
    while (at < it->at) {
        nody_piece_t piece = piece_at(it->encoding, it->bytes + at, it->end - at);
        at += piece.len;
        if (piece.kind != NODY_KIND_OK || piece.scalar != '\n') continue;
        it->begin = at;
        it->is_cut = false;
    }
    it->end = end_of_line(it);
}

/* How a piece is shown, and how many columns that takes. */
struct shape {
    char text[20];
    size_t width;
    bool is_invalid;
};

static struct shape shape_of(const uint8_t *bytes, const nody_piece_t *piece) {
    struct shape shape = {"", 0, piece->kind != NODY_KIND_OK};
    if (shape.is_invalid) {
        for (size_t i = 0; i < piece->len; i++) snprintf(shape.text + 4 * i, 5, "\\x%02X", bytes[i]);
    } else if (piece->scalar == '\t') {
        strcpy(shape.text, " ");
    } else if (!is_shown(piece->scalar)) {
        snprintf(shape.text, sizeof shape.text, "<U+%04X>", (unsigned)piece->scalar);
    } else {
        nody_utf8_encode(piece->scalar, (uint8_t *)shape.text, 4);
        shape.width = width_of(piece->scalar);
        return shape;
    }
    shape.width = strlen(shape.text);
    return shape;
}

static size_t width_between(const struct around *it, size_t begin, size_t end) {
    size_t width = 0;
    while (begin < end) {
        nody_piece_t piece = piece_at(it->encoding, it->bytes + begin, it->end - begin);
        width += shape_of(it->bytes + begin, &piece).width;
        begin += piece.len;
    }
    return width;
}

/* Leaves out the front of the line, if that takes the byte beyond two thirds of the width. Returns the columns before the byte. */
static size_t cut_front(struct around *it, size_t width) {
    size_t before = width_between(it, it->begin, it->at);
    while (before > width * 2 / 3) {
        nody_piece_t piece = piece_at(it->encoding, it->bytes + it->begin, it->end - it->begin);
        before -= shape_of(it->bytes + it->begin, &piece).width;
        it->begin += piece.len;
        it->is_cut = true;
    }
    return before;
}

static void put_shape(struct output *out, const struct shape *shape, bool has_color) {
    bool is_marked = has_color && shape->is_invalid;
    if (is_marked) put_text(out, "\033[1;31m");
    put_text(out, shape->text);
    if (is_marked) put_text(out, "\033[0m");
}

static const char ellipsis[] = "\xE2\x80\xA6";

/* Puts a part of a line, as far as it fits into the width, and ends the line. */
static void put_part(struct output *out, const struct around *it, size_t width, bool has_color) {
    size_t used = it->is_cut;
    bool is_whole = true;
    if (it->is_cut) put_text(out, ellipsis);
    for (size_t at = it->begin; at < it->end && is_whole;) {
        nody_piece_t piece = piece_at(it->encoding, it->bytes + at, it->end - at);
        struct shape shape = shape_of(it->bytes + at, &piece);
        at += piece.len;
        is_whole = (used += shape.width) <= width - (at < it->end || it->goes_on);
        if (is_whole) put_shape(out, &shape, has_color);
    }
    if (!is_whole || it->goes_on) put_text(out, ellipsis);
    put_byte(out, '\n');
}

/* Replaces the invalid bytes of a part of a line, as the request says. */
static void replace_part(struct around *it, const struct request *request) {
    static uint8_t made[sizeof it->bytes];
    nody_recoder_t recoder = nody_recoder(it->encoding, it->encoding);
    it->end = replace_invalid(&recoder, request->errors, it->bytes + it->begin, it->end - it->begin, made, sizeof made);
    it->begin = 0;
    memcpy(it->bytes, made, it->end);
}

/* Puts the line of an invalid byte as it is, and as it would become. */
void put_change(struct run *run, const struct block *block, const struct found *found) {
    static struct around around;
    struct output *out = run->out;
    bool has_color = run->request->color == ALWAYS;
    size_t width = out->is_shown ? width_of_output(out) - 2 : SIZE_MAX;
    load_around(&around, run, block, found->at);
    find_line(&around);
    if (out->is_shown) cut_front(&around, width);
    put_text(out, has_color ? "\033[31m-\033[0m" : "-");
    put_part(out, &around, width, has_color);
    replace_part(&around, run->request);
    put_text(out, has_color ? "\033[32m+\033[0m" : "+");
    put_part(out, &around, width, has_color);
}

/* Puts the line, as far as it fits, and then a mark under the byte. */
void put_context(struct run *run, const struct block *block, const struct found *found) {
    static struct around around; /* (output is put by one thread at a time) */
    bool has_color = run->request->color == ALWAYS;
    struct output *out = run->out;
    load_around(&around, run, block, found->at);
    find_line(&around);
    size_t width = width_of_output(out) - INDENT - 1, before = cut_front(&around, width - 2);
    put_text(out, "    ");
    put_part(out, &around, width, has_color);
    for (size_t i = 0; i < INDENT + around.is_cut + before; i++) put_byte(out, ' ');
    put_text(out, has_color ? "\033[1;32m^\033[0m\n" : "^\n");
}

/* nody list: a line for each piece. */
#include "nody.h"

static void put_character(struct output *out, uint32_t scalar) {
    uint8_t bytes[4];
    if (is_shown(scalar)) put(out, bytes, nody_utf8_encode(scalar, bytes, sizeof bytes));
}

static void put_scalar(struct output *out, uint32_t scalar) {
    int digits = scalar > 0xFFFFF ? 6 : scalar > 0xFFFF ? 5 : 4;
    while (digits-- > 0) put_byte(out, "0123456789ABCDEF"[scalar >> (4 * digits) & 15]);
}

static void put_bytes(struct output *out, const uint8_t *bytes, size_t len) {
    for (size_t i = 0; i < len; i++) put_hex(out, bytes[i], 2);
}

/* OFFSET LENGTH BYTES, and then U+SCALAR CHARACTER, or KIND: REASON. */
void put_piece(struct output *out, uint64_t offset, const uint8_t *bytes, const nody_piece_t *piece) {
    put_number(out, offset);
    put_byte(out, ' ');
    put_number(out, piece->len);
    put_byte(out, ' ');
    put_bytes(out, bytes, piece->len);
    if (piece->kind == NODY_KIND_OK) {
        put_text(out, " U+");
        put_scalar(out, piece->scalar);
        put_byte(out, ' ');
        put_character(out, piece->scalar);
    } else {
        put_byte(out, ' ');
        put_text(out, nody_kind_name(piece->kind));
        put_text(out, ": ");
        put_text(out, nody_kind_sentence(piece->kind));
    }
    put_byte(out, '\n');
}

/* An object of JSON for a piece, with more members at its end. */
void put_piece_json(struct run *run, uint64_t offset, const uint8_t *bytes, const nody_piece_t *piece, const char *more) {
    struct output *out = run->out;
    put_text(out, "{\"file\":");
    put_json(out, run->source.name);
    put_member(out, ",\"offset\":", offset);
    put_member(out, ",\"length\":", piece->len);
    put_text(out, ",\"bytes\":\"");
    put_bytes(out, bytes, piece->len);
    if (piece->kind == NODY_KIND_OK) {
        put_text(out, "\",\"scalar\":");
        put_number(out, piece->scalar);
    } else {
        put_text(out, "\",\"kind\":");
        put_json(out, nody_kind_name(piece->kind));
        put_text(out, ",\"reason\":");
        put_json(out, nody_kind_sentence(piece->kind));
    }
    put_text(out, more);
    put_text(out, "}\n");
}

/* For commands that only tell. */
void work_not(struct worker *worker) {
    (void)worker;
}

static void put_pieces(struct run *run, struct worker *worker) {
    const struct block *block = &worker->block;
    for (size_t at = 0; at < block->end && !run->out->error;) {
        nody_piece_t piece = piece_at(block->encoding, block->bytes + at, block->len - at);
        if (run->request->is_json) put_piece_json(run, block->at + at, block->bytes + at, &piece, "");
        else put_piece(run->out, block->at + at, block->bytes + at, &piece);
        run->invalid += piece.kind != NODY_KIND_OK;
        at += piece.len;
    }
}

enum status run_list(struct run *run) {
    static const struct command list = {work_not, put_pieces};
    run->command = &list;
    run_blocks(run);
    enum status failure = tell_failure(run);
    return failure != IS_VALID ? failure : run->invalid ? IS_INVALID : IS_VALID;
}

/* nody count: how many bytes, characters, lines, and invalid bytes of each kind. */
#include "nody.h"

#include <string.h>

static void count(struct worker *worker) {
    const struct block *block = &worker->block;
    size_t at = 0, begin = 0;
    worker->characters = 0;
    memset(worker->kinds, 0, sizeof worker->kinds);
    while ((at += valid_up_to(block->encoding, block->bytes + at, block->end - at)) < block->end) {
        nody_piece_t piece = piece_at(block->encoding, block->bytes + at, block->len - at);
        worker->characters += nody_char_count(block->encoding, block->bytes + begin, at - begin);
        worker->kinds[piece.kind]++;
        begin = at += piece.len;
    }
    worker->characters += nody_char_count(block->encoding, block->bytes + begin, block->end - begin);
    worker->end.lines = count_line_feeds(block->encoding, block->bytes, block->end);
}

static void add_counts(struct run *run, struct worker *worker) {
    run->characters += worker->characters;
    for (int kind = 0; kind < NODY_KIND_NONE; kind++) {
        run->kinds[kind] += worker->kinds[kind];
        run->invalid += worker->kinds[kind];
    }
}

static void put_counted(struct output *out, const char *before, uint64_t number, const char *noun) {
    put_text(out, before);
    put_number(out, number);
    put_text(out, noun);
}

static void put_counts(struct run *run) {
    struct output *out = run->out;
    put_name(out, run->source.name);
    put_counted(out, ": ", run->bytes, run->bytes == 1 ? " byte" : " bytes");
    put_counted(out, ", ", run->characters, run->characters == 1 ? " character" : " characters");
    put_counted(out, ", ", run->place.lines, run->place.lines == 1 ? " line, " : " lines, ");
    put_counted(out, "", run->invalid, " ");
    put_text(out, noun_of_invalid(run->source.encoding, run->invalid));
    put_byte(out, '\n');
    for (int kind = 1; kind < NODY_KIND_NONE; kind++)
        if (run->kinds[kind]) {
            put_counted(out, "    ", run->kinds[kind], " ");
            put_text(out, nody_kind_name((nody_kind_t)kind));
            put_text(out, ": ");
            put_text(out, nody_kind_sentence((nody_kind_t)kind));
            put_byte(out, '\n');
        }
}

static void put_counts_json(struct run *run) {
    struct output *out = run->out;
    const char *between = "";
    put_text(out, "{\"file\":");
    put_json(out, run->source.name);
    put_text(out, ",\"encoding\":");
    put_json(out, name_of_encoding(run->source.encoding));
    put_counted(out, ",\"bytes\":", run->bytes, ",\"characters\":");
    put_counted(out, "", run->characters, ",\"lines\":");
    put_counted(out, "", run->place.lines, ",\"invalid\":");
    put_counted(out, "", run->invalid, ",\"kinds\":{");
    for (int kind = 1; kind < NODY_KIND_NONE; kind++)
        if (run->kinds[kind]) {
            put_text(out, between);
            put_json(out, nody_kind_name((nody_kind_t)kind));
            put_counted(out, ":", run->kinds[kind], "");
            between = ",";
        }
    put_text(out, "}}\n");
}

enum status run_count(struct run *run) {
    static const struct command counts = {count, add_counts};
    run->command = &counts;
    run_blocks(run);
    enum status failure = tell_failure(run);
    if (failure != IS_VALID) return failure;
    if (run->request->is_json) put_counts_json(run);
    else put_counts(run);
    return run->invalid ? IS_INVALID : IS_VALID;
}

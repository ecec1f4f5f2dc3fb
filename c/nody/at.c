/* nody at: the piece at an offset, or at a line and a column, and those around it. */
#include "nody.h"

#include <string.h>

/* Pieces before and after the requested one, and a number of bytes before it that is sure to contain the former. */
enum { AROUND = 3, BEFORE = 64 };

/* A piece that was seen, and its bytes. */
struct seen {
    uint64_t offset;
    nody_piece_t piece;
    uint8_t bytes[4];
};

/* What is looked for: the piece that covers an offset, or the one at a line and a column. */
static struct {
    bool is_by_line, is_found;
    uint64_t offset;
    struct place wanted, here; /* `here` is the place of the next piece */
    struct seen last[AROUND];
    size_t count, after; /* of `last`, and of what was put after the piece */
} looked;

static void put_seen(struct run *run, const struct seen *seen, bool is_wanted) {
    if (run->request->is_json) {
        put_piece_json(run, seen->offset, seen->bytes, &seen->piece, is_wanted ? ",\"covers\":true" : ",\"covers\":false");
        return;
    }
    put_text(run->out, is_wanted ? "> " : "  ");
    put_piece(run->out, seen->offset, seen->bytes, &seen->piece);
}

/* Returns the place after some bytes that begin at `looked.here`. */
static struct place place_after(const struct run *run, const uint8_t *bytes, size_t len) {
    struct place place = looked.here, more = {0, 0, 0, false};
    go_on(&more, run->request->columns, run->source.encoding, bytes, len);
    add_place(&place, &more);
    return place;
}

/* Returns true if this is the piece that was asked for: it covers the offset, or the column. */
static bool is_wanted(const struct run *run, const struct seen *seen) {
    if (!looked.is_by_line) return seen->offset + seen->piece.len > looked.offset;
    struct place after = place_after(run, seen->bytes, seen->piece.len);
    if (looked.here.lines != looked.wanted.lines) return false;
    return after.lines > looked.here.lines ? looked.here.columns >= looked.wanted.columns : after.columns > looked.wanted.columns;
}

static void keep_before(const struct seen *seen) {
    memmove(looked.last, looked.last + 1, (AROUND - 1) * sizeof *seen);
    looked.last[AROUND - 1] = *seen;
    looked.count++;
}

/* Keeps a piece before the one that is asked for, puts that with those before it, or one after it. */
static void look_at(struct run *run, const struct seen *seen) {
    if (looked.is_found) {
        put_seen(run, seen, false);
        run->has_stopped = ++looked.after == AROUND;
    } else if (is_wanted(run, seen)) {
        looked.is_found = true;
        run->invalid = seen->piece.kind != NODY_KIND_OK;
        for (size_t i = looked.count < AROUND ? AROUND - looked.count : 0; i < AROUND; i++) put_seen(run, &looked.last[i], false);
        put_seen(run, seen, true);
    } else {
        keep_before(seen);
        run->has_stopped = looked.is_by_line && looked.here.lines > looked.wanted.lines;
    }
}

static struct seen seen_at(const struct block *block, size_t at) {
    struct seen seen = {block->at + at, piece_at(block->encoding, block->bytes + at, block->len - at), {0}};
    memcpy(seen.bytes, block->bytes + at, seen.piece.len);
    return seen;
}

/* Passes over the blocks before the line that is asked for, but for the last pieces, which may be those before it. Returns where to look. */
static size_t pass_lines(const struct run *run, const struct block *block) {
    enum { LAST = 4 * AROUND + LEAD };
    uint64_t lines = looked.is_by_line && !looked.is_found ? count_line_feeds(block->encoding, block->bytes, block->end) : 0;
    if (lines == 0 || looked.here.lines + lines >= looked.wanted.lines || block->end <= LAST) return 0;
    size_t front = cut_before(block->encoding, block->bytes, block->end, block->end - block->end % 2 - LAST);
    looked.here = place_after(run, block->bytes, front);
    return front;
}

static void look_around(struct run *run, struct worker *worker) {
    const struct block *block = &worker->block;
    for (size_t at = pass_lines(run, block); at < block->end && !run->has_stopped;) {
        struct seen seen = seen_at(block, at);
        look_at(run, &seen);
        if (looked.is_by_line) looked.here = place_after(run, seen.bytes, seen.piece.len);
        at += seen.piece.len;
    }
}

/* If the input is seekable, reading begins shortly before the offset, or before the end. The first pieces may then be cut wrongly; they
 * are not printed. */
static void jump(struct source *source, uint64_t offset) {
    uint8_t front[3];
    off_t origin = lseek(source->file, 0, SEEK_CUR);
    uint64_t size = size_of_source(source), len = origin < 0 || size < (uint64_t)origin ? 0 : size - (uint64_t)origin;
    uint64_t there = offset < len ? offset : len, begin = (there - BEFORE) & ~(uint64_t)1;
    if (there <= BEFORE) return;
    ssize_t count = source->is_by_bom ? pread(source->file, front, sizeof front, origin) : 0;
    if (count < 0 || lseek(source->file, origin + (off_t)begin, SEEK_SET) < 0) return;
    nody_encoding_of_bom(front, (size_t)count, &source->encoding);
    source->is_by_bom = false;
    source->at = begin;
}

/* Reads LINE:COLUMN, both from 1. */
static bool is_place(const char *word, struct place *place) {
    char line[24];
    const char *colon = strchr(word, ':');
    size_t len = colon ? (size_t)(colon - word) : 0;
    if (len == 0 || len >= sizeof line) return false;
    memcpy(line, word, len);
    line[len] = 0;
    if (!is_number(line, 1, &place->lines) || !is_number(colon + 1, 1, &place->columns)) return false;
    place->lines--;
    place->columns--;
    return true;
}

static enum status tell_missing(const struct run *run) {
    bool is_in_line = looked.is_by_line && looked.here.lines >= looked.wanted.lines;
    complain(run->source.name, !looked.is_by_line ? "it ends before this offset" : is_in_line ? "this line ends before this column" : "it ends before this line");
    return IS_WRONG;
}

enum status run_at(struct run *run) {
    static const struct command around = {work_not, look_around};
    memset(&looked, 0, sizeof looked);
    looked.is_by_line = is_place(run->request->where, &looked.wanted);
    if (!looked.is_by_line && !is_number(run->request->where, 0, &looked.offset)) {
        complain(run->request->where, "an OFFSET is a number, in decimal or as 0x1f, and LINE:COLUMN are two from 1 on");
        return IS_WRONG;
    }
    run->command = &around;
    if (!looked.is_by_line) jump(&run->source, looked.offset);
    run_blocks(run);
    enum status failure = tell_failure(run);
    if (failure != IS_VALID) return failure;
    if (!looked.is_found) return tell_missing(run);
    return run->invalid ? IS_INVALID : IS_VALID;
}

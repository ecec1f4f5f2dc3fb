/* nody check: whether input is valid, and each invalid byte with its position and the reason. */
#include "nody.h"

#include <stdlib.h>
#include <string.h>

/* A file is binary if its first FRONT bytes contain a NUL, as for grep. Hints are for what AROUND bytes before and after the first invalid byte
 * are, if there are at least FEW. */
enum { FRONT = 8192, AROUND = 1 << 15, FEW = 3 };

static bool has_room_for_found(struct worker *worker) {
    if (worker->count < worker->room) return true;
    size_t room = 2 * worker->room + 16;
    struct found *found = realloc(worker->found, room * sizeof *found);
    if (!found) return false;
    worker->found = found;
    worker->room = room;
    return true;
}

/* Adds the invalid byte that begins there, with the position up to which the block was scanned. */
static bool add_found(struct worker *worker, size_t at) {
    const struct block *block = &worker->block;
    struct found found = {at, piece_at(block->encoding, block->bytes + at, block->len - at), worker->end};
    if (!has_room_for_found(worker)) return false;
    worker->found[worker->count++] = found;
    return true;
}

/* Finds at most `most` invalid bytes of a block, and their offsets if these are wanted. Returns how far it looked. */
size_t find_invalid(struct worker *worker, uint64_t most, bool has_places) {
    const struct block *block = &worker->block;
    int columns = worker->run->request->columns;
    size_t at = 0, counted = 0;
    while (worker->count < most && (at += valid_up_to(block->encoding, block->bytes + at, block->end - at)) < block->end) {
        if (has_places) go_on(&worker->end, columns, block->encoding, block->bytes + counted, at - counted);
        counted = at;
        if ((worker->has_failed = !add_found(worker, at))) return at;
        at += worker->found[worker->count - 1].piece.len;
    }
    if (has_places) go_on(&worker->end, columns, block->encoding, block->bytes + counted, block->end - counted);
    return at;
}

/* Counts the invalid bytes of a block from an offset on. */
static uint64_t count_invalid(const struct block *block, size_t at) {
    uint64_t count = 0;
    while ((at += valid_up_to(block->encoding, block->bytes + at, block->end - at)) < block->end) {
        at += piece_at(block->encoding, block->bytes + at, block->len - at).len;
        count++;
    }
    return count;
}

/* Returns true if the first invalid byte says all that is wanted. */
static bool is_brief(const struct request *request) {
    return request->is_quiet || request->is_named;
}

/* Returns true if a NUL at the front says that a file in an encoding is binary. */
static bool can_be_binary(const struct request *request, nody_encoding_t encoding) {
    return !request->is_text && !request->is_followed && encoding == NODY_UTF8;
}

/* Looks for a NUL at the front of a file, whose encoding the byte order mark may tell. */
static void look_at_front(struct run *run) {
    uint8_t front[FRONT];
    int error;
    if (!S_ISREG(run->source.about.st_mode)) return;
    nody_encoding_t encoding = run->source.encoding;
    size_t len = read_at(&run->source, front, sizeof front, 0, &error);
    if (run->source.is_by_bom) nody_encoding_of_bom(front, len, &encoding);
    run->is_binary = can_be_binary(run->request, encoding) && memchr(front, 0, len) != NULL;
}

/* Looks for a NUL at the front of a pipe, in what was read so far. */
static void look_at_block(struct run *run, const struct block *block) {
    if (S_ISREG(run->source.about.st_mode) || !can_be_binary(run->request, run->source.encoding) || block->at >= FRONT) return;
    size_t len = block->end < FRONT - block->at ? block->end : (size_t)(FRONT - block->at);
    run->is_binary = run->is_binary || memchr(block->bytes, 0, len);
}

static void find(struct worker *worker) {
    const struct run *run = worker->run;
    bool is_enough = is_brief(run->request) || (S_ISREG(run->source.about.st_mode) && run->is_binary);
    size_t at = find_invalid(worker, is_enough ? 1 : run->request->most, !is_enough);
    worker->more = is_enough || worker->has_failed ? 0 : count_invalid(&worker->block, at);
}

/* ---- Output */

static void put_found_json(struct output *out, const char *name, const struct place *place, uint64_t offset, const nody_piece_t *piece) {
    put_text(out, "{\"file\":");
    put_json(out, name);
    put_member(out, ",\"line\":", place->lines + 1);
    put_member(out, ",\"column\":", place->columns + 1);
    put_member(out, ",\"offset\":", offset);
    put_member(out, ",\"length\":", piece->len);
    put_text(out, ",\"kind\":");
    put_json(out, nody_kind_name(piece->kind));
    put_text(out, ",\"reason\":");
    put_json(out, nody_kind_sentence(piece->kind));
    put_text(out, "}\n");
}

/* Tells of an invalid byte: FILE:LINE:COLUMN: offset N: reason. */
void put_found(struct run *run, struct output *out, const struct block *block, const struct found *found) {
    struct place place = run->place;
    add_place(&place, &found->place);
    if (run->request->is_json) {
        put_found_json(out, run->source.name, &place, block->at + found->at, &found->piece);
        return;
    }
    put_name(out, run->source.name);
    put_member(out, ":", place.lines + 1);
    put_member(out, ":", place.columns + 1);
    put_member(out, ": offset ", block->at + found->at);
    put_text(out, ": ");
    put_text(out, nody_kind_sentence(found->piece.kind));
    put_byte(out, '\n');
    if (run->request->context == ALWAYS && place.lines + 1 != run->last_line) put_context(run, block, found);
    run->last_line = place.lines + 1;
}

static void tell_found(struct run *run, struct worker *worker) {
    const struct request *request = run->request;
    look_at_block(run, &worker->block);
    bool is_enough = is_brief(request) || run->is_binary;
    for (size_t i = 0; i < worker->count && !run->has_stopped; i++) {
        if (!run->invalid) run->first = worker->block.at + worker->found[i].at;
        if (!is_enough && run->invalid < request->most) put_found(run, run->out, &worker->block, &worker->found[i]);
        run->invalid++;
        run->has_stopped = is_enough;
    }
    if (!run->has_stopped) run->invalid += worker->more;
}

static void put_summary_json(struct run *run) {
    put_text(run->out, "{\"file\":");
    put_json(run->out, run->source.name);
    put_text(run->out, ",\"encoding\":");
    put_json(run->out, name_of_encoding(run->source.encoding));
    put_text(run->out, run->invalid ? ",\"valid\":false" : ",\"valid\":true");
    put_text(run->out, run->is_binary ? ",\"binary\":true" : ",\"binary\":false");
    put_member(run->out, ",\"invalid\":", run->invalid);
    if (run->is_binary && run->invalid) put_member(run->out, ",\"first\":", run->first);
    put_text(run->out, run->has_stopped ? ",\"complete\":false}\n" : ",\"complete\":true}\n");
}

/* What the bytes around the first invalid byte of a file most likely are. A few invalid bytes, one that Windows-1252 has not, or more than the
 * characters of UTF-8 beside them, are no sign of another encoding: they may be damage. */
static nody_guess_t guess_around(const struct run *run) {
    static uint8_t bytes[2 * AROUND];
    nody_survey_t survey;
    int error;
    uint64_t at = run->first > AROUND ? run->first / 2 * 2 - AROUND : 0;
    nody_survey(bytes, read_at(&run->source, bytes, sizeof bytes, at, &error), &survey);
    nody_guess_t guess = nody_guess(&survey);
    bool is_mixed = guess == NODY_GUESS_UTF8_MIXED, is_latin = is_mixed || guess == NODY_GUESS_WINDOWS1252;
    bool is_damage = survey.utf8.faults < FEW || survey.utf8.undefined || (is_mixed && survey.utf8.chars < survey.utf8.faults);
    return is_latin && is_damage ? NODY_GUESS_UTF8 : guess;
}

/* Says on standard error what may help with a file that is not valid UTF-8. */
static void put_hint(const struct run *run) {
    static const struct {
        nody_guess_t guess;
        const char *hint;
    } hints[] = {
        {NODY_GUESS_UTF16LE_MARKED, "begins with the mark of UTF-16LE: try --encoding auto"},
        {NODY_GUESS_UTF16BE_MARKED, "begins with the mark of UTF-16BE: try --encoding auto"},
        {NODY_GUESS_UTF16LE, "looks like UTF-16LE: try --encoding utf-16le"},
        {NODY_GUESS_UTF16BE, "looks like UTF-16BE: try --encoding utf-16be"},
        {NODY_GUESS_WINDOWS1252, "looks like Windows-1252: try fix --errors windows-1252"},
        {NODY_GUESS_UTF8_MIXED, "looks like UTF-8 with bytes of an 8-bit encoding: if that is Windows-1252, try fix --errors windows-1252"},
    };
    const struct source *source = &run->source;
    if (!S_ISREG(source->about.st_mode) || source->encoding != NODY_UTF8 || source->is_by_bom) return;
    nody_guess_t guess = guess_around(run);
    for (size_t i = 0; i < sizeof hints / sizeof *hints; i++)
        if (hints[i].guess == guess) complain(source->name, hints[i].hint);
}

static void put_count(struct run *run, const char *before, uint64_t count) {
    put_text(run->out, before);
    put_grouped(run->out, count);
    put_byte(run->out, ' ');
    if (count != run->invalid) put_text(run->out, "more ");
    put_text(run->out, noun_of_invalid(run->source.encoding, count));
}

static void put_summary(struct run *run) {
    const char *encoding = name_of_encoding(run->source.encoding);
    put_name(run->out, run->source.name);
    if (!run->invalid) {
        put_text(run->out, ": valid ");
        put_text(run->out, encoding);
    } else if (run->is_binary) {
        put_text(run->out, ": binary file, not valid ");
        put_text(run->out, encoding);
        put_member(run->out, ": the first invalid byte is at offset ", run->first);
        put_text(run->out, " (-a shows all)");
    } else if (run->invalid > run->request->most) {
        put_count(run, ": ", run->invalid - run->request->most);
        put_text(run->out, " (--max 0 shows all)");
    } else {
        put_text(run->out, ": not valid ");
        put_text(run->out, encoding);
        put_count(run, ": ", run->invalid);
    }
    put_byte(run->out, '\n');
    if (run->invalid) put_hint(run);
}

/* Only the name: as it is for a program, and as it can be shown for people. */
static void put_its_name(struct run *run) {
    const char *name = run->source.name;
    if (run->out->is_shown) put_name(run->out, name);
    else put_text(run->out, name);
    put_byte(run->out, run->request->is_nul ? 0 : '\n');
}

const struct command check_command = {find, tell_found};

/* Returns true for a binary file that was found in a folder: these have one line together. */
bool is_only_counted(const struct run *run) {
    const struct request *request = run->request;
    return run->how == IS_FOUND && run->is_binary && run->invalid && !request->is_verbose && !request->is_json && !is_brief(request);
}

/* Ends the check of a file with what is said of the whole. */
enum status end_check(struct run *run) {
    const struct request *request = run->request;
    enum status failure = tell_failure(run);
    if (failure != IS_VALID) return failure;
    if (request->is_quiet || is_only_counted(run)) return run->invalid ? IS_INVALID : IS_VALID;
    if (request->is_named && run->invalid) put_its_name(run);
    else if (request->is_json && !request->is_named) put_summary_json(run);
    else if (!request->is_named && (run->invalid || request->is_verbose)) put_summary(run);
    return run->invalid ? IS_INVALID : IS_VALID;
}

enum status run_check(struct run *run) {
    run->command = &check_command;
    look_at_front(run);
    run_blocks(run);
    return end_check(run);
}

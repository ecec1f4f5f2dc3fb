/* nody recode: converts from one encoding to another, to standard output, to a file, or in place. */
#include "nody.h"

#include <string.h>

/* Transcodes bytes that begin and end between maximal subparts, by a new recoder, into room for all of the output. Returns its length. */
size_t replace_invalid(nody_recoder_t *recoder, int errors, const uint8_t *bytes, size_t len, uint8_t *out, size_t room) {
    static const nody_repair_t repairs[] = {[DROP] = NODY_REPAIR_DROP, [WINDOWS_1252] = NODY_REPAIR_WINDOWS_1252, [LATIN_1] = NODY_REPAIR_LATIN_1};
    size_t read, made, more;
    if (errors == REPLACE) {
        nody_recoder_feed(recoder, bytes, len, out, room, &read, &made);
        nody_recoder_finish(recoder, out + made, room - made, &more);
    } else if (errors == LOSSY) {
        nody_recoder_feed_lossy(recoder, bytes, len, out, room, &read, &made);
        nody_recoder_finish_lossy(recoder, out + made, room - made, &more);
    } else {
        nody_recoder_feed_repair(recoder, bytes, len, out, room, repairs[errors], NULL, 0, &read, &made);
        nody_recoder_finish_repair(recoder, out + made, room - made, repairs[errors], NULL, 0, &more);
    }
    return made + more;
}

/* Transcodes the block up to its first invalid byte. */
static void recode_strictly(struct worker *worker, const uint8_t *bytes, size_t len) {
    const struct block *block = &worker->block;
    nody_fault_t fault;
    size_t read;
    nody_recode_strict(block->encoding, worker->run->request->to, bytes, len, worker->made, worker->made_room, &read, &worker->made_len, &fault);
    find_invalid(worker, 1, true);
}

static void recode(struct worker *worker) {
    const struct block *block = &worker->block;
    const uint8_t *bytes = block->bytes + block->mark;
    size_t len = block->end - block->mark;
    worker->has_failed = !has_room(worker, nody_recoded_len_max(block->encoding, worker->run->request->to, BLOCK_ROOM));
    if (worker->has_failed) return;
    if (worker->run->request->errors == STRICT) {
        recode_strictly(worker, bytes, len);
    } else {
        nody_recoder_t recoder = nody_recoder(block->encoding, worker->run->request->to);
        worker->made_len = replace_invalid(&recoder, worker->run->request->errors, bytes, len, worker->made, worker->made_room);
        worker->replaced = recoder.replaced;
    }
}

/* Strict mode: writes what is before the first invalid byte, and reports that byte on standard error. */
static void tell_first(struct run *run, struct worker *worker) {
    run->has_stopped = true;
    if (!flush_output(run->out)) return;
    hide_progress();
    put_found(run, &err, &worker->block, &worker->found[0]);
    flush_output(&err);
}

/* Returns true if a block became itself. (a mark that is left out is put again by --bom, if it is that of the output) */
static bool is_same(const struct request *request, const struct worker *worker) {
    const struct block *block = &worker->block;
    bool is_mark_kept = block->mark == 0 || (request->has_mark && block->encoding == request->to);
    return is_mark_kept && worker->made_len == block->end - block->mark && memcmp(worker->made, block->bytes + block->mark, worker->made_len) == 0;
}

/* Puts the byte order mark at the front, unless the text begins with one. (the first blocks may become nothing) */
static void put_mark(struct run *run, const struct worker *worker) {
    static const char *const marks[] = {"\xEF\xBB\xBF", "\xFF\xFE", "\xFE\xFF"};
    const char *mark = marks[run->request->to];
    size_t len = strlen(mark);
    if (!run->request->has_mark || run->has_output) return;
    run->has_output = true;
    bool is_there = worker && worker->made_len >= len && memcmp(worker->made, mark, len) == 0;
    if (!is_there) put(run->out, mark, len);
    run->is_same = run->is_same && is_there == (run->source.mark == 0);
}

static void put_recoded(struct run *run, struct worker *worker) {
    if (worker->made_len > 0) put_mark(run, worker);
    put(run->out, worker->made, worker->made_len);
    run->is_same = run->is_same && is_same(run->request, worker);
    run->invalid += run->request->errors == STRICT ? worker->count : worker->replaced;
    if (worker->count) tell_first(run, worker);
}

/* Says how many invalid bytes there were, and what became of them. */
void tell_replaced(const struct run *run) {
    static const char *const became[] = {[REPLACE] = " became U+FFFD\n", [LOSSY] = " became U+FFFD\n", [DROP] = " dropped\n", [WINDOWS_1252] = " read as Windows-1252\n", [LATIN_1] = " read as ISO-8859-1\n"};
    int errors = run->request->errors == DROP || run->source.encoding == NODY_UTF8 ? run->request->errors : REPLACE;
    if (run->request->is_quiet || !run->invalid) return;
    put_text(&err, "nody: ");
    put_name(&err, run->source.name);
    put_text(&err, ": ");
    put_number(&err, run->invalid);
    put_text(&err, " ");
    put_text(&err, noun_of_invalid(run->source.encoding, run->invalid));
    put_text(&err, became[errors]);
    flush_output(&err);
}

/* Transcodes to where `out` goes. */
enum status recode_to(struct run *run, struct output *out) {
    static const struct command recodes = {recode, put_recoded};
    run->command = &recodes;
    run->out = out;
    run_blocks(run);
    if (!run->source.error) put_mark(run, NULL);
    flush_output(out);
    enum status failure = tell_failure(run);
    return failure != IS_VALID ? failure : run->invalid && run->request->errors == STRICT ? IS_INVALID : IS_VALID;
}

enum status run_recode(struct run *run) {
    const char *into = run->request->is_in_place ? run->source.name : run->request->into;
    if (run->request->is_in_place && !S_ISREG(run->source.about.st_mode))
        return refuses(into, S_ISDIR(run->source.about.st_mode) ? strerror(EISDIR) : "it is no regular file");
    enum status status = into ? write_into(run, into, recode_to) : recode_to(run, run->out);
    if (status == IS_VALID) tell_replaced(run);
    return status;
}

/* nody fix: replaces invalid bytes in files, in place, and leaves valid files alone. */
#include "nody.h"

#include <string.h>

static void find_first(struct worker *worker) {
    find_invalid(worker, 1, false);
}

static void stop_at_first(struct run *run, struct worker *worker) {
    run->has_stopped = worker->count > 0;
}

/* Begins a run on the input again. */
static void begin_again(struct run *run, const struct request *request) {
    struct source *source = &run->source;
    struct run anew;
    memset(&anew, 0, sizeof anew);
    anew.request = request;
    anew.out = run->out;
    anew.source.name = source->name;
    anew.source.file = source->file;
    anew.source.about = source->about;
    anew.source.encoding = request->from;
    if (lseek(source->file, 0, SEEK_SET) < 0) anew.source.error = 1;
    *run = anew;
}

/* ---- What would change */

static void find_lines(struct worker *worker) {
    find_invalid(worker, UINT64_MAX, true);
}

/* Shows each line that would change, before and after. */
static void put_changes(struct run *run, struct worker *worker) {
    for (size_t i = 0; i < worker->count; i++) {
        struct place place = run->place;
        add_place(&place, &worker->found[i].place);
        if (place.lines + 1 == run->last_line) continue;
        if (run->last_line == 0) {
            put_text(run->out, "--- ");
            put_name(run->out, run->source.name);
            put_text(run->out, "\n+++ ");
            put_name(run->out, run->source.name);
            put_byte(run->out, '\n');
        }
        run->last_line = place.lines + 1;
        put_member(run->out, "@@ -", run->last_line);
        put_member(run->out, " +", run->last_line);
        put_text(run->out, " @@\n");
        put_change(run, &worker->block, &worker->found[i]);
    }
    run->invalid += worker->count;
}

static enum status show_changes(struct run *run) {
    static const struct command changes = {find_lines, put_changes};
    run->command = &changes;
    run_blocks(run);
    enum status failure = tell_failure(run);
    return failure != IS_VALID ? failure : IS_INVALID;
}

/* ---- A file */

enum status run_fix(struct run *run) {
    static const struct command first = {find_first, stop_at_first};
    const char *name = run->source.name;
    if (!S_ISREG(run->source.about.st_mode)) return refuses(name, S_ISDIR(run->source.about.st_mode) ? "it is a folder" : "it is no regular file");
    run->command = &first;
    run_blocks(run);
    enum status status = tell_failure(run);
    if (status != IS_VALID || !run->has_stopped) return status;
    /* (a byte order mark named the encoding, and is kept) */
    const struct request *request = run->request;
    struct request exact = *request;
    exact.from = exact.to = run->source.encoding;
    exact.is_by_bom = false;
    begin_again(run, &exact);
    status = exact.is_dry ? show_changes(run) : write_into(run, name, recode_to);
    if (status == IS_VALID) tell_replaced(run);
    run->request = request;
    return status;
}

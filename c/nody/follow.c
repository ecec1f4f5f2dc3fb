/* nody check --follow: several files, each by its name, as tail -F does: what is added, and the next file that gets the name. */
#include "nody.h"

#include <signal.h>
#include <stdlib.h>
#include <string.h>
#include <time.h>
#ifdef __linux__
#include <sys/inotify.h>
#endif

/* How long is waited at most, in milliseconds: with inotify, and without. */
enum { WITH_EVENTS = 500, WITHOUT = 100 };

struct followed {
    const char *name;
    struct run run;
    struct worker worker;
    bool is_open, is_over;
    bool is_missing; /* and that was said */
    enum status worst;
};

static volatile sig_atomic_t is_at_end;

static void end_followed(int number) {
    (void)number;
    is_at_end = 1;
}

/* ---- Waiting */

#ifdef __linux__
/* Watches a file, and the folder in which another one may get its name. */
static void watch(int events, const char *name) {
    char *folder = strdup(name), *end = folder ? strrchr(folder, '/') : NULL;
    if (end) end[end == folder] = 0;
    inotify_add_watch(events, name, IN_MODIFY | IN_ATTRIB);
    if (folder) inotify_add_watch(events, end ? folder : ".", IN_CREATE | IN_MOVED_TO | IN_MOVED_FROM | IN_DELETE);
    free(folder);
}

static int open_events(void) {
    return inotify_init1(IN_NONBLOCK | IN_CLOEXEC);
}
#else
static void watch(int events, const char *name) {
    (void)events;
    (void)name;
}

static int open_events(void) {
    return -1;
}
#endif

/* Waits until something may have changed. (a pipe is looked at from time to time) */
static void wait_for_change(int events, bool has_pipes) {
    char passed[4096];
    struct pollfd it = {events, POLLIN, 0};
    poll(&it, events >= 0, events < 0 || has_pipes ? WITHOUT : WITH_EVENTS);
    if (events >= 0)
        while (read(events, passed, sizeof passed) > 0) continue;
}

/* ---- One file */

static bool open_followed(struct followed *it, const struct request *request, struct output *out, int events) {
    memset(&it->run, 0, sizeof it->run);
    it->run.request = request;
    it->run.out = out;
    it->run.command = &check_command;
    it->is_open = open_source(&it->run.source, it->name, request, IS_NAMED) && open_worker(&it->worker, &it->run);
    if (events >= 0 && strcmp(it->name, "-") != 0) watch(events, it->name);
    if (it->is_open) {
        it->is_missing = false;
        return true;
    }
    if (!it->is_missing) {
        flush_output(out);
        complain(it->name, strerror(it->run.source.error ? it->run.source.error : ENOMEM));
    }
    it->is_missing = true;
    close_source(&it->run.source);
    return false;
}

/* Ends with the file that is open: its carried-over bytes are decided, and all of it is reported. */
static void close_followed(struct followed *it) {
    if (!it->is_open) return;
    struct source *source = &it->run.source;
    source->is_followed = false;
    while (!source->is_shorter && run_block(&it->run, &it->worker)) continue;
    source->is_followed = true;
    enum status status = end_check(&it->run);
    flush_output(it->run.out);
    if (status > it->worst) it->worst = status;
    close_source(source);
    it->is_open = false;
}

/* Returns true if another file has the name now, or none. */
static bool has_moved(struct followed *it) {
    struct stat now;
    if (strcmp(it->name, "-") == 0) return false;
    if (stat(it->name, &now) == 0) {
        it->is_missing = false;
        return !is_source(&it->run.source, &now);
    }
    if (!it->is_missing) {
        flush_output(it->run.out);
        complain(it->name, "it is not there any more, and is waited for");
    }
    it->is_missing = true;
    return false;
}

/* Reads what is there now. Returns true if there was something. */
static bool read_now(struct followed *it) {
    bool is_any = false;
    while (it->is_open && !is_at_end && run_block(&it->run, &it->worker)) is_any = true;
    return is_any;
}

/* Goes on with a file. Returns true if something happened. */
static bool go_on_with(struct followed *it, const struct request *request, struct output *out, int events) {
    if (it->is_over) return false;
    if (!it->is_open) return open_followed(it, request, out, events);
    bool is_any = read_now(it);
    struct source *source = &it->run.source;
    if (it->run.has_stopped || source->has_ended) {
        close_followed(it);
        it->is_over = true;
        return true;
    }
    source->is_shorter = is_shorter_now(source);
    if (!source->is_shorter && !has_moved(it)) return is_any;
    if (!source->is_shorter) read_now(it); /* (what came before it got another name) */
    bool is_new = !source->is_shorter;
    close_followed(it);
    if (is_new) complain(it->name, "another file has its name, and is followed");
    open_followed(it, request, out, events);
    return true;
}

static enum status end_all(struct followed *all, int count) {
    enum status worst = IS_VALID;
    for (int i = 0; i < count; i++) {
        close_followed(&all[i]);
        close_worker(&all[i].worker);
        if (all[i].worst > worst) worst = all[i].worst;
    }
    return worst;
}

static bool has_pipes(const struct followed *all, int count) {
    bool has_any = false;
    for (int i = 0; i < count; i++) has_any |= all[i].is_open && !S_ISREG(all[i].run.source.about.st_mode);
    return has_any;
}

/* Follows files until a signal ends it, or all have ended, as pipes do. */
enum status run_followed(const struct request *request, struct output *out, int count, char **names) {
    static const int numbers[] = {SIGINT, SIGTERM};
    struct followed *all = calloc((size_t)count, sizeof *all);
    int events = open_events();
    if (!all) return HAS_FAILED;
    on_signals(numbers, sizeof numbers / sizeof *numbers, end_followed);
    for (int i = 0; i < count; i++) {
        all[i].name = names[i];
        if (!open_followed(&all[i], request, out, events)) all[i].worst = HAS_FAILED;
    }
    for (bool is_over = false; !is_over && !is_at_end && !out->error;) {
        bool is_any = false;
        is_over = true;
        for (int i = 0; i < count; i++) {
            is_any |= go_on_with(&all[i], request, out, events);
            is_over &= all[i].is_over;
        }
        flush_output(out);
        if (!is_any && !is_over && !is_at_end) wait_for_change(events, has_pipes(all, count));
    }
    enum status worst = end_all(all, count);
    if (events >= 0) close(events);
    free(all);
    return worst;
}

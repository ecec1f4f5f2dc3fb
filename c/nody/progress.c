/* The progress bar: on standard error, if that is a terminal, once a second has passed. */
#include "nody.h"

#include <stdlib.h>
#include <string.h>

/* (in seconds) */
static const double before_first = 1, between = 0.2;

static bool is_wanted, is_there;
static double begun, said;

static double now(void) {
    struct timespec it;
    clock_gettime(CLOCK_MONOTONIC, &it);
    return (double)it.tv_sec + 1e-9 * (double)it.tv_nsec;
}

/* Whether standard error is a terminal that can go back in a line. */
static bool can_go_back(void) {
    const char *kind = getenv("TERM");
    return isatty(STDERR_FILENO) > 0 && !(kind && strcmp(kind, "dumb") == 0);
}

void start_progress(bool is_quiet) {
    static int can = -1;
    if (can < 0) can = can_go_back();
    is_wanted = !is_quiet && can;
    if (is_wanted) begun = now();
    said = begun + before_first - between;
}

/* A number of bytes, as 1.5 GB. */
static void tell_bytes(char *out, size_t room, double bytes) {
    static const char units[][3] = {"B", "kB", "MB", "GB", "TB"};
    size_t unit = 0;
    for (; bytes >= 1000 && unit < 4; unit++) bytes /= 1000;
    snprintf(out, room, unit ? "%.1f %s" : "%.0f %s", bytes, units[unit]);
}

/* As much of a name as fits in `most` columns. (characters from U+1100 on may be two wide) */
static void say_name(const char *name, size_t most) {
    char shown[SHOWN_ROOM];
    nody_bytes_t left = nody_bytes((const uint8_t *)name, strlen(name));
    for (nody_piece_t piece; (piece = nody_utf8_next(&left)).kind != NODY_KIND_NONE;) {
        size_t len = show_piece(shown, (const char *)left.bytes - piece.len, &piece);
        size_t width = len == piece.len && piece.kind == NODY_KIND_OK ? piece.scalar < 0x1100 ? 1 : 2 : len;
        if (width > most) return;
        most -= width;
        put(&err, shown, len);
    }
}

/* What the bar says behind the name: how far it is, of how much if that is known, and how fast. */
static void tell_state(char *out, size_t room, const struct run *run, double seconds, int width) {
    static const char bar[] = "##############################";
    char done[32], speed[32], size[32], part[96] = "";
    uint64_t whole = size_of_source(&run->source);
    double share = whole > 0 ? (double)run->bytes / (double)whole : 2;
    tell_bytes(done, sizeof done, (double)run->bytes);
    tell_bytes(speed, sizeof speed, (double)run->bytes / seconds);
    tell_bytes(size, sizeof size, (double)whole);
    if (share <= 1 && width > 0) snprintf(part, sizeof part, " of %s [%-*.*s] %d%%", size, width, (int)(share * width), bar, (int)(100 * share));
    else if (share <= 1) snprintf(part, sizeof part, " of %s %d%%", size, (int)(100 * share));
    snprintf(out, room, ": %s%s, %s/s", done, part, speed);
}

/* All in one line: what does not fit is left out, the bar first, and then the end of the name. */
static void say(const struct run *run, double seconds) {
    enum { MOST_WIDTH = 30, MOST_NAME = 60, LEAST_NAME = 8 };
    char state[192];
    size_t width = width_of_terminal(STDERR_FILENO), most = (width ? width : 80) - 1;
    tell_state(state, sizeof state, run, seconds, MOST_WIDTH);
    if (strlen(state) + LEAST_NAME > most) tell_state(state, sizeof state, run, seconds, 0);
    size_t len = strlen(state) < most ? strlen(state) : most, left = most - len;
    put_byte(&err, '\r');
    say_name(run->source.name, left < MOST_NAME ? left : MOST_NAME);
    put(&err, state, len);
    put_text(&err, "\033[K");
    flush_output(&err);
    is_there = true;
}

void show_progress(const struct run *run) {
    if (!is_wanted) return;
    double here = now();
    if (here < said + between) return;
    said = here;
    say(run, here - begun);
}

/* Takes the bar away, before anything else is written. */
void hide_progress(void) {
    if (!is_there) return;
    is_there = false;
    put_text(&err, "\r\033[K");
    flush_output(&err);
}

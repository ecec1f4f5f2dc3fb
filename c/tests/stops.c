/* Stops a program at a call of the system. c/tests/nody.py loads it by LD_PRELOAD, so that another process comes in at an instant that is
 * always the same one.
 *
 *   CALLS=FILE       the name of each call is added to that file, in a line
 *   STOP=NAME:N      before the N-th call of that name, counted from 0, the shell runs the command BETWEEN
 *   FAIL=NAME:ERRNO  each call of that name fails with that number
 */
#define _GNU_SOURCE
#include <dlfcn.h>
#include <errno.h>
#include <fcntl.h>
#include <stdarg.h>
#include <stdio.h>
#include <stdlib.h>
#include <string.h>
#include <sys/file.h>
#include <sys/stat.h>
#include <unistd.h>

enum call { OPEN, FSTAT, FLOCK, STAT, LSTAT, FACCESSAT, MKSTEMP, FCHOWN, FCHMOD, READ, PREAD, WRITE, FSYNC, CLOSE, RENAME, CALLS };

static const char *const names[CALLS] = {"open",   "fstat", "flock", "stat",  "lstat", "faccessat", "mkstemp", "fchown",
                                         "fchmod", "read",  "pread", "write", "fsync", "close",     "rename"};
static int counts[CALLS];

/* The number after the name in a variable NAME:NUMBER, or -1 if that names another call. */
static int number_for(const char *variable, enum call call) {
    const char *told = getenv(variable);
    size_t len = strlen(names[call]);
    return told && strncmp(told, names[call], len) == 0 && told[len] == ':' ? atoi(told + len + 1) : -1;
}

static void note(enum call call) {
    const char *path = getenv("CALLS");
    FILE *file = path ? fopen(path, "a") : NULL;
    if (!file) return;
    fprintf(file, "%s\n", names[call]);
    fclose(file);
}

/* Returns true if the call is to be made, and false if it is to fail. */
static int begins(enum call call) {
    int number = __atomic_fetch_add(&counts[call], 1, __ATOMIC_SEQ_CST), error = number_for("FAIL", call);
    note(call);
    if (number_for("STOP", call) == number) {
        unsetenv("LD_PRELOAD");
        if (system(getenv("BETWEEN")) == -1) abort();
    }
    if (error >= 0) errno = error;
    return error < 0;
}

/* A call with its own type, which goes on to that of the C library. */
#define STOPS(call, result, name, types, arguments)                  \
    result name types {                                              \
        result(*real) types;                                         \
        *(void **)&real = dlsym(RTLD_NEXT, #name);                   \
        return begins(call) ? real arguments : (result)-1;           \
    }

STOPS(FSTAT, int, fstat, (int file, struct stat *about), (file, about))
STOPS(FLOCK, int, flock, (int file, int operation), (file, operation))
STOPS(STAT, int, stat, (const char *name, struct stat *about), (name, about))
STOPS(LSTAT, int, lstat, (const char *name, struct stat *about), (name, about))
STOPS(FACCESSAT, int, faccessat, (int folder, const char *name, int mode, int flags), (folder, name, mode, flags))
STOPS(MKSTEMP, int, mkstemp, (char *name), (name))
STOPS(FCHOWN, int, fchown, (int file, uid_t owner, gid_t group), (file, owner, group))
STOPS(FCHMOD, int, fchmod, (int file, mode_t mode), (file, mode))
STOPS(READ, ssize_t, read, (int file, void *bytes, size_t len), (file, bytes, len))
STOPS(PREAD, ssize_t, pread, (int file, void *bytes, size_t len, off_t at), (file, bytes, len, at))
STOPS(WRITE, ssize_t, write, (int file, const void *bytes, size_t len), (file, bytes, len))
STOPS(FSYNC, int, fsync, (int file), (file))
STOPS(CLOSE, int, close, (int file), (file))
STOPS(RENAME, int, rename, (const char *old, const char *new), (old, new))

int open(const char *name, int flags, ...) {
    va_list more;
    int (*real)(const char *, int, ...);
    *(void **)&real = dlsym(RTLD_NEXT, "open");
    va_start(more, flags);
    mode_t mode = flags & O_CREAT ? va_arg(more, mode_t) : 0;
    va_end(more);
    return begins(OPEN) ? real(name, flags, mode) : -1;
}

/* What nody asks of the system. On Linux and macOS these are calls of POSIX and posix.c; windows.c has them for Windows, with names of files in
 * UTF-8 and as much of their meaning as nody needs. */
#ifndef NODY_SYSTEM_H
#define NODY_SYSTEM_H

#include <errno.h>
#include <fcntl.h>
#include <pthread.h>
#include <stdbool.h>
#include <stdint.h>
#include <stdio.h>
#include <sys/stat.h>
#include <sys/types.h>
#include <unistd.h>

#ifdef _WIN32

#undef fstat
#undef stat
#define S_ISLNK(mode) ((mode) == 0)
#define SEPARATORS "/\\"
#define faccessat(folder, name, mode, flags) 0 /* (make_temporary looks at it) */
#define fstat describe_file
#define open open_name
#define poll(them, count, milliseconds) ((them)->file >= 0)
#define realpath(name, path) (errno = EINVAL, NULL) /* (a link is not replaced, and nor is what it leads to) */
#define stat describe_name
#define sysconf(name) pthread_num_processors_np()
#define unlink unlink_name
#define write write_file
enum { IS_WINDOWS = true, O_CLOEXEC = 0, O_NOCTTY = 0, O_NOFOLLOW = 0, O_NONBLOCK = 0, POLLIN = 1, POLLOUT = 2, FNM_NOMATCH = 1 };
enum { LOCK_NB = 1, LOCK_EX = 2 }; /* as LockFileEx has them */

struct stat {
    unsigned st_mode;
    uint64_t st_dev, st_ino;
    off_t st_size;
    struct timespec st_mtim, st_ctim; /* (only to be compared) */
};

struct pollfd {
    int file;
    short events, revents;
};

int flock(int file, int how);
int fnmatch(const char *glob, const char *name, int flags);
int fstat(int file, struct stat *about);
ssize_t getdelim(char **line, size_t *room, int end, FILE *file);
int link(const char *name, const char *other);
int lstat(const char *name, struct stat *about);
int open(const char *name, int flags);
ssize_t pread(int file, void *bytes, size_t room, off_t at);
int stat(const char *name, struct stat *about);
int unlink(const char *name);
int wcwidth(int scalar);
ssize_t write(int file, const void *bytes, size_t len);

#else

#include <fnmatch.h>
#include <poll.h>
#include <sys/file.h>
#include <wchar.h>
#define SEPARATORS "/"
enum { IS_WINDOWS = false };

#endif

void start_system(void);

/* How many columns a terminal has; 0 if that is not known. */
size_t width_of_terminal(int file);

/* Takes a name in a folder; returns false if there is no memory. */
typedef bool take_name(void *to, const char *name);

/* Gives the names in a folder, which may be a link only if `is_link_followed`. Returns false and sets `errno` if any cannot be read. */
bool read_folder(const char *folder, bool is_link_followed, take_name *take, void *to);

#endif

/* What nody asks of Linux and macOS: streams, folders, descriptors by their names, and files that get their names once they are written. */
#include "nody.h"

#include <dirent.h>
#include <limits.h>
#include <signal.h>
#include <stdlib.h>
#include <string.h>
#include <sys/ioctl.h>
#ifdef __linux__
#include <sys/xattr.h>
#endif

/* Closed streams are opened, so that no file gets their numbers; to read or to write them still fails. */
void start_system(void) {
    for (int file = 0; file < 3; file++)
        if (fcntl(file, F_GETFD) < 0 && open("/dev/null", file == 0 ? O_WRONLY : O_RDONLY) != file) exit(HAS_FAILED);
    signal(SIGPIPE, SIG_IGN);
    signal(SIGXFSZ, SIG_IGN);
}

size_t width_of_terminal(int file) {
    struct winsize size;
    return ioctl(file, TIOCGWINSZ, &size) == 0 ? size.ws_col : 0;
}

bool read_folder(const char *folder, bool is_link_followed, take_name *take, void *to) {
    int file = open(folder, O_RDONLY | O_DIRECTORY | O_CLOEXEC | (is_link_followed ? 0 : O_NOFOLLOW));
    DIR *open = file < 0 ? NULL : fdopendir(file);
    if (!open) return false;
    bool is_whole = true;
    errno = 0;
    for (struct dirent *entry; is_whole && (entry = readdir(open)); errno = 0)
        if (strcmp(entry->d_name, ".") != 0 && strcmp(entry->d_name, "..") != 0) is_whole = take(to, entry->d_name);
    int error = errno;
    closedir(open);
    errno = error;
    return is_whole && error == 0;
}

/* ---- Descriptors */

/* The digits after a front, as a number; -1 if the name has another front, or more than digits follow. */
static int number_after(const char *name, const char *front) {
    size_t len = strlen(front);
    if (strncmp(name, front, len) != 0) return -1;
    const char *digits = name + len;
    size_t count = strspn(digits, "0123456789");
    return count > 0 && count < 8 && !digits[count] ? atoi(digits) : -1;
}

/* The descriptor that a name denotes literally, or -1. */
static int number_of_name(const char *name) {
    static const char *const streams[] = {"/dev/stdin", "/dev/stdout", "/dev/stderr"};
    char own[40];
    int number = -1;
    snprintf(own, sizeof own, "/proc/%ld/fd/", (long)getpid());
    const char *const fronts[] = {"/dev/fd/", "/proc/self/fd/", "/proc/thread-self/fd/", own};
    for (int i = 0; i < 3; i++)
        if (strcmp(name, streams[i]) == 0) number = i;
    for (size_t i = 0; i < sizeof fronts / sizeof *fronts && number < 0; i++) number = number_after(name, fronts[i]);
    return number;
}

/* Goes on from a link to what it has; false if the name is no link. */
static bool follow_link(char *name, size_t room) {
    char target[PATH_MAX];
    ssize_t len = readlink(name, target, sizeof target - 1);
    char *end = strrchr(name, '/');
    size_t folder = end && len > 0 && target[0] != '/' ? (size_t)(end + 1 - name) : 0;
    if (len <= 0 || folder + (size_t)len >= room) return false;
    target[len] = 0;
    strcpy(name + folder, target);
    return true;
}

/* The number of the open descriptor of which a name is another name, as /dev/stdout, or a link that leads there; otherwise -1. It is
 * written without being replaced, as a file that others append to. ("-" is standard output) */
int descriptor_of(const char *name) {
    enum { MOST_LINKS = 40 };
    char here[PATH_MAX];
    size_t len = strlen(name);
    int number = strcmp(name, "-") == 0 ? STDOUT_FILENO : -1;
    if (len >= sizeof here) return -1;
    memcpy(here, name, len + 1);
    for (int i = 0; i < MOST_LINKS && number < 0; i++) {
        number = number_of_name(here);
        if (number < 0 && !follow_link(here, sizeof here)) break;
    }
    return number >= 0 && fcntl(number, F_GETFD) >= 0 ? number : -1;
}

/* ---- Signals */

/* Lets signals do something, but for those that are to be passed over. */
void on_signals(const int *numbers, size_t count, void (*act)(int number)) {
    struct sigaction had, action;
    memset(&action, 0, sizeof action);
    action.sa_handler = act;
    sigemptyset(&action.sa_mask);
    for (size_t i = 0; i < count; i++)
        if (sigaction(numbers[i], NULL, &had) == 0 && had.sa_handler != SIG_IGN) sigaction(numbers[i], &action, NULL);
}

/* The temporary file that a signal which ends the program takes away. */
static char *volatile unfinished;

static void drop_and_end(int number) {
    if (unfinished) unlink(unfinished);
    signal(number, SIG_DFL);
    raise(number);
}

/* Makes the temporary file; no signal comes between that and its being known. One for a new name gets the mode, and the access control list,
 * that the umask and the folder give to new files: mkstemp gives it fewer permissions. */
static int make_unfinished(char *name, bool is_new) {
    static const int numbers[] = {SIGINT, SIGTERM, SIGHUP, SIGQUIT, SIGALRM, SIGXCPU};
    sigset_t all, had;
    sigfillset(&all);
    on_signals(numbers, sizeof numbers / sizeof *numbers, drop_and_end);
    pthread_sigmask(SIG_SETMASK, &all, &had);
    int file = mkstemp(name);
    if (file >= 0 && is_new && unlink(name) == 0 && close(file) == 0) file = open(name, O_WRONLY | O_CREAT | O_EXCL | O_CLOEXEC, 0666);
    if (file >= 0) unfinished = name;
    pthread_sigmask(SIG_SETMASK, &had, NULL);
    return file;
}

/* ---- Files that are replaced */

/* Gives a new file the extended attributes of another one: those of users, its label of SELinux, and its access control list, or none. Takes
 * permissions from the mode if the list cannot be given, or the new file has another group: the bits of the group are the mask of the list,
 * and others may be those whom it excludes. Returns false if an attribute of users would be lost. */
static bool take_attributes(int file, const char *name, bool has_group, mode_t *mode) {
#ifdef __linux__
    static const char list[] = "system.posix_acl_access";
    static char names[1 << 16], value[1 << 16]; /* (as long as Linux lets them be) */
    ssize_t len = listxattr(name, names, sizeof names);
    fremovexattr(file, list); /* (one that the folder gave it) */
    for (const char *it = names; it < names + len; it += strlen(it) + 1) {
        bool is_list = strcmp(it, list) == 0, is_users = strncmp(it, "user.", 5) == 0;
        if (!is_list && !is_users && strcmp(it, "security.selinux") != 0) continue;
        ssize_t size = getxattr(name, it, value, sizeof value);
        bool is_taken = size >= 0 && fsetxattr(file, it, value, (size_t)size, 0) == 0;
        if (is_users && !is_taken) return false;
        if (is_list && !(is_taken && has_group)) *mode &= ~(mode_t)077;
    }
#else
    (void)file, (void)name, (void)has_group, (void)mode;
#endif
    return true;
}

/* Gives a new file the owner, the group, the permissions and the attributes of another one, as far as that is allowed. With another owner or
 * group it is never setuid or setgid. With another group, that group and others may do what both could: each of the two now has users who
 * belonged to the other. */
static bool take_permissions(int file, const char *name, const struct stat *about) {
    struct stat now;
    mode_t mode = about->st_mode & 07777, both = mode & mode >> 3 & 07;
    if (fchown(file, about->st_uid, about->st_gid) != 0 && fchown(file, (uid_t)-1, about->st_gid) != 0) {
        /* (it is then one of who runs this) */
    }
    bool has_group = fstat(file, &now) == 0 && now.st_gid == about->st_gid;
    if (!has_group) mode = (mode & 01700) | both << 3 | both;
    if (!has_group || now.st_uid != about->st_uid) mode &= 01777;
    return take_attributes(file, name, has_group, &mode) && fchmod(file, mode) == 0;
}

/* Makes a file in the folder of the name, with the mode and where possible the owner that the name has. (its own name is short, since that
 * of the file may be as long as names can be) */
bool make_temporary(struct replacement *it, const struct stat *about) {
    static const char ending[] = ".nody-XXXXXX";
    const char *end = strrchr(it->name, '/');
    size_t folder = end ? (size_t)(end + 1 - it->name) : 0;
    if (!(it->temporary = malloc(folder + sizeof ending))) return false;
    memcpy(it->temporary, it->name, folder);
    memcpy(it->temporary + folder, ending, sizeof ending);
    it->file = make_unfinished(it->temporary, !about);
    return it->file >= 0 && (!about || take_permissions(it->file, it->name, about));
}

/* Sees to it that the new name is there after a failure of power. (not all systems can, and the file itself is then safe) */
static void keep_folder(const char *name) {
    char *folder = strdup(name), *end = folder ? strrchr(folder, '/') : NULL;
    if (end) end[end == folder] = 0;
    int file = folder ? open(end ? folder : ".", O_RDONLY | O_CLOEXEC) : -1;
    if (file >= 0) {
        fsync(file);
        close(file);
    }
    free(folder);
}

/* Ends writing: all of the file is then on the disk. (this may take long) */
bool flush_replacement(struct replacement *it) {
    int file = it->file;
    it->file = -1;
    bool is_flushed = it->is_direct || fsync(file) == 0;
    return close(file) == 0 && is_flushed;
}

/* Gives a file that was flushed its name. */
bool keep_replacement(struct replacement *it, struct source *replaced) {
    (void)replaced; /* (its file can be open) */
    if (it->is_direct) return true;
    if (rename(it->temporary, it->name) != 0) return false;
    unfinished = NULL;
    keep_folder(it->name);
    return true;
}

/* Ends with it: what did not get its name goes. */
void drop_replacement(struct replacement *it) {
    int error = errno;
    if (it->file >= 0) close(it->file);
    if (unfinished && unfinished == it->temporary) {
        unlink(unfinished);
        unfinished = NULL;
    }
    free(it->temporary);
    free(it->name);
    errno = error;
}

/* Reads an input in blocks. What the next bytes decide is held from block to block. */
#include "nody.h"

#include <string.h>

#ifdef __APPLE__
#define st_mtim st_mtimespec
#define st_ctim st_ctimespec
#endif

/* Opens an input. What was found in a folder is opened only if it still is a regular file, and no link. */
bool open_source(struct source *source, const char *name, const struct request *request, enum found_how how) {
    memset(source, 0, sizeof *source);
    source->name = name;
    source->encoding = request->from;
    source->is_by_bom = request->is_by_bom;
    source->is_followed = request->is_followed;
    /* (of what is replaced, or followed, no pipe is waited for) */
    bool is_waiting = how == IS_NAMED && !request->is_in_place && !request->is_followed && request->bit != FIX;
    int flags = O_RDONLY | O_CLOEXEC | O_NOCTTY | (is_waiting ? 0 : O_NONBLOCK) | (how == IS_FOUND ? O_NOFOLLOW : 0);
    source->file = strcmp(name, "-") == 0 ? STDIN_FILENO : open(name, flags);
    if (source->file < 0 || fstat(source->file, &source->about) != 0) {
        source->error = errno;
        return false;
    }
    source->origin = lseek(source->file, 0, SEEK_CUR);
    return true;
}

/* (standard input that became shorter is read from its front again) */
void close_source(struct source *source) {
    if (source->file > STDIN_FILENO) close(source->file);
    else if (source->is_followed && source->is_shorter) lseek(source->file, 0, SEEK_SET);
}

static bool is_same_time(const struct timespec *a, const struct timespec *b) {
    return a->tv_sec == b->tv_sec && a->tv_nsec == b->tv_nsec;
}

/* Locks the file of a source until it is closed. Returns false if another process has locked it. The lock is one of flock: a descriptor that
 * only reads can take it, and files are replaced that may not be written. A file system that has no such locks is no failure. (standard input
 * is not locked: its lock would belong to all who have the descriptor, and outlive the program) */
bool lock_source(struct source *source) {
    if (source->file == STDIN_FILENO) return true;
    if (flock(source->file, LOCK_EX | LOCK_NB) != 0 && errno == EWOULDBLOCK) return false;
    if (fstat(source->file, &source->about) != 0) source->error = errno;
    return true;
}

/* Returns true if this is the file that was opened. */
bool is_source(const struct source *source, const struct stat *about) {
    return about->st_dev == source->about.st_dev && about->st_ino == source->about.st_ino;
}

/* Returns true if the file that was opened still has this name, which is no link, and nobody changed it since. */
bool is_source_unchanged(const struct source *source, const char *name) {
    struct stat now;
    const struct stat *then = &source->about;
    return lstat(name, &now) == 0 && is_source(source, &now) && now.st_size == then->st_size && is_same_time(&now.st_mtim, &then->st_mtim) &&
           is_same_time(&now.st_ctim, &then->st_ctim);
}

/* Takes it in that the file got another name, which changes no contents. Returns false if these changed too. */
bool is_source_linked(struct source *source) {
    struct stat then = source->about;
    return fstat(source->file, &source->about) == 0 && source->about.st_size == then.st_size && is_same_time(&source->about.st_mtim, &then.st_mtim);
}

/* The size of a file, or 0 if it is not known. */
uint64_t size_of_source(const struct source *source) {
    return S_ISREG(source->about.st_mode) ? (uint64_t)source->about.st_size : 0;
}

/* Returns true if a file has fewer bytes now than it had. (no size is compared with what was read: files of the kernel, as /proc/version, are
 * said to have no bytes) */
bool is_shorter_now(const struct source *source) {
    struct stat now;
    return S_ISREG(source->about.st_mode) && fstat(source->file, &now) == 0 && now.st_size < source->about.st_size;
}

/* Returns true if a read of a pipe that is followed would wait. */
static bool would_wait(const struct source *source) {
    struct pollfd it = {source->file, POLLIN, 0};
    return !S_ISREG(source->about.st_mode) && poll(&it, 1, 0) == 0;
}

/* Reads once, at least a byte, unless the input has ended, a read fails, or what is followed has no more now. */
static size_t read_some(struct source *source, uint8_t *bytes, size_t room) {
    for (;;) {
        source->is_idle = source->is_followed && would_wait(source);
        if (source->is_idle) return 0;
        ssize_t count = read(source->file, bytes, room);
        if (count > 0 && source->is_followed) fstat(source->file, &source->about);
        if (count > 0) return (size_t)count;
        if (count < 0 && has_waited(source->file, POLLIN)) continue;
        source->is_idle = count == 0 && source->is_followed && S_ISREG(source->about.st_mode);
        if (source->is_idle) return 0;
        source->is_shorter = is_shorter_now(source);
        source->error = count < 0 ? errno : 0;
        source->has_ended = true;
        return 0;
    }
}

/* Reads until some byte is decided, and, if a mark is looked for, until that is there, or the input ends. */
static void fill(struct source *source, struct block *block) {
    size_t held = source->held, least = source->is_by_bom && source->at == 0 ? 3 : 1;
    memcpy(block->bytes, source->holds, held);
    block->len = held;
    while (block->end == 0 && !source->has_ended) {
        block->len += read_some(source, block->bytes + block->len, BLOCK);
        if (source->is_idle) return;
        if (block->len < least && !source->has_ended) continue;
        if (least == 3) block->mark = source->mark = nody_encoding_of_bom(block->bytes, block->len, &source->encoding);
        block->end = block->len - (source->has_ended ? 0 : undecided_len(source->encoding, block->bytes, block->len));
    }
}

/* Takes the next block. Returns false at the end of the input, or if a read fails: then `error` is set. */
bool take_block(struct source *source, struct block *block) {
    block->at = source->at;
    block->mark = 0;
    block->bytes = block->room;
    block->len = block->end = 0;
    if (!source->has_ended) fill(source, block);
    block->encoding = source->encoding;
    block->error = source->error;
    source->held = block->len - block->end;
    memcpy(source->holds, block->bytes + block->end, source->held);
    source->at += block->end;
    return block->end > 0;
}

/* ---- Blocks that are read apart */

/* Reads at an offset until the buffer is full, or the file ends. Returns how many bytes, and puts the error of a read that failed. */
size_t read_at(const struct source *source, uint8_t *bytes, size_t room, uint64_t at, int *error) {
    size_t len = 0;
    *error = 0;
    while (len < room) {
        ssize_t count = pread(source->file, bytes + len, room - len, source->origin + (off_t)(at + len));
        if (count > 0) len += (size_t)count;
        else if (count == 0 || errno != EINTR) {
            *error = count < 0 ? errno : 0;
            break;
        }
    }
    return len;
}

/* Makes a source ready to be read in blocks at the same time, if it is a file that has more than one. */
void read_apart(struct source *source) {
    uint8_t front[3];
    int error;
    source->is_apart = source->origin >= 0 && size_of_source(source) > (uint64_t)source->origin + STRIDE && source->at == 0;
    if (!source->is_apart || !source->is_by_bom) return;
    source->mark = nody_encoding_of_bom(front, read_at(source, front, sizeof front, 0, &error), &source->encoding);
}

/* Reads a block by its number: it is cut at two offsets that are strides apart, and has what decides its last pieces. */
void load_block(const struct source *source, struct block *block, uint64_t number) {
    uint64_t begin = number * STRIDE;
    size_t lead = begin < LEAD ? (size_t)begin : LEAD;
    size_t len = read_at(source, block->room, lead + STRIDE + MOST_HELD, begin - lead, &block->error);
    size_t front = number ? cut_before(source->encoding, block->room, len, lead) : 0;
    block->is_last = len <= lead + STRIDE;
    block->bytes = block->room + front;
    block->at = begin - lead + front;
    block->len = len - front;
    block->end = cut_before(source->encoding, block->room, len, lead + STRIDE) - front;
    block->mark = number ? 0 : source->mark;
    block->encoding = source->encoding;
}

/* After the last of these blocks: the source has ended there. */
void end_source(struct source *source, uint64_t at) {
    source->at = at;
    source->has_ended = true;
    source->is_shorter = is_shorter_now(source);
    lseek(source->file, source->origin + (off_t)at, SEEK_SET);
}

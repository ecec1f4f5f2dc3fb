/* The bytes of a text, which are read in blocks on demand. A pipe is copied into a temporary file. */
#include "text.h"

#include <stdlib.h>
#include <string.h>

/* Reads the window around an offset. */
static void fill_window(struct text *text, uint64_t offset) {
    const struct source whole = {.file = text->file};
    text->at = offset < WINDOW_ROOM / 4 ? 0 : (offset - WINDOW_ROOM / 4) & ~(uint64_t)(CUT - 1);
    text->len = read_at(&whole, text->window, WINDOW_ROOM, text->at, &text->error);
}

/* Returns the bytes from an offset on. `got` is how many they are: `len`, at most NEAR_ROOM, or fewer at the end. */
const uint8_t *bytes_of(struct text *text, uint64_t offset, size_t len, size_t *got) {
    if (offset > text->size) offset = text->size;
    if (len > text->size - offset) len = (size_t)(text->size - offset);
    if (offset < text->at || offset + len > text->at + text->len) fill_window(text, offset);
    size_t skip = offset < text->at + text->len ? (size_t)(offset - text->at) : text->len;
    *got = len < text->len - skip ? len : text->len - skip;
    return text->window + skip;
}

/* The length of a unit in bytes. */
size_t unit_of(const struct text *text) {
    return text->encoding == NODY_UTF8 ? 1 : 2;
}

nody_piece_t piece_of(struct text *text, uint64_t offset) {
    size_t len;
    const uint8_t *bytes = bytes_of(text, offset, LEAD, &len);
    return piece_at(text->encoding, bytes, len);
}

/* The last boundary up to an offset: that of the piece which covers it. */
uint64_t boundary_of(struct text *text, uint64_t offset) {
    size_t len, back;
    if (offset >= text->size) return text->size;
    if (text->encoding != NODY_UTF8) offset -= offset % 2;
    back = offset < LEAD ? (size_t)offset : LEAD;
    const uint8_t *bytes = bytes_of(text, offset - back, back + LEAD, &len);
    size_t at = nody_boundary_before(text->encoding, bytes, len, back);
    return offset - back + (at < back ? at : back);
}

/* The offset of the piece before an offset that is a boundary. */
uint64_t before_piece(struct text *text, uint64_t offset) {
    size_t len, back = offset < LEAD ? (size_t)offset : LEAD;
    if (back == 0) return 0;
    if (text->encoding != NODY_UTF8) return boundary_of(text, offset - (offset % 2 ? 1 : 2));
    nody_bytes_t left = nody_bytes(bytes_of(text, offset - back, back, &len), 0);
    left.len = len;
    return offset - nody_utf8_next_back(&left).len;
}

/* Copies what a pipe has now. Returns true if there was something. */
static bool copy_input(struct text *text) {
    static uint8_t part[1 << 16];
    struct pollfd it = {text->input, POLLIN, 0};
    if (text->input < 0 || poll(&it, 1, 0) <= 0) return false;
    ssize_t count = read(text->input, part, sizeof part), put = 0;
    if (count < 0 && (errno == EINTR || errno == EAGAIN)) return false;
    for (ssize_t done = 0; done < count && put >= 0; done += put) put = pwrite(text->file, part + done, (size_t)(count - done), (off_t)text->size + done);
    if (count > 0 && put >= 0) return true;
    if (count != 0) text->failure = errno;
    text->input = -1;
    return false;
}

/* Looks at what was added, or taken away. Returns true if something was. */
bool update_text(struct text *text) {
    struct stat now;
    uint64_t had = text->size;
    copy_input(text);
    if (fstat(text->file, &now) != 0) return false;
    uint64_t size = S_ISREG(now.st_mode) ? (uint64_t)now.st_size : (uint64_t)lseek(text->file, 0, SEEK_END);
    if (size == had) return false;
    text->size = size;
    text->at = text->len = 0;
    return true;
}

static int open_temporary(void) {
    const char *folder = getenv("TMPDIR");
    char name[4096];
    int len = snprintf(name, sizeof name, "%s/nody-XXXXXX", folder && *folder ? folder : "/tmp");
    int file = len > 0 && (size_t)len < sizeof name ? mkstemp(name) : -1;
    if (file >= 0) unlink(name);
    return file;
}

/* Opens the text of a source, whose descriptor stays open. Returns false and sets `errno` if that fails. */
bool open_text(struct text *text, const struct source *source, const struct request *request) {
    bool is_file = S_ISREG(source->about.st_mode) || S_ISBLK(source->about.st_mode);
    size_t len;
    text->input = is_file ? -1 : source->file;
    text->file = is_file ? source->file : open_temporary();
    text->encoding = request->from;
    text->size = text->at = text->len = 0;
    text->error = text->failure = 0;
    if (text->file < 0) return false;
    update_text(text);
    if (request->is_by_bom) {
        const uint8_t *front = bytes_of(text, 0, 3, &len);
        nody_encoding_of_bom(front, len, &text->encoding);
    }
    return true;
}

void close_text(struct text *text) {
    if (text->input >= 0) close(text->file);
}

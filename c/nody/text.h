/* What `nody view` is made of: a text of any size, its rows on a screen, and what is looked for in it.
 *
 *   text.c    bytes of a file, read in blocks      rows.c    rows on a screen, forward and backward
 *   seek.c    invalid bytes, words, lines          view.c    the screen, and keys
 *
 * No index is kept: all is found from the bytes around an offset. */
#ifndef NODY_TEXT_H
#define NODY_TEXT_H

#include "nody.h"

/* The bytes of a file that are kept in memory. A part of up to NEAR_ROOM bytes is available as one span. */
enum { WINDOW_ROOM = 1 << 18, NEAR_ROOM = 1 << 17 };

struct text {
    int file;
    int input; /* the pipe that is copied into `file`, or -1 */
    nody_encoding_t encoding;
    uint64_t size;
    int error, failure; /* of a read of `file`, and of copying the pipe; or 0 */
    uint64_t at; /* of the window */
    size_t len;
    uint8_t window[WINDOW_ROOM];
};

const uint8_t *bytes_of(struct text *text, uint64_t offset, size_t len, size_t *got);
nody_piece_t piece_of(struct text *text, uint64_t offset);
uint64_t before_piece(struct text *text, uint64_t offset);
uint64_t boundary_of(struct text *text, uint64_t offset);
bool update_text(struct text *text);
bool open_text(struct text *text, const struct source *source, const struct request *request);
void close_text(struct text *text);
size_t unit_of(const struct text *text);

/* ---- Rows */

/* The widths at which lines are cut into rows. A line that is longer than FAR is cut at each multiple of CUT too, from there on, so that
 * no more than that has to be read to find a row. */
enum { CUT = 4096, FAR = 4 * CUT };

struct rows {
    size_t width;    /* in cells */
    size_t per_row;  /* bytes of a row, if these are shown in hexadecimal; otherwise 0 */
    uint64_t begin, end; /* the part of a line whose rows are known */
    size_t count;
    uint64_t starts[FAR + CUT + 8];
};

uint64_t next_row(struct text *text, struct rows *rows, uint64_t row);
uint64_t row_of(struct text *text, struct rows *rows, uint64_t offset);
uint64_t back_rows(struct text *text, struct rows *rows, uint64_t row, size_t count);
size_t cells_of(const nody_piece_t *piece, size_t column);
bool is_line_feed(const nody_piece_t *piece);

/* ---- Looking for something */

/* Asked from time to time while something takes long. Returns true if it is to stop. */
typedef bool is_stopped(void);

enum { NOT_FOUND = -1, STOPPED = -2 };

struct word_bytes {
    uint8_t bytes[256];
    size_t len;
};

/* An offset whose line is known, from 0. */
struct known {
    uint64_t offset, line;
};

bool read_word(struct word_bytes *word, const char *typed, nody_encoding_t encoding);
int64_t next_invalid(struct text *text, uint64_t from, is_stopped *stop);
int64_t previous_invalid(struct text *text, uint64_t before, is_stopped *stop);
int64_t next_word(struct text *text, const struct word_bytes *word, uint64_t from, is_stopped *stop);
int64_t offset_of_line(struct text *text, struct known *known, uint64_t line, is_stopped *stop);
bool count_to(struct text *text, struct known *known, uint64_t offset, uint64_t most);

#endif

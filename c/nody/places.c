/* Lines and columns. A line ends with its line feed. A column is a number of pieces (characters, and invalid bytes, which count one each), of
 * bytes, or of cells of a terminal. */
#include "nody.h"

#include <locale.h>
#include <string.h>

enum { TAB = 8 };

/* Lets wcwidth know the characters of Unicode. (the names are those of glibc and musl, and of macOS) */
void set_widths(void) {
    if (!setlocale(LC_CTYPE, "C.UTF-8")) setlocale(LC_CTYPE, "en_US.UTF-8");
}

/* How many cells a character takes on a terminal, at most two. A control takes one here. */
unsigned width_of(uint32_t scalar) {
    int width = scalar < 0x80 ? 1 : wcwidth((int)scalar);
    return width < 0 ? 1 : (unsigned)width;
}

/* Moves the position over a part of a line, by cells. */
static void go_on_in_cells(struct place *place, nody_encoding_t encoding, const uint8_t *bytes, size_t len) {
    for (size_t at = 0; at < len;) {
        nody_piece_t piece = piece_at(encoding, bytes + at, len - at);
        at += piece.len;
        if (piece.kind == NODY_KIND_OK && piece.scalar == '\t' && place->lines == 0 && !place->has_tab) {
            place->has_tab = true;
            place->before_tab = place->columns;
            place->columns = 0;
        } else if (piece.kind == NODY_KIND_OK && piece.scalar == '\t') {
            place->columns += TAB - place->columns % TAB;
        } else {
            place->columns += piece.kind == NODY_KIND_OK ? width_of(piece.scalar) : 1;
        }
    }
}

/* Moves the position over bytes that begin and end between pieces. */
void go_on(struct place *place, int columns, nody_encoding_t encoding, const uint8_t *bytes, size_t len) {
    nody_position_t at = nody_position();
    nody_position_advance(&at, encoding, bytes, len);
    size_t in_line = (size_t)at.byte_column - 1;
    place->lines += at.line - 1;
    if (at.line > 1) place->columns = 0;
    if (columns == DISPLAY) go_on_in_cells(place, encoding, bytes + (len - in_line), in_line);
    else place->columns += columns == BYTES ? in_line : at.column - 1;
}

/* Moves a position in the whole input by another one, counted from it. */
void add_place(struct place *place, const struct place *more) {
    if (more->lines) place->columns = more->columns;
    else if (more->has_tab) place->columns = ((place->columns + more->before_tab) / TAB + 1) * TAB + more->columns;
    else place->columns += more->columns;
    place->lines += more->lines;
}

/* nody view: a text of any size on a terminal, each invalid byte marked, and what is at the cursor. Built over ncursesw; without it the command
 * says so. */
#include "nody.h"

#ifndef NODY_CURSES

enum status run_view(struct run *run) {
    return refuses(run->source.name, "this nody was built without ncurses, and has no view");
}

#else

#define _XOPEN_SOURCE_EXTENDED 1
#include "text.h"

#include <curses.h>
#include <signal.h>
#include <stdlib.h>
#include <string.h>

/* How far a pipe is read beyond the screen; how many bytes of lines are counted before the screen is drawn, and between two looks at the keys;
 * and how often a file is looked at, in milliseconds. */
enum { AHEAD = 1 << 20, COUNTED_FIRST = 1 << 20, COUNTED_IDLE = 1 << 22, SOON = 200, LATER = 1000 };
enum { CONTROL_C = 3, CONTROL_Z = 26, ESCAPE = 27, WHEEL = 3, INVALID = 1, OTHER = 2 };

static struct view {
    struct text text;
    struct rows rows;
    const char *name;
    int keys;
    uint64_t top, cursor;
    struct known known;
    bool is_line_known, is_hex, is_followed, is_by_mark;
    struct word_bytes word;
    char message[120];
} view;

static size_t height(void) {
    return LINES > 1 ? (size_t)LINES - 1 : 1;
}

static void say(const char *message) {
    snprintf(view.message, sizeof view.message, "%s", message);
}

/* Returns the next key, or ERR if none came in time. If the terminal is gone, this ends the program, as SIGHUP does if it is not ignored. */
static int next_key(int milliseconds) {
    struct pollfd terminal = {view.keys, POLLIN, 0};
    timeout(milliseconds);
    int key = getch();
    if (key == ERR && poll(&terminal, 1, 0) > 0 && (terminal.revents & (POLLHUP | POLLERR | POLLNVAL))) {
        signal(SIGHUP, SIG_DFL);
        raise(SIGHUP);
    }
    return key;
}

/* Returns true if a key was pressed. */
static bool is_key_pressed(void) {
    int key = next_key(0);
    return key != ERR && key != KEY_RESIZE;
}

/* ---- Reading a pipe */

/* Copies more of a pipe. Returns true if there is more now; false at its end, or if a key was pressed. */
static bool read_more(void) {
    while (view.text.input >= 0) {
        struct pollfd both[] = {{view.text.input, POLLIN, 0}, {view.keys, POLLIN, 0}};
        poll(both, 2, SOON);
        if (update_text(&view.text)) return true;
        if (is_key_pressed()) return false;
    }
    return false;
}

/* ---- Moving */

static void set_width(void) {
    size_t width = COLS > 1 ? (size_t)COLS : 1, most = 16;
    while (most > 4 && 12 + 4 * most + 2 > width) most /= 2;
    view.rows.per_row = view.is_hex ? most : 0;
    view.rows.width = width;
    view.rows.count = 0;
}

/* The number of rows from the top to the one of an offset, or the height if it is below the screen. */
static size_t rows_to(uint64_t offset) {
    size_t count = 0;
    for (uint64_t row = view.top; count < height(); count++) {
        uint64_t next = next_row(&view.text, &view.rows, row);
        if (offset < next || next >= view.text.size) break;
        row = next;
    }
    return count;
}

/* Moves the cursor there, and scrolls so that it is visible: in the first row, in the last one, or in the middle if it jumps. */
static void go_to(uint64_t offset) {
    uint64_t row;
    if (offset > view.text.size) offset = view.text.size;
    view.cursor = boundary_of(&view.text, offset);
    row = row_of(&view.text, &view.rows, view.cursor);
    if (row < view.top && next_row(&view.text, &view.rows, row) == view.top) view.top = row;
    else if (row < view.top) view.top = back_rows(&view.text, &view.rows, row, height() / 3);
    else if (rows_to(view.cursor) >= height()) {
        bool is_next = back_rows(&view.text, &view.rows, row, height()) == view.top;
        view.top = back_rows(&view.text, &view.rows, row, is_next ? height() - 1 : height() / 3);
    }
}

static void go_to_end(void) {
    while (read_more()) continue;
    uint64_t last = row_of(&view.text, &view.rows, view.text.size);
    view.top = back_rows(&view.text, &view.rows, last, height() - 1);
    view.cursor = view.text.size ? before_piece(&view.text, view.text.size) : 0;
}

/* Keeps all in the text, after it or the screen changed. */
static void settle(void) {
    set_width();
    uint64_t cursor = view.cursor < view.text.size ? view.cursor : view.text.size ? before_piece(&view.text, view.text.size) : 0;
    if (view.known.offset > view.text.size) view.known.offset = view.known.line = 0;
    view.top = row_of(&view.text, &view.rows, view.top);
    go_to(cursor);
}

/* The cell of an offset in its row. */
static size_t cell_of(uint64_t row, uint64_t offset) {
    size_t column = 0;
    for (uint64_t at = row; at < offset;) {
        nody_piece_t piece = piece_of(&view.text, at);
        if (piece.len == 0) break; /* (the file became shorter, which update_text has not seen yet) */
        column += cells_of(&piece, column);
        at += piece.len;
    }
    return column;
}

/* The piece of a row at a cell. */
static uint64_t at_cell(uint64_t row, size_t cell) {
    uint64_t at = row, end = next_row(&view.text, &view.rows, row);
    if (view.rows.per_row) return boundary_of(&view.text, row + cell < end ? row + cell : end - (end > row));
    for (size_t column = 0; at < end;) {
        nody_piece_t piece = piece_of(&view.text, at);
        column += cells_of(&piece, column);
        if (piece.len == 0 || column > cell || at + piece.len >= end) break;
        at += piece.len;
    }
    return at;
}

static void move_rows(int count) {
    uint64_t row = row_of(&view.text, &view.rows, view.cursor);
    size_t cell = view.rows.per_row ? (size_t)(view.cursor - row) : cell_of(row, view.cursor);
    if (count < 0) row = back_rows(&view.text, &view.rows, row, (size_t)-count);
    for (; count > 0 && next_row(&view.text, &view.rows, row) < view.text.size; count--) row = next_row(&view.text, &view.rows, row);
    go_to(at_cell(row, cell));
}

/* Moves the screen, and the cursor with it. */
static void move_pages(int count) {
    size_t rows = height() > 2 ? height() - 1 : 1;
    if (count < 0) view.top = back_rows(&view.text, &view.rows, view.top, rows);
    else
        for (size_t i = 0; i < rows && next_row(&view.text, &view.rows, view.top) < view.text.size; i++) view.top = next_row(&view.text, &view.rows, view.top);
    view.cursor = boundary_of(&view.text, view.top);
}

/* ---- Drawing */

static void put_cells(int y, size_t x, const char *text, attr_t attributes) {
    if (x >= (size_t)COLS) return;
    attrset((int)attributes);
    mvaddnstr(y, (int)x, text, (unsigned char)text[0] < 0x80 ? COLS - (int)x : -1); /* (what has many cells is ASCII) */
    attrset(A_NORMAL);
}

/* What is shown for a piece, and its attributes. */
static attr_t shape_piece_in(char *shown, size_t room, uint64_t at, const nody_piece_t *piece, size_t cells) {
    size_t len;
    const uint8_t *bytes = bytes_of(&view.text, at, piece->len, &len);
    if (piece->kind != NODY_KIND_OK) {
        for (size_t i = 0; i < len && 2 * i + 3 <= room; i++) snprintf(shown + 2 * i, 3, "%02X", bytes[i]);
        return A_REVERSE | A_BOLD | (attr_t)COLOR_PAIR(INVALID);
    }
    if (piece->scalar == '\t' || piece->scalar == '\n') {
        snprintf(shown, room, "%*s", (int)cells, "");
    } else if (piece->scalar < 0x20 || piece->scalar == 0x7F) {
        snprintf(shown, room, "^%c", (int)(piece->scalar ^ 0x40));
        return (attr_t)COLOR_PAIR(OTHER) | A_DIM;
    } else if (!is_shown(piece->scalar)) {
        snprintf(shown, room, "<U+%04X>", (unsigned)piece->scalar);
        return (attr_t)COLOR_PAIR(OTHER) | A_DIM;
    } else {
        shown[nody_utf8_encode(piece->scalar, (uint8_t *)shown, room)] = 0;
    }
    return A_NORMAL;
}

static void draw_text_row(int y, uint64_t row) {
    uint64_t end = next_row(&view.text, &view.rows, row);
    size_t column = 0;
    for (uint64_t at = row; at < end;) {
        char shown[32] = "";
        nody_piece_t piece = piece_of(&view.text, at);
        size_t cells = cells_of(&piece, column);
        if (piece.len == 0) break;
        attr_t look = shape_piece_in(shown, sizeof shown, at, &piece, cells);
        if (at == view.cursor && piece.kind == NODY_KIND_OK) look |= A_UNDERLINE;
        put_cells(y, column, shown, look);
        column += cells;
        at += piece.len;
    }
}

static void draw_hex_row(int y, uint64_t row) {
    char shown[32];
    size_t per_row = view.rows.per_row, column = 12 + 3 * per_row + 1;
    snprintf(shown, sizeof shown, "%010llx", (unsigned long long)row);
    put_cells(y, 0, shown, A_DIM);
    for (uint64_t at = boundary_of(&view.text, row); at < row + per_row && at < view.text.size;) {
        size_t len;
        nody_piece_t piece = piece_of(&view.text, at);
        if (piece.len == 0) break;
        size_t cells = cells_of(&piece, 0) > 2 || piece.kind != NODY_KIND_OK || piece.scalar < 0x20 || piece.scalar == 0x7F ? 1 : cells_of(&piece, 0);
        attr_t look = shape_piece_in(shown, sizeof shown, at, &piece, 1);
        const char *beside = piece.kind != NODY_KIND_OK || look != A_NORMAL || piece.scalar < 0x20 ? "." : shown;
        if (at >= row) put_cells(y, column, beside, look);
        if (at >= row) column += cells;
        if (at == view.cursor) look |= A_UNDERLINE;
        const uint8_t *bytes = bytes_of(&view.text, at, piece.len, &len);
        for (size_t i = 0; i < len; i++) {
            if (at + i < row || at + i >= row + per_row) continue;
            snprintf(shown, sizeof shown, "%02x", bytes[i]);
            put_cells(y, 12 + 3 * (size_t)(at + i - row), shown, look);
        }
        at += piece.len;
    }
}

static int put_line_of_status(char *status, size_t room) {
    size_t len, used = 0;
    const char *mark = view.is_line_known ? "" : "~";
    nody_piece_t piece = piece_of(&view.text, view.cursor);
    const uint8_t *bytes = bytes_of(&view.text, view.cursor, piece.len, &len);
    used += (size_t)snprintf(status, room, "%llu line %s%llu ", (unsigned long long)view.cursor, mark, (unsigned long long)view.known.line + 1);
    if (piece.kind == NODY_KIND_NONE) return snprintf(status + used, room - used, "the end");
    for (size_t i = 0; i < len; i++) used += (size_t)snprintf(status + used, room - used, "%02X ", bytes[i]);
    if (piece.kind == NODY_KIND_OK) return snprintf(status + used, room - used, "U+%04X", (unsigned)piece.scalar);
    return snprintf(status + used, room - used, "%s: %s", nody_kind_name(piece.kind), nody_kind_sentence(piece.kind));
}

static void draw_status(void) {
    char status[512], whole[640];
    if (view.message[0]) snprintf(whole, sizeof whole, "%s", view.message);
    else if (view.text.error) snprintf(whole, sizeof whole, "cannot read: %s", strerror(view.text.error));
    else {
        const char *failure = view.text.failure ? strerror(view.text.failure) : NULL, *front = failure ? failure : view.is_followed ? "follow" : NULL;
        put_line_of_status(status, sizeof status);
        snprintf(whole, sizeof whole, "%s%.80s%s%s  %s%s", front ? "[" : "", front ? front : "", front ? "] " : "", status, name_of_encoding(view.text.encoding), view.text.input >= 0 ? " .." : "");
    }
    attrset(A_REVERSE);
    mvhline(LINES - 1, 0, ' ', COLS);
    mvaddnstr(LINES - 1, 0, whole, COLS - 1);
    attrset(A_NORMAL);
}

static void draw(void) {
    uint64_t row = view.top;
    view.is_line_known = count_to(&view.text, &view.known, view.cursor, COUNTED_FIRST);
    erase();
    for (size_t y = 0; y < height() && row < view.text.size; y++) {
        if (view.rows.per_row) draw_hex_row((int)y, row);
        else draw_text_row((int)y, row);
        row = next_row(&view.text, &view.rows, row);
    }
    draw_status();
    uint64_t here = row_of(&view.text, &view.rows, view.cursor);
    size_t y = rows_to(view.cursor), x = view.rows.per_row ? 12 + 3 * (size_t)(view.cursor - here) : cell_of(here, view.cursor);
    move((int)(y < height() ? y : height() - 1), (int)(x < (size_t)COLS ? x : (size_t)COLS - 1));
    refresh();
}

/* ---- Asking */

/* Asks for a line in place of the status. Returns false if it was left by Escape. */
static bool ask(const char *what, char *line, size_t room) {
    size_t len = 0;
    line[0] = 0;
    for (;;) {
        char shown[320];
        snprintf(shown, sizeof shown, "%s%s", what, line);
        mvhline(LINES - 1, 0, ' ', COLS);
        mvaddnstr(LINES - 1, 0, shown, COLS - 1);
        refresh();
        int key = next_key(-1);
        if (key == '\n' || key == '\r' || key == KEY_ENTER) return true;
        if (key == ESCAPE || key == CONTROL_C || key == ERR) return false;
        if (key == KEY_RESIZE) settle();
        if ((key == KEY_BACKSPACE || key == 127 || key == 8) && len > 0)
            do len--;
            while (len > 0 && ((unsigned char)line[len] & 0xC0) == 0x80);
        else if (key >= 0x20 && key < 0x100 && len + 1 < room) line[len++] = (char)key;
        line[len] = 0;
    }
}

static void tell_place(int64_t place, const char *missing) {
    if (place >= 0) go_to((uint64_t)place);
    else say(place == STOPPED ? "stopped" : missing);
}

/* The offset after the piece at the cursor. */
static uint64_t after_cursor(void) {
    return view.cursor + piece_of(&view.text, view.cursor).len;
}

static void find_next(void) {
    uint64_t from = after_cursor();
    int64_t place = next_invalid(&view.text, from, is_key_pressed);
    while (place == NOT_FOUND && read_more()) place = next_invalid(&view.text, from, is_key_pressed);
    tell_place(place, "no invalid byte after this");
}

static void find_word_asked(void) {
    char line[200];
    if (!ask("/", line, sizeof line) || (line[0] && !read_word(&view.word, line, view.text.encoding)) || view.word.len == 0) {
        if (line[0]) say("text, or bytes as \\xE2\\x82");
        return;
    }
    uint64_t from = after_cursor();
    int64_t place = next_word(&view.text, &view.word, from, is_key_pressed);
    while (place == NOT_FOUND && read_more()) place = next_word(&view.text, &view.word, from, is_key_pressed);
    tell_place(place, "not found after this");
}

static void go_to_offset(void) {
    char line[40];
    uint64_t offset;
    if (!ask("offset: ", line, sizeof line) || !line[0]) return;
    if (!is_number(line, 0, &offset)) say("an offset is a number, in decimal or as 0x1f");
    else {
        while (offset >= view.text.size && read_more()) continue;
        go_to(offset);
    }
}

static void go_to_line(void) {
    char line[40];
    uint64_t number;
    if (!ask(":", line, sizeof line) || !line[0]) return;
    if (!is_number(line, 1, &number)) {
        say("a line is a number from 1 on");
        return;
    }
    int64_t place = offset_of_line(&view.text, &view.known, number - 1, is_key_pressed);
    while (place == NOT_FOUND && read_more()) place = offset_of_line(&view.text, &view.known, number - 1, is_key_pressed);
    if (place >= 0 && (uint64_t)place >= view.text.size) place = NOT_FOUND;
    tell_place(place, "there are fewer lines");
}

/* ---- Keys */

/* Takes the next encoding: that of the byte order mark first, if there is one. */
static void change_encoding(void) {
    view.text.encoding = (nody_encoding_t)((view.text.encoding + 1) % 3);
    view.known.offset = view.known.line = 0;
    view.rows.count = 0;
    view.cursor = boundary_of(&view.text, view.cursor);
    view.word.len = 0;
    settle();
    say(name_of_encoding(view.text.encoding));
}

static void take_mouse(void) {
    MEVENT event;
    if (getmouse(&event) != OK) return;
    if (event.bstate & BUTTON4_PRESSED) move_rows(-WHEEL);
#ifdef BUTTON5_PRESSED
    else if (event.bstate & BUTTON5_PRESSED) move_rows(WHEEL);
#endif
    else if (event.y >= 0 && (size_t)event.y < height()) {
        uint64_t row = view.top;
        for (int i = 0; i < event.y && row < view.text.size; i++) row = next_row(&view.text, &view.rows, row);
        size_t cell = (size_t)event.x;
        if (view.rows.per_row) cell = cell < 12 ? 0 : (cell - 12) / 3 < view.rows.per_row ? (cell - 12) / 3 : view.rows.per_row - 1;
        if (row < view.text.size) view.cursor = at_cell(row, cell);
    }
}

/* Takes a key that moves. */
static void take_move(int key) {
    switch (key) {
    case KEY_DOWN: case 'j': move_rows(1); break;
    case KEY_UP: case 'k': move_rows(-1); break;
    case KEY_LEFT: case 'h': go_to(before_piece(&view.text, view.cursor)); break;
    case KEY_RIGHT: case 'l': if (after_cursor() < view.text.size) go_to(after_cursor()); break;
    case KEY_NPAGE: case ' ': case 'f': move_pages(1); break;
    case KEY_PPAGE: case 'b': move_pages(-1); break;
    case KEY_HOME: case '<': view.top = view.cursor = 0; break;
    case KEY_END: case '>': case 'G': go_to_end(); break;
    case KEY_MOUSE: take_mouse(); break;
    }
}

/* Takes a key; false if it is the last one. */
static bool take_key(int key) {
    switch (key) {
    case 'q': case CONTROL_C: return false;
    case 'n': find_next(); break;
    case 'N': tell_place(previous_invalid(&view.text, view.cursor, is_key_pressed), "no invalid byte before this"); break;
    case '/': find_word_asked(); break;
    case 'g': go_to_offset(); break;
    case ':': go_to_line(); break;
    case 'e': change_encoding(); break;
    case 'F': view.is_followed = true; go_to_end(); break;
    case 'x':
        view.is_hex = !view.is_hex;
        settle();
        break;
    case KEY_RESIZE: settle(); break;
    case CONTROL_Z: raise(SIGTSTP); break;
    default: take_move(key); break;
    }
    return true;
}

/* How long a key is waited for: not at all while lines are counted, or a pipe is read ahead. */
static int patience(void) {
    bool is_ahead = view.text.size > view.top + AHEAD;
    if (!view.is_line_known) return 0;
    return view.text.input >= 0 && !is_ahead ? SOON / 4 : view.is_followed ? SOON : LATER;
}

/* Looks at the file again, which may have become longer or shorter. */
static bool look_again(void) {
    bool is_far = view.text.input >= 0 && view.text.size > view.top + AHEAD && !view.is_followed;
    if (is_far || !update_text(&view.text)) return false;
    settle();
    if (view.is_followed) go_to_end();
    return true;
}

static void go_on_looking(void) {
    for (bool is_drawn = false;;) {
        if (!is_drawn) draw();
        is_drawn = true;
        int key = next_key(patience());
        if (key == ERR) {
            bool was_known = view.is_line_known;
            view.is_line_known = count_to(&view.text, &view.known, view.cursor, COUNTED_IDLE);
            is_drawn = !look_again() && was_known == view.is_line_known;
            continue;
        }
        is_drawn = false;
        view.message[0] = 0;
        if (key != 'F' && key != KEY_RESIZE) view.is_followed = false;
        if (!take_key(key)) return;
    }
}

/* ---- The terminal */

/* (by raw, Ctrl-C is a key that ends it as q does; by cbreak, curses would end it as one that has failed) */
static void set_screen(bool is_colored) {
    raw();
    noecho();
    nonl();
    keypad(stdscr, TRUE);
    set_escdelay(25);
    mousemask(BUTTON1_PRESSED | BUTTON1_CLICKED | BUTTON4_PRESSED
#ifdef BUTTON5_PRESSED
        | BUTTON5_PRESSED
#endif
        , NULL);
    mouseinterval(0);
    if (!is_colored || !has_colors() || start_color() != OK) return;
    use_default_colors();
    init_pair(INVALID, COLOR_RED, -1);
    init_pair(OTHER, COLOR_CYAN, -1);
}

enum status run_view(struct run *run) {
    const char *name = run->source.name;
    if (!run->out->is_shown) return refuses(name, "view writes to a terminal");
    if (S_ISDIR(run->source.about.st_mode)) return refuses(name, strerror(EISDIR));
    FILE *keys = isatty(STDIN_FILENO) == 1 ? stdin : fopen("/dev/tty", "r");
    if (!keys) return refuses(name, "there is no terminal for the keys");
    view.name = name;
    view.keys = fileno(keys);
    if (!open_text(&view.text, &run->source, run->request)) return refuses(name, strerror(errno));
    SCREEN *screen = newterm(NULL, stdout, keys);
    if (!screen) return refuses(name, "this terminal is not known");
    set_screen(run->request->color == ALWAYS);
    settle();
    view.top = view.cursor = 0;
    go_on_looking();
    endwin();
    delscreen(screen);
    close_text(&view.text);
    if (keys != stdin) fclose(keys);
    return IS_VALID;
}

#endif

/* The arguments of calls, the interpreter's lock, and the bytes that are read: see views.h. */
#include "views.h"

#include <stdlib.h>
#include <string.h>

#define WINDOW (32 * 1024) /* the bytes of one copy */
#define AHEAD 4            /* more bytes that are copied, to see what a fault at the end of a window is */

int take_bytes(PyObject *data, void *into) {
    Py_buffer *view = into;
    if (data == NULL) {
        PyBuffer_Release(view);
        return 1;
    }
    if (!PyObject_CheckBuffer(data)) {
        PyErr_Format(PyExc_TypeError, "a bytes-like object is required, not %R%s", (PyObject *)Py_TYPE(data),
                     PyUnicode_Check(data) ? ": encode the text first" : "");
        return 0;
    }
    return PyObject_GetBuffer(data, view, PyBUF_SIMPLE) ? 0 : Py_CLEANUP_SUPPORTED;
}

int take_encoding(PyObject *number, void *into) {
    long encoding = PyLong_AsLong(number);
    if (encoding == -1 && PyErr_Occurred())
        return 0;
    if (encoding < NODY_UTF8 || encoding > NODY_UTF16BE) {
        PyErr_SetString(PyExc_ValueError, "no encoding has this number");
        return 0;
    }
    *(nody_encoding_t *)into = (nody_encoding_t)encoding;
    return 1;
}

int is_place(Py_ssize_t place, Py_ssize_t len) {
    if (place >= 0 && place <= len)
        return 1;
    PyErr_SetString(PyExc_IndexError, "the offset is outside of the bytes");
    return 0;
}

PyObject *bytes_of(PyObject *data, const Py_buffer *view) {
    return PyBytes_CheckExact(data) ? Py_NewRef(data) : PyBytes_FromStringAndSize(view->buf, view->len);
}

void plain_dealloc(PyObject *self) {
    PyTypeObject *type = Py_TYPE(self);
    freefunc release = (freefunc)PyType_GetSlot(type, Py_tp_free);
    release(self);
    Py_DECREF(type);
}

PyThreadState *let_lock_go(size_t len) {
    return len >= LARGE ? PyEval_SaveThread() : NULL;
}

void take_lock(PyThreadState *thread) {
    if (thread != NULL)
        PyEval_RestoreThread(thread);
}

/* Whether nobody can change the bytes of a view: they are those of a `bytes`, or of a memoryview of one. Returns -1 if an error is
 * set. */
static int is_steady(const Py_buffer *view) {
    PyObject *owner;
    int steady;
    if (view->obj == NULL || !PyMemoryView_Check(view->obj))
        return view->obj != NULL && PyBytes_CheckExact(view->obj);
    owner = PyObject_GetAttrString(view->obj, "obj");
    if (owner == NULL)
        return -1;
    steady = PyBytes_CheckExact(owner);
    Py_DECREF(owner);
    return steady;
}

int open_window(Window *window, const Py_buffer *view) {
    int steady = is_steady(view);
    memset(window, 0, sizeof *window);
    if (steady)
        return steady > 0;
    window->copy = malloc((view->len < WINDOW ? (size_t)view->len : WINDOW) + AHEAD);
    if (window->copy == NULL)
        PyErr_NoMemory();
    return window->copy != NULL;
}

void close_window(Window *window) {
    free(window->copy);
}

void next_window(Window *window, nody_encoding_t encoding, const uint8_t *left, size_t len) {
    window->bytes = left, window->len = window->seen = len;
    if (window->copy == NULL && window->most > 0)
        window->len = nody_boundary_before(encoding, left, len, window->most);
    if (window->copy == NULL)
        return;
    window->seen = len < WINDOW + AHEAD ? len : WINDOW + AHEAD;
    memcpy(window->copy, left, window->seen);
    window->bytes = window->copy;
    window->len = window->seen == len ? len : nody_boundary_before(encoding, window->copy, window->seen, WINDOW);
}

static nody_piece_t in_bytes(nody_piece_t piece) {
    piece.len *= 2;
    return piece;
}

/* Up to two units, from the front of some bytes; returns how many. */
static size_t two_units(nody_encoding_t encoding, const uint8_t *bytes, size_t len, uint16_t *units) {
    size_t count = len / 2 < 2 ? len / 2 : 2;
    for (size_t i = 0; i < count; i++)
        units[i] = unit_at(encoding, bytes + 2 * i);
    return count;
}

static const nody_piece_t half = {1, 0, NODY_KIND_INCOMPLETE}; /* a single byte at the end of UTF-16 */

/* What a piece depends on is copied: the library reads some bytes twice. (So many are one load) */
static void copy_some(uint8_t *copy, const uint8_t *bytes, size_t count) {
    if (count == LONGEST)
        memcpy(copy, bytes, LONGEST);
    else if (count > 0)
        memcpy(copy, bytes, count);
}

nody_piece_t first_piece(nody_encoding_t encoding, const uint8_t *bytes, size_t len) {
    uint16_t units[2] = {0, 0};
    uint8_t front[LONGEST];
    size_t count = len < LONGEST ? len : LONGEST;
    if (encoding != NODY_UTF8)
        return len == 1 ? half : in_bytes(nody_utf16_first(units, two_units(encoding, bytes, len, units)));
    copy_some(front, bytes, count);
    return nody_utf8_first(front, count);
}

nody_piece_t last_piece(nody_encoding_t encoding, const uint8_t *bytes, size_t len) {
    uint16_t units[2] = {0, 0};
    uint8_t tail[LONGEST];
    size_t count = len < LONGEST ? len : LONGEST;
    if (encoding != NODY_UTF8)
        return len % 2 == 1 ? half : in_bytes(nody_utf16_last(units, two_units(encoding, bytes + len - count, count, units)));
    copy_some(tail, bytes + len - count, count);
    return nody_utf8_last(tail, count);
}

size_t valid_up_to(nody_encoding_t encoding, const uint8_t *bytes, size_t len) {
    return nody_utf16_bytes_valid_up_to(encoding, bytes, len); /* (of UTF-8 too) */
}

size_t undecided(nody_encoding_t encoding, const uint8_t *bytes, size_t len) {
    uint8_t tail[TAIL];
    size_t count = len < TAIL ? len : TAIL - len % 2;
    memcpy(tail, bytes + len - count, count);
    return nody_undecided_len(encoding, tail, count);
}

/* The fault at the front of some bytes, as a reader names it. */
static nody_piece_t named(enum Reader reader, nody_encoding_t encoding, const uint8_t *bytes, size_t len) {
    return reader == STREAMED && encoding == NODY_UTF8 ? nody_utf8_streamed_at(bytes, len, 0) : first_piece(encoding, bytes, len);
}

Fault find_fault(Window *window, enum Reader reader, nody_encoding_t encoding, const Py_buffer *view, size_t at) {
    size_t len = (size_t)view->len;
    while (at < len) {
        size_t valid;
        next_window(window, encoding, (const uint8_t *)view->buf + at, len - at);
        valid = valid_up_to(encoding, window->bytes, window->len);
        if (valid < window->len) {
            nody_piece_t piece = named(reader, encoding, window->bytes + valid, window->seen - valid);
            return (Fault){at + valid, piece.len, piece.kind};
        }
        at += window->len;
    }
    return (Fault){len, 0, NODY_KIND_NONE};
}

Fault first_fault(Window *window, enum Reader reader, nody_encoding_t encoding, const Py_buffer *view) {
    PyThreadState *thread = let_lock_go((size_t)view->len);
    Fault fault = find_fault(window, reader, encoding, view, 0);
    take_lock(thread);
    return fault;
}

int open_search(Search *search, enum Reader reader, nody_encoding_t encoding, const Py_buffer *view) {
    memset(search, 0, sizeof *search);
    search->encoding = encoding, search->reader = reader, search->position = nody_position();
    search->bytes = view->buf, search->len = (size_t)view->len;
    if (!open_window(&search->window, view))
        return 0;
    search->window.most = SKIPPED;
    return 1;
}

/* Advances the position, if it is wanted, to a place in the window. */
static void pass(Search *search, size_t at) {
    if (search->has_position && search->passed < at)
        nody_position_advance(&search->position, search->encoding, search->window.bytes + search->passed, at - search->passed);
    search->passed = at;
}

nody_piece_t next_in_window(Search *search, size_t *offset) {
    nody_piece_t piece = {0, 0, NODY_KIND_NONE};
    const Window *window = &search->window;
    if (search->at < window->len)
        search->at += valid_up_to(search->encoding, window->bytes + search->at, window->len - search->at);
    if (search->at == window->len)
        return piece;
    piece = named(search->reader, search->encoding, window->bytes + search->at, window->seen - search->at);
    *offset = search->begin + search->at;
    pass(search, search->at);
    search->at += piece.len;
    return piece;
}

nody_piece_t next_found(Search *search, size_t *offset) {
    nody_piece_t piece = next_in_window(search, offset);
    while (piece.kind == NODY_KIND_NONE && search->begin + search->window.len < search->len) {
        pass(search, search->window.len);
        search->begin += search->window.len, search->at = search->passed = 0;
        next_window(&search->window, search->encoding, search->bytes + search->begin, search->len - search->begin);
        piece = next_in_window(search, offset);
    }
    return piece;
}

nody_piece_t next_fault(Search *search, size_t *offset) {
    nody_piece_t piece = next_in_window(search, offset);
    PyThreadState *thread;
    if (piece.kind != NODY_KIND_NONE)
        return piece;
    thread = let_lock_go(search->len - search->begin - search->window.len);
    piece = next_found(search, offset);
    take_lock(thread);
    return piece;
}

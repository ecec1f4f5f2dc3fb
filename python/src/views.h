/* What all of the module shares: the arguments of calls, the interpreter's lock, and the bytes that are read. */
#ifndef VIEWS_H
#define VIEWS_H

#define PY_SSIZE_T_CLEAN
#include <Python.h>

#include "noddychest.h"

#if PY_VERSION_HEX < 0x030A0000
static inline PyObject *Py_NewRef(PyObject *object) {
    Py_INCREF(object);
    return object;
}
#endif

/* ---- arguments ---- */

/* For "O&". take_bytes takes any bytes-like object, at its size in bytes, without copying. One whose bytes do not lie one after
 * another is rejected anyway. */
int take_bytes(PyObject *data, void *view);
int take_encoding(PyObject *number, void *encoding);

/* Whether a place is from 0 up to `len`; otherwise an IndexError is set. Places are given by the package, or by error handlers, and
 * are never trusted. */
int is_place(Py_ssize_t place, Py_ssize_t len);

/* The bytes of an argument as `bytes`: itself, or a copy. */
PyObject *bytes_of(PyObject *data, const Py_buffer *view);

/* Frees an object that has nothing but itself to free. */
void plain_dealloc(PyObject *self);

/* ---- the interpreter's lock ---- */

/* Lets other threads run, if a call over `len` bytes takes long enough. Pass the result to take_lock. */
#define LARGE (64 * 1024) /* from here on other threads run */
PyThreadState *let_lock_go(size_t len);
void take_lock(PyThreadState *thread);

/* ---- bytes that are read ---- */

/* Bytes are read in windows. Those of a `bytes` object cannot change, so one window has them all. All others may be changed by
 * another thread or process at any time, and the library counts on bytes that stay as they are: their windows are copies. */
typedef struct {
    uint8_t *copy;        /* memory for a copy; NULL if none is needed */
    const uint8_t *bytes; /* the window */
    size_t len;
    size_t seen; /* its length together with the bytes after it that are there too: 4 or more, or all that are left */
    size_t most; /* how long the next one may be; 0 for any length */
} Window;

/* Returns 0 with a MemoryError if there is no memory for the copies. */
int open_window(Window *window, const Py_buffer *view);
void close_window(Window *window);

/* The next window of the bytes that are left. It ends at a boundary, so the pieces of all windows are those of the whole. */
void next_window(Window *window, nody_encoding_t encoding, const uint8_t *left, size_t len);

/* ---- pieces and faults ---- */

#define LONGEST 4 /* the bytes of the longest piece; what a piece is depends on no more, from its first on or up to its last */

/* The first and the last piece of some bytes, with its length in bytes; NODY_KIND_NONE if there are none. */
nody_piece_t first_piece(nody_encoding_t encoding, const uint8_t *bytes, size_t len);
nody_piece_t last_piece(nody_encoding_t encoding, const uint8_t *bytes, size_t len);

/* How far some bytes are valid. */
size_t valid_up_to(nody_encoding_t encoding, const uint8_t *bytes, size_t len);

/* How many bytes at the end depend on what follows. They are read from a copy of the last TAIL, or one less: three are enough, and in
 * UTF-16 whole units. */
#define TAIL 4
size_t undecided(nody_encoding_t encoding, const uint8_t *bytes, size_t len);

/* The length of a fault at the front of `len` bytes. */
static inline size_t fault_len(nody_encoding_t encoding, size_t len) {
    return encoding == NODY_UTF8 || len < 2 ? 1 : 2;
}

/* A fault: its offset, its length, and its kind; NODY_KIND_NONE if there is none. */
typedef struct {
    size_t at, len;
    nody_kind_t kind;
} Fault;

/* How faults are named: as by a reader that has all bytes, or one that gets them one at a time. */
enum Reader { WHOLE, STREAMED };

/* The first fault from an offset on, or none at the end. first_fault lets the lock go; find_fault needs none. */
Fault first_fault(Window *window, enum Reader reader, nody_encoding_t encoding, const Py_buffer *view);
Fault find_fault(Window *window, enum Reader reader, nody_encoding_t encoding, const Py_buffer *view, size_t at);

/* How many bytes one search for faults scans. */
#define SKIPPED (1 << 20)

/* A search for faults, one after another, window by window. */
typedef struct {
    nody_encoding_t encoding;
    enum Reader reader;
    const uint8_t *bytes;
    size_t len;
    Window window;
    size_t begin; /* where the window begins */
    size_t at;    /* how far it was read */
    char has_position;        /* 1 if the position of each fault is wanted */
    size_t passed;            /* how many bytes of the window the position has passed */
    nody_position_t position; /* of the fault that was found last */
} Search;

/* Returns 0 with a MemoryError if there is no memory for the copies. The window is closed by the caller. */
int open_search(Search *search, enum Reader reader, nody_encoding_t encoding, const Py_buffer *view);

/* The next fault and its offset, or NODY_KIND_NONE: in this window, or in all bytes. No lock is let go. */
nody_piece_t next_in_window(Search *search, size_t *offset);
nody_piece_t next_found(Search *search, size_t *offset);

/* The next one in all bytes; from the second window on the lock is let go. */
nody_piece_t next_fault(Search *search, size_t *offset);

/* The unit at the first two of some bytes. */
static inline uint16_t unit_at(nody_encoding_t encoding, const uint8_t *bytes) {
    int low = encoding == NODY_UTF16LE ? 0 : 1;
    return (uint16_t)(bytes[low] | bytes[!low] << 8);
}

/* ---- what decoding.c has ---- */

/* What the module keeps for the codecs: see use_codecs. */
typedef struct {
    PyObject *decoders, *handlers;
} Codecs;

void clear_codecs(Codecs *codecs);
PyObject *use_codecs(PyObject *module, PyObject *args);
PyObject *decode_utf8(PyObject *module, PyObject *const *args, Py_ssize_t count, PyObject *names);
PyObject *decode_utf16le(PyObject *module, PyObject *const *args, Py_ssize_t count, PyObject *names);
PyObject *decode_utf16be(PyObject *module, PyObject *const *args, Py_ssize_t count, PyObject *names);
PyObject *decode(PyObject *module, PyObject *args);
PyObject *quick_decode(PyObject *module, PyObject *const *args, Py_ssize_t count);
PyObject *replaced(PyObject *module, PyObject *args);
PyObject *handled(PyObject *module, PyObject *args);

/* ---- what parts.c has ---- */

extern PyType_Spec part_spec, stream_spec, turn_spec;

#endif

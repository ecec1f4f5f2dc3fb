/* Decoding for the codecs: text without faults, and faults put through an error handler, or through what the interpreter's own
 * handlers do, without asking them one by one. */
#include "views.h"

#include "lengths.h"

#include <stdlib.h>
#include <string.h>

#define ROOM 4096 /* characters that wait to become a string */
#define SHORT 64  /* strings up to this length wait one by one */
#define CLOSE 4   /* after this many faults with fewer bytes between them a chunk is converted as a whole */
#define CHUNK 512 /* about how many bytes this has */
#define STRETCH (16 * 1024) /* about how many bytes are converted in one call if each fault becomes U+FFFD */
#define WIDEST 16 /* the longest replacement of a fault: \xd8\x00 in UTF-16 */
#define PAIRS 4096 /* how many bytes are looked at, before it is tested whether a pair was found */
#define COPIED 1024 /* up to this length bytes are copied before they are decoded */

#if !defined(_WIN32)
/* wchar_t has to hold any character, and then a string may have lone surrogates too. */
typedef char wide_enough[sizeof(wchar_t) == 4 ? 1 : -1];
#endif

/* ---- text that is made ---- */

/* Strings, and characters after them that are not in a string yet. */
typedef struct {
    PyObject *strings;
    size_t count;
    Py_UCS4 room[ROOM];
} Text;

/* These characters as a string, lone surrogates too. (On Windows a wchar_t is too small for some of them) */
static PyObject *string_of(const Py_UCS4 *characters, size_t count) {
#if defined(_WIN32)
    int order = -1;
    return PyUnicode_DecodeUTF32((const char *)characters, (Py_ssize_t)(4 * count), "surrogatepass", &order);
#else
    return PyUnicode_FromWideChar((const wchar_t *)characters, (Py_ssize_t)count);
#endif
}

static int begin_text(Text *text) {
    text->count = 0;
    text->strings = PyList_New(0);
    return text->strings != NULL;
}

/* (as put, without a look at its length) */
static int put_whole(Text *text, PyObject *string) {
    int failed = string == NULL || PyList_Append(text->strings, string) < 0;
    Py_XDECREF(string);
    return !failed;
}

static int flush(Text *text) {
    size_t count = text->count;
    text->count = 0;
    return count == 0 || put_whole(text, string_of(text->room, count));
}

/* Puts a string at the end, and drops it; NULL is an error that is set already. */
static int put(Text *text, PyObject *string) {
    Py_ssize_t len = string == NULL ? 0 : PyUnicode_GetLength(string);
    int is_short = len <= SHORT, is_put;
    if (string == NULL)
        return 0;
    if ((!is_short || text->count + (size_t)len > ROOM) && !flush(text)) {
        Py_DECREF(string);
        return 0;
    }
    if (!is_short)
        return put_whole(text, string);
    is_put = PyUnicode_AsUCS4(string, text->room + text->count, len, 0) != NULL;
    Py_DECREF(string);
    text->count += is_put ? (size_t)len : 0;
    return is_put;
}

/* All of it as one string; NULL where something failed before. */
static PyObject *end_text(Text *text, int is_made) {
    PyObject *all = NULL;
    if (is_made && flush(text)) {
        PyObject *nothing = PyUnicode_FromStringAndSize(NULL, 0);
        if (nothing != NULL)
            all = PyUnicode_Join(nothing, text->strings);
        Py_XDECREF(nothing);
    }
    Py_DECREF(text->strings);
    return all;
}

/* The text of bytes without faults. */
static PyObject *text_of(nody_encoding_t encoding, const uint8_t *bytes, size_t len) {
    int order = encoding == NODY_UTF16LE ? -1 : 1;
    return encoding == NODY_UTF8 ? PyUnicode_DecodeUTF8((const char *)bytes, (Py_ssize_t)len, "strict")
                                  : PyUnicode_DecodeUTF16((const char *)bytes, (Py_ssize_t)len, "strict", &order);
}

/* ---- decode ---- */

/* How many bytes at the end, fewer than a code has, begin one. A surrogate in three bytes counts as a code: the error handler
 * `surrogatepass` has to see all of it. */
static size_t held_utf8(const uint8_t *bytes, size_t len) {
    for (size_t count = 1; count <= 3 && count <= len; count++) {
        const uint8_t *tail = bytes + len - count;
        if ((tail[0] & 0xC0) == 0x80)
            continue;
        for (int last = 0x80; last <= 0xBF; last += 0x3F) {
            uint8_t code[4];
            nody_piece_t piece;
            memset(code, last, sizeof code);
            memcpy(code, tail, count);
            piece = nody_utf8_first(code, sizeof code);
            if (count < (piece.kind == NODY_KIND_UTF16_RESERVED_CODEPOINT ? 3 : piece.len))
                return count;
        }
        return 0;
    }
    return 0;
}

/* How many bytes at the end are held: what may yet become a character and, unless faults are wanted at once, faults whose kind the next
 * bytes decide. */
static size_t held(nody_encoding_t encoding, const uint8_t *bytes, size_t len, int at_once) {
    return at_once && encoding == NODY_UTF8 ? held_utf8(bytes, len) : undecided(encoding, bytes, len);
}

/* decode(encoding, data, final, at_once): the text, and the bytes that are held, unless no more follows. If there is a fault before
 * these: its offset, length and kind, all bytes, and where those that are held begin. */
PyObject *decode(PyObject *module, PyObject *args) {
    PyObject *encoding_number, *data, *text, *source, *made = NULL;
    Py_buffer view;
    Window window;
    nody_encoding_t encoding;
    int final, at_once;
    (void)module;
    if (!PyArg_ParseTuple(args, "OOpp:decode", &encoding_number, &data, &final, &at_once) || !take_encoding(encoding_number, &encoding) || !take_bytes(data, &view))
        return NULL;
    if (open_window(&window, &view)) {
        size_t end = (size_t)view.len - (final ? 0 : held(encoding, view.buf, (size_t)view.len, at_once));
        Fault fault = first_fault(&window, STREAMED, encoding, &view);
        size_t stop = fault.at < end ? fault.at : end;
        if (stop == end && (text = text_of(encoding, view.buf, end)) != NULL)
            made = Py_BuildValue("Ny#", text, (const char *)view.buf + end, view.len - (Py_ssize_t)end);
        else if (stop < end && (source = bytes_of(data, &view)) != NULL)
            made = Py_BuildValue("nnINn", (Py_ssize_t)stop, (Py_ssize_t)fault.len, (unsigned)fault.kind, source, (Py_ssize_t)end);
        close_window(&window);
    }
    PyBuffer_Release(&view);
    return made;
}

/* ---- as the interpreter's own handlers ---- */

/* What is put in place of a fault: nothing, U+FFFD, its bytes as \xff, or a lone surrogate for each byte, of UTF-8 only. */
enum Way { IGNORE, REPLACE, BACKSLASH, ESCAPE };

/* Bytes that grow. Their memory comes from malloc, which needs no lock. */
typedef struct {
    uint8_t *bytes;
    size_t len, room;
} Made;

static int has_room(Made *made, size_t more) {
    size_t room = made->len + more + made->room / 2;
    uint8_t *bytes;
    if (more <= made->room - made->len)
        return 1;
    bytes = realloc(made->bytes, room);
    if (bytes != NULL)
        made->bytes = bytes, made->room = room;
    return bytes != NULL;
}

static void put_bytes(Made *made, const void *bytes, size_t len) {
    memcpy(made->bytes + made->len, bytes, len);
    made->len += len;
}

/* Bytes with faults, and the valid bytes that are made of them. */
typedef struct {
    nody_encoding_t encoding;
    enum Way way;
    const uint8_t *bytes;
    size_t len;
    Made made;
} Mending;

static int put_valid(Mending *it, const uint8_t *bytes, size_t len) {
    if (!has_room(&it->made, len + WIDEST))
        return 0;
    put_bytes(&it->made, bytes, len);
    return 1;
}

/* Puts a character of 7 bits. */
static void put_ascii(Mending *it, char character) {
    uint8_t unit[2] = {0, 0};
    unit[it->encoding == NODY_UTF16BE] = (uint8_t)character;
    put_bytes(&it->made, unit, it->encoding == NODY_UTF8 ? 1 : 2);
}

/* Puts a fault as \xff, or nothing: put_valid reserved its memory. */
static void put_fault(Mending *it, const uint8_t *fault, size_t len) {
    for (size_t i = 0; i < len && it->way == BACKSLASH; i++) {
        put_ascii(it, '\\');
        put_ascii(it, 'x');
        put_ascii(it, "0123456789abcdef"[fault[i] >> 4]);
        put_ascii(it, "0123456789abcdef"[fault[i] & 15]);
    }
}

/* Whether UTF-8 begins with U+FFFD. */
static int is_fffd(const uint8_t *bytes, size_t len) {
    return len > 2 && memcmp(bytes, "\xEF\xBF\xBD", 3) == 0;
}

/* How many bytes of UTF-8 are the same as in its text with a U+FFFD for each fault: up to the first fault, or all. */
static size_t same_bytes(const uint8_t *bytes, size_t len, const uint8_t *text, size_t size) {
    for (size_t at = 0; at < size; at++) {
        const uint8_t *next = text[at] == 0xEF ? text + at : memchr(text + at, 0xEF, size - at);
        if (next == NULL)
            return size;
        at = (size_t)(next - text);
        if (is_fffd(next, size - at) && !is_fffd(bytes + at, len - at))
            return at;
    }
    return size;
}

/* Puts bytes with U+FFFD for each fault, as the library converts an encoding to itself. Returns 0 without memory. */
static int put_replaced(Mending *it, const uint8_t *bytes, size_t len) {
    for (size_t part, written; len > 0; bytes += part, len -= part) {
        part = nody_boundary_before(it->encoding, bytes, len, STRETCH);
        if (!has_room(&it->made, nody_recoded_len_max(it->encoding, it->encoding, part)))
            return 0;
        nody_recode(it->encoding, it->encoding, bytes, part, it->made.bytes + it->made.len, it->made.room - it->made.len, &written);
        it->made.len += written;
    }
    return 1;
}

/* Puts a chunk of UTF-8; `end` gets its end. */
static int put_chunk(Mending *it, size_t begin, size_t *end) {
    const uint8_t *bytes = it->bytes + begin;
    uint8_t text[3 * CHUNK];
    size_t len = nody_boundary_before(it->encoding, bytes, it->len - begin, CHUNK), size, at = 0;
    nody_recode(it->encoding, it->encoding, bytes, len, text, sizeof text, &size);
    *end = begin + len;
    for (size_t i = 0; i < size; at += 1, i += 3) {
        size_t same = same_bytes(bytes + at, len - at, text + i, size - i);
        if (!put_valid(it, text + i, same))
            return 0;
        at += same, i += same;
        if (i < size)
            put_fault(it, bytes + at, 1);
    }
    return 1;
}

/* Puts all bytes, of which the first are known to be valid. Returns 0 without memory. */
static int mend(Mending *it, size_t valid) {
    size_t at = 0, close = 0, fault;
    if (it->way == REPLACE)
        return put_valid(it, it->bytes, valid) && put_replaced(it, it->bytes + valid, it->len - valid);
    while (put_valid(it, it->bytes + at, valid)) {
        at += valid;
        if (at == it->len)
            return 1;
        fault = fault_len(it->encoding, it->len - at);
        put_fault(it, it->bytes + at, fault);
        at += fault;
        close = valid < CLOSE ? close + 1 : 0;
        if (close >= CLOSE && it->encoding == NODY_UTF8 && !put_chunk(it, at, &at))
            return 0;
        valid = valid_up_to(it->encoding, it->bytes + at, it->len - at);
    }
    return 0;
}

static PyObject *mended(Mending *it, size_t valid) {
    PyThreadState *thread = let_lock_go(it->len);
    size_t more = it->way == REPLACE ? nody_recoded_len_max(it->encoding, it->encoding, it->len < STRETCH ? it->len : STRETCH) : WIDEST;
    int is_made = has_room(&it->made, it->len + it->len / 16 + more) && mend(it, valid);
    PyObject *text;
    take_lock(thread);
    text = is_made ? text_of(it->encoding, it->made.bytes, it->made.len) : PyErr_NoMemory();
    free(it->made.bytes);
    return text;
}

/* Whether a first byte of a character of UTF-8 is followed by a continuation byte. If none is, all faults have one byte in every decoder. */
static int has_pair(const uint8_t *bytes, size_t len) {
    uint8_t found = 0;
    for (size_t at = 0; at + 1 < len && !found; at += PAIRS) {
        size_t count = len - at - 1 < PAIRS ? len - at - 1 : PAIRS;
        for (size_t i = 0; i < count; i++) /* (without a test of `found`, so it is done in vectors) */
            found |= (uint8_t)((bytes[at + i] >= 0xC2) & ((bytes[at + i + 1] & 0xC0) == 0x80));
    }
    return found;
}

/* Whether the interpreter's own codec makes the same text: that takes less time. It drops the same bytes, however it divides them into
 * faults. */
static int is_own(const Mending *it, size_t valid) {
    if (it->encoding != NODY_UTF8 || it->way == BACKSLASH)
        return 0;
    return it->way != REPLACE || !has_pair(it->bytes + valid, it->len - valid);
}

static PyObject *own_text(const Mending *it) {
    static const char *const names[] = {"ignore", "replace", "backslashreplace", "surrogateescape"};
    return PyUnicode_DecodeUTF8((const char *)it->bytes, (Py_ssize_t)it->len, names[it->way]);
}

/* replaced(encoding, source, valid, end, way): the text of source[:end] with each fault put in a way; its first bytes are known to be valid. */
PyObject *replaced(PyObject *module, PyObject *args) {
    PyObject *source;
    Mending it;
    Py_ssize_t valid, end;
    int way;
    (void)module;
    memset(&it, 0, sizeof it);
    if (!PyArg_ParseTuple(args, "O&Snni:replaced", take_encoding, &it.encoding, &source, &valid, &end, &way))
        return NULL;
    if (!is_place(end, PyBytes_Size(source)) || !is_place(valid, end))
        return NULL;
    it.way = (enum Way)way;
    it.bytes = (const uint8_t *)PyBytes_AsString(source), it.len = (size_t)end;
    return is_own(&it, (size_t)valid) ? own_text(&it) : mended(&it, (size_t)valid);
}

/* ---- the decoders of the codecs: few calls for short text, and else those of _codecs.py ---- */

/* The way of an error handler; -1 of one that has to be asked, or if it is not there. */
static int way_of(const Codecs *codecs, PyObject *errors) {
    const char *name = errors != NULL && PyUnicode_Check(errors) ? PyUnicode_AsUTF8AndSize(errors, NULL) : NULL;
    PyObject *handler = name == NULL || codecs->handlers == NULL ? NULL : PyCodec_LookupError(name);
    int way = -1;
    for (int i = IGNORE; i <= ESCAPE && handler != NULL; i++)
        if (handler != Py_None && PyTuple_GetItem(codecs->handlers, i) == handler)
            way = i;
    Py_XDECREF(handler);
    PyErr_Clear();
    return way;
}

/* The text of bytes whose first ones are valid, unless a handler has to be asked about the others: then NULL without an error. */
static PyObject *text_unasked(const Codecs *codecs, Mending *it, size_t valid, PyObject *errors) {
    int way = valid == it->len ? -1 : way_of(codecs, errors);
    if (valid == it->len)
        return text_of(it->encoding, it->bytes, it->len);
    it->way = (enum Way)way;
    if (way < 0 || (way == ESCAPE && it->encoding != NODY_UTF8))
        return NULL;
    return is_own(it, valid) ? own_text(it) : it->len <= COPIED ? mended(it, valid) : NULL;
}

/* The text of a view. Short bytes are copied first, as somebody may change them meanwhile; of long ones only what is validated. */
static PyObject *quick_text(const Codecs *codecs, nody_encoding_t encoding, const Py_buffer *view, PyObject *errors) {
    uint8_t copy[COPIED];
    size_t len = (size_t)view->len;
    Mending it = {encoding, IGNORE, view->buf, len, {NULL, 0, 0}};
    Window window;
    Fault fault;
    if (len <= COPIED) {
        if (len > 0)
            memcpy(copy, view->buf, len);
        it.bytes = copy;
        return text_unasked(codecs, &it, valid_up_to(encoding, copy, len), errors);
    }
    if (!open_window(&window, view))
        return NULL;
    fault = first_fault(&window, STREAMED, encoding, view);
    close_window(&window);
    return text_unasked(codecs, &it, fault.at, errors);
}

static PyObject *text_and_length(PyObject *text, Py_ssize_t len) {
    PyObject *made = PyTuple_New(2), *length = made == NULL ? NULL : PyLong_FromSsize_t(len);
    if (length == NULL) {
        Py_XDECREF(made);
        Py_DECREF(text);
        return NULL;
    }
    PyTuple_SetItem(made, 0, text);
    PyTuple_SetItem(made, 1, length);
    return made;
}

/* The decoder of _codecs.py, with the arguments of a call; with `source` in place of its data, if that is given. */
static PyObject *slow(const Codecs *codecs, nody_encoding_t encoding, PyObject *source, PyObject *const *args, Py_ssize_t count, PyObject *names) {
    Py_ssize_t named = names == NULL ? 0 : PyTuple_Size(names);
    PyObject *all = PyTuple_New(count), *others = PyDict_New(), *made = NULL;
    int is_filled = all != NULL && others != NULL;
    for (Py_ssize_t i = 0; i < count && is_filled; i++)
        is_filled = PyTuple_SetItem(all, i, Py_NewRef(i == 0 && source != NULL ? source : args[i])) == 0;
    for (Py_ssize_t i = 0; i < named && is_filled; i++)
        is_filled = PyDict_SetItem(others, PyTuple_GetItem(names, i), args[count + i]) == 0;
    if (is_filled)
        made = PyObject_Call(PyTuple_GetItem(codecs->decoders, encoding), all, others);
    Py_XDECREF(all);
    Py_XDECREF(others);
    return made;
}

static PyObject *decode_whole(PyObject *module, nody_encoding_t encoding, PyObject *const *args, Py_ssize_t count, PyObject *names) {
    const Codecs *codecs = PyModule_GetState(module);
    PyObject *errors = count == 2 ? args[1] : NULL, *text = NULL, *source = NULL, *made = NULL;
    Py_buffer view;
    Py_ssize_t len = 0;
    int is_plain = names == NULL && (count == 1 || (count == 2 && PyUnicode_Check(errors))) && PyObject_CheckBuffer(args[0]);
    if (is_plain && PyObject_GetBuffer(args[0], &view, PyBUF_SIMPLE) == 0) {
        len = view.len;
        text = quick_text(codecs, encoding, &view, errors);
        if (text == NULL && !PyErr_Occurred())
            source = bytes_of(args[0], &view); /* (another view of the object may have other bytes) */
        PyBuffer_Release(&view);
    }
    if (text != NULL)
        return text_and_length(text, len);
    if (codecs->decoders == NULL && !PyErr_Occurred())
        PyErr_SetString(PyExc_RuntimeError, "noddychest._codecs is not imported");
    if (!PyErr_Occurred())
        made = slow(codecs, encoding, source, args, count, names);
    Py_XDECREF(source);
    return made;
}

PyObject *decode_utf8(PyObject *module, PyObject *const *args, Py_ssize_t count, PyObject *names) {
    return decode_whole(module, NODY_UTF8, args, count, names);
}

PyObject *decode_utf16le(PyObject *module, PyObject *const *args, Py_ssize_t count, PyObject *names) {
    return decode_whole(module, NODY_UTF16LE, args, count, names);
}

PyObject *decode_utf16be(PyObject *module, PyObject *const *args, Py_ssize_t count, PyObject *names) {
    return decode_whole(module, NODY_UTF16BE, args, count, names);
}

/* use_codecs(decoders, handlers): the decoders of _codecs.py, by encoding, and the interpreter's own error handlers, by their way, None of
 * one that is not there. */
PyObject *use_codecs(PyObject *module, PyObject *args) {
    Codecs *codecs = PyModule_GetState(module);
    PyObject *decoders, *handlers;
    if (!PyArg_ParseTuple(args, "O!O!:use_codecs", &PyTuple_Type, &decoders, &PyTuple_Type, &handlers))
        return NULL;
    if (PyTuple_Size(decoders) != NODY_UTF16BE + 1 || PyTuple_Size(handlers) != ESCAPE + 1) {
        PyErr_SetString(PyExc_ValueError, "there are three decoders and four handlers");
        return NULL;
    }
    clear_codecs(codecs);
    codecs->decoders = Py_NewRef(decoders), codecs->handlers = Py_NewRef(handlers);
    return Py_NewRef(Py_None);
}

void clear_codecs(Codecs *codecs) {
    PyObject *decoders = codecs->decoders, *handlers = codecs->handlers;
    codecs->decoders = codecs->handlers = NULL;
    Py_XDECREF(decoders);
    Py_XDECREF(handlers);
}

/* ---- decode() of the package ---- */

/* Which of some words a string is; their number if it is none. */
static int word_of(PyObject *string, const char *const *words, int count) {
    int found = 0;
    while (found < count && !(PyUnicode_Check(string) && PyUnicode_CompareWithASCIIString(string, words[found]) == 0)) found++;
    return found;
}

/* The text of bytes of UTF-8 that are valid, or whose invalid bytes go away or become U+FFFD; of others None. */
static PyObject *text_at_once(const uint8_t *bytes, size_t len, int way) {
    Mending it = {NODY_UTF8, (enum Way)way, bytes, len, {NULL, 0, 0}};
    size_t valid = valid_up_to(NODY_UTF8, bytes, len);
    if (valid == len) return text_of(NODY_UTF8, bytes, len);
    if (way > REPLACE) return Py_NewRef(Py_None);
    return is_own(&it, valid) ? own_text(&it) : mended(&it, valid);
}

/* quick_decode(data, encoding, errors): the text of short UTF-8 by one call, with the names that are most used; None if recode() has to be
 * asked. The bytes are copied first, as somebody may change them meanwhile. */
PyObject *quick_decode(PyObject *module, PyObject *const *args, Py_ssize_t count) {
    /* (the first two ways are in the order of enum Way; with the others only valid text is decoded here) */
    static const char *const names[] = {"utf8", "utf-8"}, *const ways[] = {"ignore", "replace", "strict", "lossy"};
    uint8_t copy[COPIED];
    Py_buffer view;
    size_t len;
    int way = count == 3 && word_of(args[1], names, 2) < 2 ? word_of(args[2], ways, 4) : 4;
    (void)module;
    if (way == 4 || !PyObject_CheckBuffer(args[0])) return Py_NewRef(Py_None);
    if (PyObject_GetBuffer(args[0], &view, PyBUF_SIMPLE) < 0) {
        PyErr_Clear();
        return Py_NewRef(Py_None);
    }
    len = (size_t)view.len;
    if (len > 0 && len <= COPIED) memcpy(copy, view.buf, len);
    PyBuffer_Release(&view);
    return len <= COPIED ? text_at_once(copy, len, way) : Py_NewRef(Py_None);
}

/* ---- handlers that are asked ---- */

/* What the loop over faults has. `source` changes when a handler puts other bytes into the error. */
typedef struct {
    nody_encoding_t encoding;
    int final;   /* whether no more follows */
    int at_once; /* whether a fault is reported before its kind is sure */
    PyObject *source, *error, *handler, *kinds, *reasons;
    Py_ssize_t at, before;
    PyObject *names[3]; /* of the attributes: offset, error, reason */
} Asking;

/* The bytes that are left. */
static const uint8_t *left_bytes(const Asking *asking) {
    return (const uint8_t *)PyBytes_AsString(asking->source) + asking->at;
}

static size_t left_len(const Asking *asking) {
    return (size_t)(PyBytes_Size(asking->source) - asking->at);
}

/* How many of the bytes that are left can be decoded now. Units are counted from where decoding went on: a handler may have gone on
 * inside of one. */
static size_t decided(const Asking *asking) {
    size_t len = left_len(asking);
    return asking->final ? len : len - held(asking->encoding, left_bytes(asking), len, asking->at_once);
}

/* Puts the text up to the next fault, if that is within `left` bytes, and returns that fault. */
static int put_text(Text *text, Asking *asking, size_t left, Fault *fault) {
    const uint8_t *bytes = left_bytes(asking);
    Py_buffer view = {.buf = (void *)bytes, .len = (Py_ssize_t)left_len(asking)};
    Window all = {NULL, NULL, 0, 0, 0};
    *fault = find_fault(&all, STREAMED, asking->encoding, &view, 0);
    if (fault->at >= left)
        *fault = (Fault){left, 0, NODY_KIND_NONE};
    asking->at += (Py_ssize_t)fault->at;
    return fault->at == 0 || put(text, text_of(asking->encoding, bytes, fault->at));
}

static int set_error(const Asking *asking, Fault fault) {
    PyObject *values[3] = {PyLong_FromSsize_t(asking->before + asking->at), PyTuple_GetItem(asking->kinds, fault.kind),
                           PyTuple_GetItem(asking->reasons, fault.kind)};
    int failed = PyUnicodeDecodeError_SetStart(asking->error, asking->at) < 0 ||
                 PyUnicodeDecodeError_SetEnd(asking->error, asking->at + (Py_ssize_t)fault.len) < 0;
    for (int i = 0; i < 3 && !failed; i++)
        failed = values[i] == NULL || PyObject_SetAttr(asking->error, asking->names[i], values[i]) < 0;
    Py_XDECREF(values[0]);
    return !failed;
}

/* Sets where decoding continues, by the position that an error handler returned. */
static int go_on(Asking *asking, PyObject *number) {
    Py_ssize_t len = PyBytes_Size(asking->source), at = PyLong_AsSsize_t(number);
    if (at == -1 && PyErr_Occurred()) {
        if (!PyErr_ExceptionMatches(PyExc_OverflowError))
            return 0;
        PyErr_Clear();
        at = PY_SSIZE_T_MAX;
    }
    at += at < 0 ? len : 0;
    if (at < 0 || at > len) {
        PyErr_Format(PyExc_IndexError, "position %S from error handler out of bounds", number);
        return 0;
    }
    asking->at = at;
    return 1;
}

/* Takes the bytes that the error has, which a handler may have changed. */
static int take_source(Asking *asking) {
    PyObject *source = PyUnicodeDecodeError_GetObject(asking->error), *old = asking->source;
    if (source == NULL)
        return 0;
    asking->source = source;
    Py_DECREF(old);
    return 1;
}

static int put_answer(Text *text, Asking *asking) {
    PyObject *answer = PyObject_CallFunctionObjArgs(asking->handler, asking->error, NULL), *string;
    int is_put = 0;
    if (answer == NULL)
        return 0;
    if (!PyTuple_Check(answer) || PyTuple_Size(answer) != 2 || !PyUnicode_Check(PyTuple_GetItem(answer, 0)) ||
        !PyLong_Check(PyTuple_GetItem(answer, 1))) {
        PyErr_SetString(PyExc_TypeError, "decoding error handler must return (str, int) tuple");
    } else if (take_source(asking) && go_on(asking, PyTuple_GetItem(answer, 1))) {
        string = PyTuple_GetItem(answer, 0);
        is_put = put(text, Py_NewRef(string));
    }
    Py_DECREF(answer);
    return is_put;
}

static int put_handled(Text *text, Asking *asking) {
    Fault fault;
    size_t left;
    while ((left = decided(asking)) > 0) {
        if (!put_text(text, asking, left, &fault))
            return 0;
        if (fault.kind != NODY_KIND_NONE && !(set_error(asking, fault) && put_answer(text, asking)))
            return 0;
    }
    return 1;
}

/* handled(encoding, source, valid, final, at_once, before, error, handler, kinds, reasons): the text of the source with each fault put through a
 * handler, and the bytes that are held, as decode() has it; the first bytes are known to be valid. The error gets the place and the kind
 * of each fault; its offset counts `before` too. */
PyObject *handled(PyObject *module, PyObject *args) {
    static const char *const names[3] = {"offset", "error", "reason"};
    PyObject *made = NULL;
    Asking asking;
    Text text;
    int is_made = 1;
    (void)module;
    memset(&asking, 0, sizeof asking);
    if (!PyArg_ParseTuple(args, "O&SnppnO!OO!O!:handled", take_encoding, &asking.encoding, &asking.source, &asking.at, &asking.final, &asking.at_once, &asking.before,
                          (PyTypeObject *)PyExc_UnicodeDecodeError, &asking.error, &asking.handler, &PyTuple_Type, &asking.kinds,
                          &PyTuple_Type, &asking.reasons))
        return NULL;
    if (!is_place(asking.at, PyBytes_Size(asking.source)) || !begin_text(&text))
        return NULL;
    Py_INCREF(asking.source);
    for (int i = 0; i < 3; i++)
        is_made = (asking.names[i] = PyUnicode_InternFromString(names[i])) != NULL && is_made;
    is_made = is_made && put(&text, text_of(asking.encoding, (const uint8_t *)PyBytes_AsString(asking.source), (size_t)asking.at)) &&
              put_handled(&text, &asking);
    made = end_text(&text, is_made);
    if (made != NULL)
        made = Py_BuildValue("Ny#", made, (const char *)left_bytes(&asking), (Py_ssize_t)left_len(&asking));
    for (int i = 0; i < 3; i++)
        Py_XDECREF(asking.names[i]);
    Py_DECREF(asking.source);
    return made;
}

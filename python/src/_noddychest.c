/* What of the package has to be fast, over the calls of noddychest.h. The package itself, and what users read, is in
 * src/noddychest. Encodings and kinds cross as numbers; pieces are made as the named tuple that the package hands in.
 *
 * The interpreter's lock is let go while 64 KiB or more are read, and the buffer is held meanwhile. Nothing is kept but in objects, so
 * each interpreter has its own. */
#include "maker.h"
#include "views.h"

#include "lengths.h"

#include <stdlib.h>
#include <string.h>

#define BLOCK 256         /* pieces of one call of the library */
#define COUNTED (1 << 17) /* the bytes that are validated, and counted then */
#define FIRST_COUNTED (1 << 12) /* the bytes of the first step of a search for a piece */
#define SMALL (64 * 1024) /* an input up to here gets a buffer for its longest possible output */
#define LONGEST_MARK 3    /* the bytes of the longest byte order mark */

/* ---- bytes that are made ---- */

/* _PyBytes_Resize() changes the length of bytes in place. It is in every CPython, but not in the stable ABI; so the linker of the system
 * looks for it, and if it finds none, as on Windows, the bytes are copied. */
#if defined(_WIN32)
static int (*const resize)(PyObject **bytes, Py_ssize_t len) = NULL;
#else
extern int _PyBytes_Resize(PyObject **bytes, Py_ssize_t len) __attribute__((weak));
#define resize _PyBytes_Resize
#endif

static PyObject *resized(PyObject *made, Py_ssize_t len) {
    Py_ssize_t old = PyBytes_Size(made);
    PyObject *copy;
    if (old == len)
        return made;
    if (resize != NULL) {
        resize(&made, len);
        return made;
    }
    copy = PyBytes_FromStringAndSize(NULL, len);
    if (copy != NULL)
        memcpy(PyBytes_AsString(copy), PyBytes_AsString(made), (size_t)(len < old ? len : old));
    Py_DECREF(made);
    return copy;
}

/* ---- many pieces ---- */

/* Up to BLOCK pieces from the front of UTF-16; returns how many. */
static size_t pieces_utf16(nody_encoding_t encoding, const uint8_t *bytes, size_t len, nody_piece_t *block) {
    uint16_t units[BLOCK];
    size_t size = len / 2 < BLOCK ? len / 2 : BLOCK, count;
    nody_units_t left = nody_units(units, size);
    for (size_t i = 0; i < size; i++)
        units[i] = unit_at(encoding, bytes + 2 * i);
    count = nody_utf16_pieces(&left, block, BLOCK);
    if (count > 1 && block[count - 1].kind == NODY_KIND_INCOMPLETE && size < len / 2)
        count--; /* (its kind depends on what follows) */
    for (size_t i = 0; i < count; i++)
        block[i].len *= 2;
    return count;
}

static size_t first_pieces(nody_encoding_t encoding, const uint8_t *bytes, size_t len, nody_piece_t *block) {
    nody_bytes_t left = nody_bytes(bytes, len);
    if (encoding == NODY_UTF8)
        return nody_utf8_pieces(&left, block, BLOCK);
    if (len == 1)
        block[0] = first_piece(encoding, bytes, len);
    return len == 1 ? 1 : pieces_utf16(encoding, bytes, len, block);
}

/* ---- functions ---- */

static PyObject *supported(PyObject *module, PyObject *nothing) {
    (void)module, (void)nothing;
    return PyBool_FromLong(nody_supported());
}

static PyObject *kind_sentence(PyObject *module, PyObject *kind) {
    unsigned long number = PyLong_AsUnsignedLong(kind);
    (void)module;
    if (PyErr_Occurred())
        return NULL;
    return PyUnicode_FromString(nody_kind_sentence((nody_kind_t)(number < 256 ? number : 255)));
}

/* fault(encoding, data): the offset, the length and the kind of the first fault, or None. */
static PyObject *fault(PyObject *module, PyObject *args) {
    Py_buffer view;
    Window window;
    nody_encoding_t encoding;
    PyObject *answer = NULL;
    (void)module;
    if (!PyArg_ParseTuple(args, "O&O&:fault", take_encoding, &encoding, take_bytes, &view))
        return NULL;
    if (open_window(&window, &view)) {
        Fault found = first_fault(&window, WHOLE, encoding, &view);
        answer = found.kind == NODY_KIND_NONE
                     ? Py_NewRef(Py_None)
                     : Py_BuildValue("nnI", (Py_ssize_t)found.at, (Py_ssize_t)found.len, (unsigned)found.kind);
        close_window(&window);
    }
    PyBuffer_Release(&view);
    return answer;
}

/* An offset that a caller gave: one beyond the length counts as the length. Otherwise an error is set, and it is -1. */
static Py_ssize_t offset_within(PyObject *number, Py_ssize_t len) {
    Py_ssize_t at = PyNumber_AsSsize_t(number, NULL);
    if (PyErr_Occurred() || !is_place(at < len ? at : len, len))
        return -1;
    return at < len ? at : len;
}

/* boundary(encoding, data, at, after): an offset beyond any length counts as the length. */
static PyObject *boundary(PyObject *module, PyObject *args) {
    Py_buffer view;
    nody_encoding_t encoding;
    PyObject *number, *answer = NULL;
    Py_ssize_t at;
    int after;
    (void)module;
    if (!PyArg_ParseTuple(args, "O&O&Op:boundary", take_encoding, &encoding, take_bytes, &view, &number, &after))
        return NULL;
    at = offset_within(number, view.len);
    if (at >= 0)
        answer = PyLong_FromSize_t(after ? nody_boundary_after(encoding, view.buf, (size_t)view.len, (size_t)at)
                                         : nody_boundary_before(encoding, view.buf, (size_t)view.len, (size_t)at));
    PyBuffer_Release(&view);
    return answer;
}

/* shard_end(encoding, data, at): the last offset up to `at` where a shard may end. */
static PyObject *shard_end(PyObject *module, PyObject *args) {
    nody_encoding_t encoding;
    Py_buffer view;
    PyObject *number, *answer = NULL;
    Py_ssize_t at;
    (void)module;
    if (!PyArg_ParseTuple(args, "O&O&O:shard_end", take_encoding, &encoding, take_bytes, &view, &number)) return NULL;
    at = offset_within(number, view.len);
    if (at >= 0) answer = PyLong_FromSize_t(nody_shard_end(encoding, view.buf, (size_t)view.len, (size_t)at));
    PyBuffer_Release(&view);
    return answer;
}

/* changed_range(encoding, data, start, end): the part outside of which no piece changes if these bytes are replaced. */
static PyObject *changed_range(PyObject *module, PyObject *args) {
    Py_buffer view;
    nody_encoding_t encoding;
    PyObject *first, *last, *answer = NULL;
    Py_ssize_t start, end;
    (void)module;
    if (!PyArg_ParseTuple(args, "O&O&OO:changed_range", take_encoding, &encoding, take_bytes, &view, &first, &last))
        return NULL;
    start = offset_within(first, view.len);
    end = start < 0 ? -1 : offset_within(last, view.len);
    if (end >= 0) {
        nody_range_t range = nody_changed_range(encoding, view.buf, (size_t)view.len, (size_t)start, (size_t)end);
        answer = Py_BuildValue("nn", (Py_ssize_t)range.start, (Py_ssize_t)range.end);
    }
    PyBuffer_Release(&view);
    return answer;
}

/* undecided_len(encoding, data): how many bytes at the end depend on what follows. */
static PyObject *undecided_len(PyObject *module, PyObject *args) {
    Py_buffer view;
    nody_encoding_t encoding;
    size_t len;
    (void)module;
    if (!PyArg_ParseTuple(args, "O&O&:undecided_len", take_encoding, &encoding, take_bytes, &view))
        return NULL;
    len = undecided(encoding, view.buf, (size_t)view.len);
    PyBuffer_Release(&view);
    return PyLong_FromSize_t(len);
}

/* encoding_of_bom(data): the encoding that a byte order mark names, and the length of the mark, or None. */
static PyObject *encoding_of_bom(PyObject *module, PyObject *data) {
    Py_buffer view;
    uint8_t front[LONGEST_MARK];
    size_t count, len;
    nody_encoding_t encoding = NODY_UTF8;
    (void)module;
    if (!take_bytes(data, &view))
        return NULL;
    count = view.len < LONGEST_MARK ? (size_t)view.len : LONGEST_MARK;
    memcpy(front, view.buf, count);
    PyBuffer_Release(&view);
    len = nody_encoding_of_bom(front, count, &encoding);
    return len == 0 ? Py_NewRef(Py_None) : Py_BuildValue("in", (int)encoding, (Py_ssize_t)len);
}

/* A surveyor crosses as its bytes, which are kept by the package between two parts. */
static int take_surveyor(PyObject *state, void *into) {
    nody_surveyor_t *surveyor = into;
    nody_survey_t survey;
    if (PyBytes_Check(state) && PyBytes_Size(state) == sizeof *surveyor) {
        memcpy(surveyor, PyBytes_AsString(state), sizeof *surveyor);
        if (nody_surveyor_survey(surveyor, &survey) == NODY_STATUS_DONE)
            return 1;
    }
    if (!PyErr_Occurred())
        PyErr_SetString(PyExc_ValueError, "no Surveyor has this state");
    return 0;
}

static PyObject *surveyor_bytes(const nody_surveyor_t *surveyor) {
    return PyBytes_FromStringAndSize((const char *)surveyor, sizeof *surveyor);
}

/* surveyor(): a surveyor of an input of which nothing was fed. */
static PyObject *surveyor(PyObject *module, PyObject *nothing) {
    nody_surveyor_t made = nody_surveyor();
    (void)module, (void)nothing;
    return surveyor_bytes(&made);
}

/* surveyed(surveyor, data): the surveyor after a part. */
static PyObject *surveyed(PyObject *module, PyObject *args) {
    Py_buffer view;
    Window window;
    nody_surveyor_t after;
    int is_open;
    (void)module;
    if (!PyArg_ParseTuple(args, "O&O&:surveyed", take_surveyor, &after, take_bytes, &view))
        return NULL;
    is_open = open_window(&window, &view);
    if (is_open) {
        PyThreadState *thread = let_lock_go((size_t)view.len);
        window.most = SKIPPED;
        for (size_t done = 0; done < (size_t)view.len; done += window.len) {
            next_window(&window, NODY_UTF8, (const uint8_t *)view.buf + done, (size_t)view.len - done);
            nody_surveyor_feed(&after, window.bytes, window.len);
        }
        take_lock(thread);
        close_window(&window);
    }
    PyBuffer_Release(&view);
    return is_open ? surveyor_bytes(&after) : NULL;
}

#define U64(number) ((unsigned long long)(number))
#define UNITS(counts) U64(counts.plain), U64(counts.stray), U64(counts.unpaired)

/* survey(surveyor): the counts of all parts, in the order of nody_survey_t, and the numbers of the guesses. */
static PyObject *survey(PyObject *module, PyObject *state) {
    nody_surveyor_t surveyor;
    nody_survey_t it;
    nody_guess_t guesses[3];
    size_t count;
    (void)module;
    if (!take_surveyor(state, &surveyor))
        return NULL;
    nody_surveyor_survey(&surveyor, &it);
    count = nody_guesses(&it, guesses, 3);
    return Py_BuildValue("KKK(KKKKKKKK)(KKK)(KKK)y#BBy#", U64(it.len), U64(it.nul), U64(it.control), U64(it.utf8.chars), U64(it.utf8.faults),
                         U64(it.utf8.third), U64(it.utf8.signs), U64(it.utf8.undefined), U64(it.utf8.surrogates), U64(it.utf8.twice),
                         U64(it.utf8.twice_chars), UNITS(it.utf16le), UNITS(it.utf16be), (const char *)it.front,
                         (Py_ssize_t)(it.len < 4 ? it.len : 4), it.head, it.tail, (const char *)guesses, (Py_ssize_t)count);
}

static PyObject *guess_text(PyObject *module, PyObject *guess) {
    unsigned long number = PyLong_AsUnsignedLong(guess);
    (void)module;
    if (PyErr_Occurred())
        return NULL;
    return PyUnicode_FromString(nody_guess_text((nody_guess_t)(number < 256 ? number : 255)));
}

/* check(data): rejects what is no bytes-like object. */
static PyObject *check(PyObject *module, PyObject *data) {
    Py_buffer view;
    (void)module;
    if (!take_bytes(data, &view))
        return NULL;
    PyBuffer_Release(&view);
    return Py_NewRef(Py_None);
}

/* Counts all pieces of a view, and its line ends where these are asked for. Returns 0 with an error. */
static int count_all(nody_encoding_t encoding, const Py_buffer *view, size_t *pieces, size_t *lines) {
    Window window;
    size_t len = (size_t)view->len;
    PyThreadState *thread;
    if (!open_window(&window, view))
        return 0;
    window.most = COUNTED;
    thread = let_lock_go(len);
    for (size_t at = 0; at < len; at += window.len) {
        next_window(&window, encoding, (const uint8_t *)view->buf + at, len - at);
        *pieces += nody_char_count(encoding, window.bytes, window.len);
        if (lines != NULL)
            *lines += line_count(encoding, window.bytes, window.len);
    }
    take_lock(thread);
    close_window(&window);
    return 1;
}

/* char_count(encoding, data): how many pieces there are. */
static PyObject *char_count(PyObject *module, PyObject *args) {
    Py_buffer view;
    nody_encoding_t encoding;
    size_t pieces = 0;
    PyObject *answer = NULL;
    (void)module;
    if (!PyArg_ParseTuple(args, "O&O&:char_count", take_encoding, &encoding, take_bytes, &view))
        return NULL;
    if (count_all(encoding, &view, &pieces, NULL))
        answer = PyLong_FromSize_t(pieces);
    PyBuffer_Release(&view);
    return answer;
}

/* How many pieces begin before an offset, window by window. */
static size_t count_before(Window *window, nody_encoding_t encoding, const Py_buffer *view, size_t place) {
    size_t count = 0;
    window->most = COUNTED;
    for (size_t at = 0; at < place; at += window->len) {
        next_window(window, encoding, (const uint8_t *)view->buf + at, (size_t)view->len - at);
        count += nody_number_of(encoding, window->bytes, window->len, place - at);
    }
    return count;
}

/* number_of(encoding, data, offset): how many pieces begin before an offset. */
static PyObject *number_of(PyObject *module, PyObject *args) {
    Py_buffer view;
    Window window;
    nody_encoding_t encoding;
    PyObject *offset, *answer = NULL;
    Py_ssize_t place;
    (void)module;
    if (!PyArg_ParseTuple(args, "O&O&O:number_of", take_encoding, &encoding, take_bytes, &view, &offset))
        return NULL;
    place = offset_within(offset, view.len);
    if (place >= 0 && open_window(&window, &view)) {
        PyThreadState *thread = let_lock_go((size_t)place);
        size_t count = count_before(&window, encoding, &view, (size_t)place);
        take_lock(thread);
        close_window(&window);
        answer = PyLong_FromSize_t(count);
    }
    PyBuffer_Release(&view);
    return answer;
}

/* The offset of the piece with a number, window by window, of which the first is short; the length if there are no more pieces. */
static size_t find_number(Window *window, nody_encoding_t encoding, const Py_buffer *view, size_t number) {
    size_t len = (size_t)view->len;
    window->most = FIRST_COUNTED;
    for (size_t at = 0; at < len; at += window->len) {
        size_t here;
        next_window(window, encoding, (const uint8_t *)view->buf + at, len - at);
        here = nody_char_count(encoding, window->bytes, window->len);
        if (number < here)
            return at + nody_offset_of(encoding, window->bytes, window->len, number);
        number -= here;
        window->most = 2 * window->most < COUNTED ? 2 * window->most : COUNTED;
    }
    return len;
}

/* offset_of(encoding, data, number): the offset of the piece with a number, or None if there are no more pieces. */
static PyObject *offset_of(PyObject *module, PyObject *args) {
    Py_buffer view;
    Window window;
    nody_encoding_t encoding;
    PyObject *index, *answer = NULL;
    Py_ssize_t number;
    (void)module;
    if (!PyArg_ParseTuple(args, "O&O&O:offset_of", take_encoding, &encoding, take_bytes, &view, &index))
        return NULL;
    number = offset_within(index, view.len);
    if (number >= 0 && open_window(&window, &view)) {
        PyThreadState *thread = let_lock_go((size_t)view.len);
        size_t offset = find_number(&window, encoding, &view, (size_t)number);
        take_lock(thread);
        close_window(&window);
        answer = offset < (size_t)view.len ? PyLong_FromSize_t(offset) : Py_NewRef(Py_None);
    }
    PyBuffer_Release(&view);
    return answer;
}

/* counts(encoding, data): how many pieces there are, and how many line ends. */
static PyObject *counts(PyObject *module, PyObject *args) {
    Py_buffer view;
    nody_encoding_t encoding;
    size_t pieces = 0, lines = 0;
    PyObject *answer = NULL;
    (void)module;
    if (!PyArg_ParseTuple(args, "O&O&:counts", take_encoding, &encoding, take_bytes, &view))
        return NULL;
    if (count_all(encoding, &view, &pieces, &lines))
        answer = Py_BuildValue("nn", (Py_ssize_t)pieces, (Py_ssize_t)lines);
    PyBuffer_Release(&view);
    return answer;
}

/* Pieces that are counted, and the offset of each that has a multiple of `every` before it. */
typedef struct {
    nody_encoding_t encoding;
    uint64_t offset;
    size_t count, every, marked, room;
    uint8_t *marks;
} Index;

static void index_window(Index *index, const Window *window) {
    nody_piece_t block[BLOCK];
    for (size_t at = 0; at < window->len;) {
        size_t here = first_pieces(index->encoding, window->bytes + at, window->len - at, block);
        for (size_t i = 0; i < here; i++) {
            if (index->count++ % index->every == 0 && index->marked < index->room)
                memcpy(index->marks + sizeof index->offset * index->marked++, &index->offset, sizeof index->offset);
            index->offset += block[i].len;
            at += block[i].len;
        }
    }
}

/* index(encoding, data, every): how many pieces there are, and those offsets. */
static PyObject *index_pieces(PyObject *module, PyObject *args) {
    Py_buffer view;
    nody_encoding_t encoding;
    Py_ssize_t every;
    Window window;
    PyObject *marks = NULL;
    (void)module;
    if (!PyArg_ParseTuple(args, "O&O&n:index", take_encoding, &encoding, take_bytes, &view, &every))
        return NULL;
    if (every < 1) {
        PyErr_SetString(PyExc_ValueError, "every has to be at least 1");
    } else if (open_window(&window, &view)) {
        size_t len = (size_t)view.len;
        Index index = {encoding, 0, 0, (size_t)every, 0, len / (size_t)every + 1, NULL};
        marks = PyBytes_FromStringAndSize(NULL, (Py_ssize_t)(index.room * sizeof index.offset));
        if (marks != NULL) {
            PyThreadState *thread;
            index.marks = (uint8_t *)PyBytes_AsString(marks);
            thread = let_lock_go(len);
            for (size_t at = 0; at < len; at += window.len) {
                next_window(&window, encoding, (const uint8_t *)view.buf + at, len - at);
                index_window(&index, &window);
            }
            take_lock(thread);
            marks = resized(marks, (Py_ssize_t)(index.marked * sizeof index.offset));
        }
        if (marks != NULL)
            marks = Py_BuildValue("nN", (Py_ssize_t)index.count, marks);
        close_window(&window);
    }
    PyBuffer_Release(&view);
    return marks;
}

/* recoded_len(from, to, data): how many bytes recode makes. */
static PyObject *recoded_len(PyObject *module, PyObject *args) {
    Py_buffer view;
    nody_encoding_t from, to;
    Window window;
    PyObject *answer = NULL;
    (void)module;
    if (!PyArg_ParseTuple(args, "O&O&O&:recoded_len", take_encoding, &from, take_encoding, &to, take_bytes, &view))
        return NULL;
    if (open_window(&window, &view)) {
        size_t len = (size_t)view.len, sum = 0;
        PyThreadState *thread = let_lock_go(len);
        for (size_t at = 0; at < len; at += window.len) {
            next_window(&window, from, (const uint8_t *)view.buf + at, len - at);
            sum += nody_recoded_len(from, to, window.bytes, window.len);
        }
        take_lock(thread);
        answer = PyLong_FromSize_t(sum);
        close_window(&window);
    }
    PyBuffer_Release(&view);
    return answer;
}

/* ---- transcoding ---- */

/* What is done with faults: one U+FFFD for each, a stop at the first, one U+FFFD for each maximal subpart, or for each byte what a table
 * has. The package has numbers for these: REPAIR and more are the tables that the library knows, by their numbers there. */
enum Way { EACH, STRICT, LOSSY, REPAIR };

#define ENTRIES 128 /* of a table: the bytes from 80 on */

typedef struct {
    enum Way way;
    nody_repair_t repair;
    uint32_t table[ENTRIES]; /* of NODY_REPAIR_TABLE */
} Errors;

/* Bytes that are being converted: the input, how far it was read, and what was made of it. */
typedef struct {
    nody_recoder_t recoder;
    const Errors *errors;
    Window window;
    const uint8_t *in;
    size_t len, read;
    PyObject *made;
    size_t room, written;
    nody_fault_t *fault;
} Recoding;

/* Grows the buffer: never a tenth more than all will have. Returns 0 with an error. */
static int make_room(Recoding *it) {
    size_t left = it->len - it->read, room = nody_recoded_len_max(it->recoder.from, it->recoder.to, left);
    if (it->len > SMALL) {
        PyThreadState *thread = let_lock_go(left);
        room = least_recoded(it->recoder.from, it->recoder.to, it->in + it->read, left);
        take_lock(thread);
    }
    if (it->made != NULL)
        room += (it->written + room) / 16;
    if (room > (size_t)PY_SSIZE_T_MAX - it->written - 128) {
        PyErr_NoMemory();
        return 0;
    }
    it->room = it->written + room + 64; /* (for the carried-over bytes and the end) */
    it->made = it->made == NULL ? PyBytes_FromStringAndSize(NULL, (Py_ssize_t)it->room) : resized(it->made, (Py_ssize_t)it->room);
    return it->made != NULL;
}

/* Feeds the next part. */
static nody_status_t feed_part(Recoding *it, const uint8_t *in, size_t len, uint8_t *out) {
    size_t read, written, room = it->room - it->written;
    nody_status_t status;
    const Errors *errors = it->errors;
    out += it->written;
    if (errors->way == STRICT)
        status = nody_recoder_feed_strict(&it->recoder, in, len, out, room, &read, &written, it->fault);
    else if (errors->way == LOSSY)
        status = nody_recoder_feed_lossy(&it->recoder, in, len, out, room, &read, &written);
    else if (errors->way == REPAIR)
        status = nody_recoder_feed_repair(&it->recoder, in, len, out, room, errors->repair, errors->table, ENTRIES, &read, &written);
    else
        status = nody_recoder_feed(&it->recoder, in, len, out, room, &read, &written);
    it->read += read, it->written += written;
    return status;
}

/* Feeds all that is left, as far as the buffer goes. */
static nody_status_t feed(Recoding *it) {
    uint8_t *out = (uint8_t *)PyBytes_AsString(it->made);
    PyThreadState *thread = let_lock_go(it->len - it->read);
    nody_status_t status;
    do {
        next_window(&it->window, it->recoder.from, it->in + it->read, it->len - it->read);
        status = feed_part(it, it->window.bytes, it->window.len, out);
    } while (status == NODY_STATUS_DONE && it->read < it->len);
    take_lock(thread);
    return status;
}

static nody_status_t finish(Recoding *it) {
    uint8_t *out = (uint8_t *)PyBytes_AsString(it->made) + it->written;
    size_t written, room = it->room - it->written;
    const Errors *errors = it->errors;
    nody_status_t status;
    if (errors->way == STRICT)
        status = nody_recoder_finish_strict(&it->recoder, out, room, &written, it->fault);
    else if (errors->way == LOSSY)
        status = nody_recoder_finish_lossy(&it->recoder, out, room, &written);
    else if (errors->way == REPAIR)
        status = nody_recoder_finish_repair(&it->recoder, out, room, errors->repair, errors->table, ENTRIES, &written);
    else
        status = nody_recoder_finish(&it->recoder, out, room, &written);
    it->written += written;
    return status;
}

/* Goes a step on, growing the buffer as needed. */
static int goes(Recoding *it, nody_status_t (*step)(Recoding *)) {
    nody_status_t status;
    do {
        status = step(it);
    } while (status == NODY_STATUS_FULL && make_room(it));
    if (status == NODY_STATUS_REFUSED)
        PyErr_SetString(PyExc_SystemError, "the recoder is damaged");
    return status == NODY_STATUS_DONE || status == NODY_STATUS_FAULT;
}

/* For "O&": a number, or the 128 numbers of a table as `bytes`. */
static int take_errors(PyObject *object, void *into) {
    Errors *errors = into;
    long number;
    memset(errors, 0, sizeof *errors);
    if (PyBytes_Check(object) && PyBytes_Size(object) == sizeof errors->table) {
        errors->way = REPAIR;
        errors->repair = NODY_REPAIR_TABLE;
        memcpy(errors->table, PyBytes_AsString(object), sizeof errors->table);
        return 1;
    }
    number = PyLong_AsLong(object);
    if (number == -1 && PyErr_Occurred())
        return 0;
    if (number < EACH || number >= REPAIR + NODY_REPAIR_TABLE) {
        PyErr_SetString(PyExc_ValueError, "no way with errors has this number");
        return 0;
    }
    errors->way = number < REPAIR ? (enum Way)number : REPAIR;
    errors->repair = (nody_repair_t)(number < REPAIR ? 0 : number - REPAIR);
    return 1;
}

/* Feeds a whole view to a recoder, and finishes if that is asked for; returns the output as bytes. In strict mode it stops at the first
 * fault, and `read` is then how many bytes were read. */
static PyObject *fed(nody_recoder_t *recoder, const Errors *errors, const Py_buffer *view, int is_last, size_t *read, nody_fault_t *fault) {
    Recoding it = {*recoder, errors, {NULL, NULL, 0, 0, 0}, view->buf, (size_t)view->len, 0, NULL, 0, 0, fault};
    PyObject *made = NULL;
    *fault = (nody_fault_t){0, 0, NODY_KIND_NONE};
    if (!open_window(&it.window, view))
        return NULL;
    if (make_room(&it) && goes(&it, feed) && (!is_last || fault->kind != NODY_KIND_NONE || goes(&it, finish)))
        made = resized(it.made, (Py_ssize_t)it.written);
    else
        Py_XDECREF(it.made);
    close_window(&it.window);
    *recoder = it.recoder, *read = it.read;
    return made;
}

/* recode(from, to, data, errors): the bytes that come of it, or the offset, the length and the kind of the first fault, and the data as
 * `bytes`. */
static PyObject *recode(PyObject *module, PyObject *args) {
    Py_buffer view;
    nody_encoding_t from, to;
    nody_recoder_t recoder;
    nody_fault_t fault;
    Errors errors;
    size_t read;
    PyObject *data, *made;
    (void)module;
    if (!PyArg_ParseTuple(args, "O&O&OO&:recode", take_encoding, &from, take_encoding, &to, &data, take_errors, &errors) ||
        !take_bytes(data, &view))
        return NULL;
    recoder = nody_recoder(from, to);
    made = fed(&recoder, &errors, &view, 1, &read, &fault);
    if (made != NULL && fault.kind != NODY_KIND_NONE) {
        Py_DECREF(made);
        made = bytes_of(data, &view);
        if (made != NULL)
            made = Py_BuildValue("nnIN", (Py_ssize_t)(read - fault.back), (Py_ssize_t)fault.len, (unsigned)fault.kind, made);
    }
    PyBuffer_Release(&view);
    return made;
}

typedef struct {
    PyObject_HEAD
    nody_recoder_t recoder;
    Errors errors;
    Py_ssize_t fed; /* bytes that were fed */
    char busy;      /* 1 while a call goes on: it lets the lock go */
} Recoder;

static PyObject *recoder_new(PyTypeObject *type, PyObject *args, PyObject *names) {
    nody_encoding_t from, to;
    Errors errors;
    Recoder *self;
    (void)names;
    if (!PyArg_ParseTuple(args, "O&O&O&:Recoder", take_encoding, &from, take_encoding, &to, take_errors, &errors))
        return NULL;
    self = (Recoder *)PyType_GenericAlloc(type, 0);
    if (self != NULL) {
        self->recoder = nody_recoder(from, to);
        self->errors = errors;
    }
    return (PyObject *)self;
}

/* The output of a step. The recoder changes only if that is made, and if strict mode meets no fault. */
static PyObject *stepped(Recoder *self, const Py_buffer *view, int is_last) {
    nody_recoder_t before = self->recoder, after = self->recoder;
    nody_fault_t fault;
    size_t read, place;
    PyObject *made = fed(&after, &self->errors, view, is_last, &read, &fault), *all;
    if (made == NULL)
        return NULL;
    if (fault.kind == NODY_KIND_NONE) {
        self->recoder = after;
        self->fed += view->len;
        return made;
    }
    Py_DECREF(made);
    place = before.count + read - fault.back;
    all = PyBytes_FromStringAndSize(NULL, before.count + view->len);
    if (all == NULL)
        return NULL;
    memcpy(PyBytes_AsString(all), before.held, before.count);
    memcpy(PyBytes_AsString(all) + before.count, view->buf, (size_t)view->len);
    return Py_BuildValue("nnINn", self->fed - before.count + (Py_ssize_t)place, (Py_ssize_t)fault.len, (unsigned)fault.kind, all,
                         (Py_ssize_t)place);
}

/* step(data, finish): the output of a step; in strict mode, if there is a fault, its offset, length and kind, the bytes that were carried
 * over together with the data, and its offset in there; nothing changes then. One call goes at a time: making a view of the
 * data may run code that feeds this recoder, and that has ended before. */
static PyObject *recoder_step(PyObject *object, PyObject *args) {
    Recoder *self = (Recoder *)object;
    Py_buffer view;
    int is_last;
    PyObject *made = NULL;
    if (!PyArg_ParseTuple(args, "O&p:step", take_bytes, &view, &is_last))
        return NULL;
    if (__atomic_exchange_n(&self->busy, 1, __ATOMIC_ACQUIRE)) {
        PyErr_SetString(PyExc_RuntimeError, "this Recoder is in use by another call: give each thread its own");
    } else {
        made = stepped(self, &view, is_last);
        __atomic_store_n(&self->busy, 0, __ATOMIC_RELEASE);
    }
    PyBuffer_Release(&view);
    return made;
}

/* state(): the bytes that are held, how many faults were replaced, and how many bytes were fed. */
static PyObject *recoder_state(PyObject *object, PyObject *nothing) {
    const Recoder *self = (Recoder *)object;
    (void)nothing;
    return Py_BuildValue("y#Kn", (const char *)self->recoder.held, (Py_ssize_t)self->recoder.count,
                         (unsigned long long)self->recoder.replaced, self->fed);
}

/* set_state(held, replaced, fed), of a recoder that is new. What is held is fed: so a state that none can have is rejected. */
static PyObject *recoder_set_state(PyObject *object, PyObject *args) {
    Recoder *self = (Recoder *)object;
    nody_recoder_t recoder = nody_recoder(self->recoder.from, self->recoder.to);
    nody_fault_t fault;
    Py_buffer view;
    unsigned long long replaced;
    Py_ssize_t total;
    size_t read;
    PyObject *made;
    if (!PyArg_ParseTuple(args, "O&Kn:set_state", take_bytes, &view, &replaced, &total))
        return NULL;
    made = view.len > 3 ? Py_NewRef(Py_None) : fed(&recoder, &self->errors, &view, 0, &read, &fault);
    if (made != NULL && recoder.count == view.len && total >= view.len) {
        recoder.replaced = replaced;
        self->recoder = recoder;
        self->fed = total;
        Py_DECREF(made);
        made = Py_NewRef(Py_None);
    } else if (made != NULL) {
        Py_DECREF(made);
        made = NULL;
        PyErr_SetString(PyExc_ValueError, "no Recoder has this state");
    }
    PyBuffer_Release(&view);
    return made;
}

static PyObject *recoder_replaced(PyObject *self, void *closure) {
    (void)closure;
    return PyLong_FromUnsignedLongLong(((Recoder *)self)->recoder.replaced);
}

/* ---- pieces ---- */

/* The pieces of some bytes, in order. They cross in blocks; those from the end one by one, each with the error that the forward
 * cut names. */
typedef struct {
    READER_HEAD
    nody_encoding_t encoding;
    size_t offset; /* of the next piece; from the end, its end */
    size_t read;   /* where the next block begins */
    int back;
    size_t at, count;
    nody_piece_t block[BLOCK];
} Run;

/* Run(encoding, data, type, errors, at, back): from the offset on, or all from the end. */
static PyObject *run_new(PyTypeObject *type, PyObject *args, PyObject *names) {
    PyObject *data, *pieces, *errors;
    nody_encoding_t encoding;
    Py_ssize_t at;
    int back;
    Run *self;
    (void)names;
    if (!PyArg_ParseTuple(args, "O&OOOnp:Run", take_encoding, &encoding, &data, &pieces, &errors, &at, &back))
        return NULL;
    self = (Run *)PyType_GenericAlloc(type, 0);
    if (self == NULL)
        return NULL;
    if (!take_bytes(data, &self->view) || !is_place(at, self->view.len) || !maker_begin(&self->maker, pieces, errors)) {
        Py_DECREF(self);
        return NULL;
    }
    self->encoding = encoding;
    self->back = back;
    self->offset = back ? (size_t)self->view.len : (size_t)at;
    self->read = self->offset;
    return (PyObject *)self;
}

/* The piece that ends at an offset of some bytes, with the error that the forward cut names. The bytes around it are copied, so that both
 * calls see the same ones. (If other threads changed them, the offset may be inside a character) */
static nody_piece_t piece_before(nody_encoding_t encoding, const uint8_t *bytes, size_t len, size_t end) {
    uint8_t near[2 * LONGEST];
    size_t most = encoding == NODY_UTF8 ? LONGEST : LONGEST - end % 2, front = end < most ? end : most;
    size_t back = len - end < LONGEST ? len - end : LONGEST;
    nody_piece_t piece = {0, 0, NODY_KIND_NONE}, named;
    if (front == 0)
        return piece;
    memcpy(near, bytes + end - front, front + back);
    piece = last_piece(encoding, near, front);
    if (piece.kind == NODY_KIND_OK)
        return piece;
    named = first_piece(encoding, near + front - piece.len, piece.len + back);
    return named.kind == NODY_KIND_OK ? piece : named;
}

static PyObject *run_back(Run *self) {
    size_t end = self->offset;
    nody_piece_t piece = piece_before(self->encoding, self->view.buf, (size_t)self->view.len, end);
    PyObject *made;
    if (piece.kind == NODY_KIND_NONE)
        return NULL;
    self->offset -= piece.len;
    made = make_piece(&self->maker, self->offset, piece);
    if (made == NULL)
        self->offset = end;
    return made;
}

/* Fills the block from a copy: the bytes may be changed by others. (It has the bytes of a full block, and those that decide its last piece) */
static void next_block(Run *self) {
    uint8_t copy[LONGEST * (BLOCK + 1)];
    size_t left = (size_t)self->view.len - self->read, len = left < sizeof copy ? left : sizeof copy;
    if (len > 0)
        memcpy(copy, (const uint8_t *)self->view.buf + self->read, len);
    self->at = 0;
    self->count = first_pieces(self->encoding, copy, len, self->block);
    for (size_t i = 0; i < self->count; i++)
        self->read += self->block[i].len;
}

static PyObject *run_next(PyObject *object) {
    Run *self = (Run *)object;
    nody_piece_t piece;
    size_t offset = self->offset;
    PyObject *made;
    if (self->back)
        return run_back(self);
    if (self->at == self->count) {
        next_block(self);
        if (self->count == 0)
            return NULL;
    }
    piece = self->block[self->at++];
    self->offset += piece.len;
    made = make_piece(&self->maker, offset, piece);
    if (made == NULL)
        self->at--, self->offset = offset;
    return made;
}

/* Pieces from both ends; the kind of each depends on the bytes that are left. */
typedef struct {
    READER_HEAD
    nody_encoding_t encoding;
    size_t start, end; /* where what is left lies */
} Ends;

static PyObject *ends_new(PyTypeObject *type, PyObject *args, PyObject *names) {
    PyObject *data, *pieces, *errors;
    nody_encoding_t encoding;
    Ends *self;
    (void)names;
    if (!PyArg_ParseTuple(args, "O&OOO:Ends", take_encoding, &encoding, &data, &pieces, &errors))
        return NULL;
    self = (Ends *)PyType_GenericAlloc(type, 0);
    if (self == NULL)
        return NULL;
    if (!take_bytes(data, &self->view) || !maker_begin(&self->maker, pieces, errors)) {
        Py_DECREF(self);
        return NULL;
    }
    self->encoding = encoding;
    self->end = (size_t)self->view.len;
    return (PyObject *)self;
}

static PyObject *ends_next(PyObject *object) {
    Ends *self = (Ends *)object;
    size_t offset = self->start;
    nody_piece_t piece = first_piece(self->encoding, (const uint8_t *)self->view.buf + offset, self->end - offset);
    PyObject *made;
    if (piece.kind == NODY_KIND_NONE)
        return NULL;
    self->start += piece.len;
    made = make_piece(&self->maker, offset, piece);
    if (made == NULL)
        self->start = offset;
    return made;
}

static PyObject *ends_next_back(PyObject *object, PyObject *nothing) {
    Ends *self = (Ends *)object;
    size_t end = self->end;
    nody_piece_t piece = last_piece(self->encoding, (const uint8_t *)self->view.buf + self->start, end - self->start);
    PyObject *made;
    (void)nothing;
    if (piece.kind == NODY_KIND_NONE)
        return Py_NewRef(Py_None);
    self->end -= piece.len;
    made = make_piece(&self->maker, self->end, piece);
    if (made == NULL)
        self->end = end;
    return made;
}

static PyObject *ends_start(PyObject *self, void *closure) {
    (void)closure;
    return PyLong_FromSize_t(((Ends *)self)->start);
}

static PyObject *ends_end(PyObject *self, void *closure) {
    (void)closure;
    return PyLong_FromSize_t(((Ends *)self)->end);
}

/* ---- only faults ---- */

/* The faults of some bytes. Text between them is skipped by validation, window by window. */
typedef struct {
    READER_HEAD
    Search search;
    char busy;
} Faults;

static void faults_dealloc(PyObject *object) {
    close_window(&((Faults *)object)->search.window);
    reader_dealloc(object);
}

/* Faults(encoding, data, type, errors, has_position): each is a piece, or has its position. */
static PyObject *faults_new(PyTypeObject *type, PyObject *args, PyObject *names) {
    PyObject *data, *pieces, *errors;
    nody_encoding_t encoding;
    Faults *self;
    int has_position;
    (void)names;
    if (!PyArg_ParseTuple(args, "O&OOOp:Faults", take_encoding, &encoding, &data, &pieces, &errors, &has_position))
        return NULL;
    self = (Faults *)PyType_GenericAlloc(type, 0);
    if (self == NULL)
        return NULL;
    if (!take_bytes(data, &self->view) || !open_search(&self->search, WHOLE, encoding, &self->view) ||
        !maker_begin(&self->maker, pieces, errors)) {
        Py_DECREF(self);
        return NULL;
    }
    self->search.has_position = (char)has_position;
    return (PyObject *)self;
}

static PyObject *faults_next(PyObject *object) {
    Faults *self = (Faults *)object;
    nody_piece_t piece;
    size_t offset = 0;
    PyObject *made;
    if (__atomic_exchange_n(&self->busy, 1, __ATOMIC_ACQUIRE)) {
        PyErr_SetString(PyExc_RuntimeError, "this iterator is in use by another call: give each thread its own");
        return NULL;
    }
    piece = next_fault(&self->search, &offset);
    made = piece.kind == NODY_KIND_NONE        ? NULL
           : self->search.has_position ? make_located(&self->maker, offset, piece, &self->search.position)
                                       : make_piece(&self->maker, offset, piece);
    if (made == NULL)
        self->search.at -= piece.len;
    __atomic_store_n(&self->busy, 0, __ATOMIC_RELEASE);
    return made;
}

/* Faults as arrays: offsets of 64 bits, lengths and kinds of 8, and where positions are wanted, those. Their memory comes from malloc, which
 * needs no lock. */
typedef struct {
    uint64_t *offsets;
    uint8_t *lens, *kinds;
    uint64_t *places; /* line, column and byte column of each */
    size_t count, room;
    char has_places;
} Arrays;

static void free_arrays(const Arrays *arrays) {
    free(arrays->offsets);
    free(arrays->lens);
    free(arrays->kinds);
    free(arrays->places);
}

static int grow_arrays(Arrays *arrays) {
    size_t room = arrays->room < 1024 ? 1024 : arrays->room + arrays->room / 2;
    void *offsets = realloc(arrays->offsets, room * sizeof *arrays->offsets), *lens, *kinds;
    if (offsets != NULL)
        arrays->offsets = offsets;
    lens = realloc(arrays->lens, room);
    if (lens != NULL)
        arrays->lens = lens;
    kinds = realloc(arrays->kinds, room);
    if (kinds != NULL)
        arrays->kinds = kinds;
    if (arrays->has_places) {
        void *places = realloc(arrays->places, 3 * room * sizeof *arrays->places);
        if (places == NULL)
            return 0;
        arrays->places = places;
    }
    if (offsets == NULL || lens == NULL || kinds == NULL)
        return 0;
    arrays->room = room;
    return 1;
}

/* Puts the faults that begin before `end`, at their offsets and `base` more. Returns 0 without memory. */
static int put_faults(Arrays *arrays, Search *search, size_t end, uint64_t base) {
    size_t offset;
    for (;;) {
        nody_piece_t piece = next_found(search, &offset);
        if (piece.kind == NODY_KIND_NONE || offset >= end)
            return 1;
        if (arrays->count == arrays->room && !grow_arrays(arrays))
            return 0;
        if (arrays->has_places) {
            uint64_t *place = arrays->places + 3 * arrays->count;
            place[0] = search->position.line, place[1] = search->position.column, place[2] = search->position.byte_column;
        }
        arrays->offsets[arrays->count] = base + offset;
        arrays->lens[arrays->count] = (uint8_t)piece.len;
        arrays->kinds[arrays->count++] = (uint8_t)piece.kind;
    }
}

/* fault_arrays(encoding, data, end, base, has_places): the faults of data[:end], as four `bytes`: offsets, lengths, kinds and, if they are
 * wanted, positions; their kinds depend on all of the data. */
static PyObject *fault_arrays(PyObject *module, PyObject *args) {
    Py_buffer view;
    nody_encoding_t encoding;
    Search search;
    Arrays arrays = {NULL, NULL, NULL, NULL, 0, 0, 0};
    Py_ssize_t end;
    unsigned long long base;
    int has_places;
    PyObject *made = NULL;
    (void)module;
    if (!PyArg_ParseTuple(args, "O&O&nKp:fault_arrays", take_encoding, &encoding, take_bytes, &view, &end, &base, &has_places))
        return NULL;
    arrays.has_places = (char)has_places;
    if (is_place(end, view.len) && open_search(&search, WHOLE, encoding, &view)) {
        PyThreadState *thread = let_lock_go((size_t)end);
        search.has_position = arrays.has_places;
        int is_made = put_faults(&arrays, &search, (size_t)end, base);
        Py_ssize_t count = (Py_ssize_t)arrays.count;
        take_lock(thread);
        made = is_made ? Py_BuildValue("y#y#y#y#", arrays.count ? (char *)arrays.offsets : "", count * 8, arrays.count ? (char *)arrays.lens : "",
                                       count, arrays.count ? (char *)arrays.kinds : "", count, arrays.places ? (char *)arrays.places : "",
                                       arrays.places ? count * 24 : 0)
                       : PyErr_NoMemory();
        free_arrays(&arrays);
        close_window(&search.window);
    }
    PyBuffer_Release(&view);
    return made;
}

/* position(encoding, data): the line, the column and the byte column after the data. */
static PyObject *position(PyObject *module, PyObject *args) {
    Py_buffer view;
    nody_encoding_t encoding;
    nody_position_t at = nody_position();
    Window window;
    int is_open;
    (void)module;
    if (!PyArg_ParseTuple(args, "O&O&:position", take_encoding, &encoding, take_bytes, &view))
        return NULL;
    memset(&window, 0, sizeof window);
    is_open = open_window(&window, &view);
    if (is_open) {
        PyThreadState *thread = let_lock_go((size_t)view.len);
        window.most = SKIPPED;
        for (size_t done = 0; done < (size_t)view.len; done += window.len) {
            next_window(&window, encoding, (const uint8_t *)view.buf + done, (size_t)view.len - done);
            nody_position_advance(&at, encoding, window.bytes, window.len);
        }
        take_lock(thread);
        close_window(&window);
    }
    PyBuffer_Release(&view);
    return is_open ? Py_BuildValue("KKK", (unsigned long long)at.line, (unsigned long long)at.column, (unsigned long long)at.byte_column) : NULL;
}

/* shift(places, line, column, byte_column): positions counted from this one, each of three numbers, become positions counted from the front. */
static PyObject *shift(PyObject *module, PyObject *args) {
    Py_buffer view;
    unsigned long long line, column, byte_column;
    uint64_t *places;
    (void)module;
    if (!PyArg_ParseTuple(args, "w*KKK:shift", &view, &line, &column, &byte_column))
        return NULL;
    places = view.buf;
    for (size_t i = 0; i + 3 <= (size_t)view.len / sizeof *places; i += 3) {
        if (places[i] == 1)
            places[i + 1] += column - 1, places[i + 2] += byte_column - 1;
        places[i] += line - 1;
    }
    PyBuffer_Release(&view);
    return Py_NewRef(Py_None);
}

/* kind_counts(encoding, data, end): how many faults of each kind data[:end] has; their kinds depend on all of the data. */
static PyObject *kind_counts(PyObject *module, PyObject *args) {
    Py_buffer view;
    nody_encoding_t encoding;
    Search search;
    Py_ssize_t end;
    size_t found[NODY_KIND_NONE + 1] = {0}, offset;
    PyObject *made = NULL;
    (void)module;
    if (!PyArg_ParseTuple(args, "O&O&n:kind_counts", take_encoding, &encoding, take_bytes, &view, &end))
        return NULL;
    if (is_place(end, view.len) && open_search(&search, WHOLE, encoding, &view)) {
        PyThreadState *thread = let_lock_go((size_t)end);
        nody_piece_t piece;
        while ((piece = next_found(&search, &offset)).kind != NODY_KIND_NONE && offset < (size_t)end)
            found[piece.kind]++;
        take_lock(thread);
        made = PyTuple_New(NODY_KIND_NONE);
        for (int i = 0; i < NODY_KIND_NONE && made != NULL; i++) {
            PyObject *number = PyLong_FromSize_t(found[i]);
            if (number == NULL || PyTuple_SetItem(made, i, number) < 0) {
                Py_DECREF(made);
                made = NULL;
            }
        }
        close_window(&search.window);
    }
    PyBuffer_Release(&view);
    return made;
}

/* ---- the module ---- */

static PyType_Slot run_slots[] = {{Py_tp_new, run_new},
                                  {Py_tp_traverse, reader_traverse},
                                  {Py_tp_dealloc, reader_dealloc},
                                  {Py_tp_iter, PyObject_SelfIter},
                                  {Py_tp_iternext, run_next},
                                  {0, NULL}};
static PyType_Spec run_spec = {"noddychest._noddychest.Run", sizeof(Run), 0, Py_TPFLAGS_DEFAULT | Py_TPFLAGS_HAVE_GC, run_slots};

static PyMethodDef ends_methods[] = {{"next_back", ends_next_back, METH_NOARGS, NULL}, {NULL, NULL, 0, NULL}};
static PyGetSetDef ends_members[] = {
    {"start", ends_start, NULL, NULL, NULL}, {"end", ends_end, NULL, NULL, NULL}, {NULL, NULL, NULL, NULL, NULL}};
static PyType_Slot ends_slots[] = {{Py_tp_new, ends_new},         {Py_tp_dealloc, reader_dealloc},   {Py_tp_iter, PyObject_SelfIter},
                                   {Py_tp_iternext, ends_next},   {Py_tp_methods, ends_methods},   {Py_tp_getset, ends_members},
                                   {Py_tp_traverse, reader_traverse}, {0, NULL}};
static PyType_Spec ends_spec = {"noddychest._noddychest.Ends", sizeof(Ends), 0, Py_TPFLAGS_DEFAULT | Py_TPFLAGS_BASETYPE | Py_TPFLAGS_HAVE_GC,
                                ends_slots};

static PyType_Slot faults_slots[] = {{Py_tp_new, faults_new},
                                     {Py_tp_traverse, reader_traverse},
                                     {Py_tp_dealloc, faults_dealloc},
                                     {Py_tp_iter, PyObject_SelfIter},
                                     {Py_tp_iternext, faults_next},
                                     {0, NULL}};
static PyType_Spec faults_spec = {"noddychest._noddychest.Faults", sizeof(Faults), 0, Py_TPFLAGS_DEFAULT | Py_TPFLAGS_HAVE_GC, faults_slots};

static PyMethodDef recoder_methods[] = {{"step", recoder_step, METH_VARARGS, NULL},
                                        {"state", recoder_state, METH_NOARGS, NULL},
                                        {"set_state", recoder_set_state, METH_VARARGS, NULL},
                                        {NULL, NULL, 0, NULL}};
static PyGetSetDef recoder_members[] = {{"replaced", recoder_replaced, NULL, NULL, NULL}, {NULL, NULL, NULL, NULL, NULL}};
static PyType_Slot recoder_slots[] = {{Py_tp_new, recoder_new},
                                      {Py_tp_dealloc, plain_dealloc},
                                      {Py_tp_methods, recoder_methods},
                                      {Py_tp_getset, recoder_members},
                                      {0, NULL}};
static PyType_Spec recoder_spec = {"noddychest._noddychest.Recoder", sizeof(Recoder), 0, Py_TPFLAGS_DEFAULT, recoder_slots};

#define DECODER(function) ((PyCFunction)(void (*)(void))(function))
#define SIGNATURE(name) "decode_" name "(input, errors='strict')\n--\n\n"

static PyMethodDef functions[] = {{"supported", supported, METH_NOARGS, NULL},
                                  {"kind_sentence", kind_sentence, METH_O, NULL},
                                  {"fault", fault, METH_VARARGS, NULL},
                                  {"boundary", boundary, METH_VARARGS, NULL},
                                  {"shard_end", shard_end, METH_VARARGS, NULL},
                                  {"undecided_len", undecided_len, METH_VARARGS, NULL},
                                  {"encoding_of_bom", encoding_of_bom, METH_O, NULL},
                                  {"surveyor", surveyor, METH_NOARGS, NULL},
                                  {"surveyed", surveyed, METH_VARARGS, NULL},
                                  {"survey", survey, METH_O, NULL},
                                  {"guess_text", guess_text, METH_O, NULL},
                                  {"check", check, METH_O, NULL},
                                  {"char_count", char_count, METH_VARARGS, NULL},
                                  {"number_of", number_of, METH_VARARGS, NULL},
                                  {"offset_of", offset_of, METH_VARARGS, NULL},
                                  {"changed_range", changed_range, METH_VARARGS, NULL},
                                  {"counts", counts, METH_VARARGS, NULL},
                                  {"fault_arrays", fault_arrays, METH_VARARGS, NULL},
                                  {"kind_counts", kind_counts, METH_VARARGS, NULL},
                                  {"position", position, METH_VARARGS, NULL},
                                  {"shift", shift, METH_VARARGS, NULL},
                                  {"index", index_pieces, METH_VARARGS, NULL},
                                  {"recoded_len", recoded_len, METH_VARARGS, NULL},
                                  {"recode", recode, METH_VARARGS, NULL},
                                  {"use_codecs", use_codecs, METH_VARARGS, NULL},
                                  {"quick_decode", DECODER(quick_decode), METH_FASTCALL, NULL},
                                  {"decode_utf8", DECODER(decode_utf8), METH_FASTCALL | METH_KEYWORDS, SIGNATURE("utf8")},
                                  {"decode_utf16le", DECODER(decode_utf16le), METH_FASTCALL | METH_KEYWORDS, SIGNATURE("utf16le")},
                                  {"decode_utf16be", DECODER(decode_utf16be), METH_FASTCALL | METH_KEYWORDS, SIGNATURE("utf16be")},
                                  {"decode", decode, METH_VARARGS, NULL},
                                  {"replaced", replaced, METH_VARARGS, NULL},
                                  {"handled", handled, METH_VARARGS, NULL},
                                  {NULL, NULL, 0, NULL}};

static int begin_module(PyObject *module) {
    PyType_Spec *specs[] = {&run_spec, &ends_spec, &faults_spec, &part_spec, &stream_spec, &recoder_spec, &turn_spec};
    const char *names[] = {"Run", "Ends", "Faults", "Part", "Stream", "Recoder", "Turn"};
    for (int i = 0; i < 7; i++) {
        PyObject *type = PyType_FromSpec(specs[i]);
        if (type == NULL || PyModule_AddObject(module, names[i], type) < 0) {
            Py_XDECREF(type);
            return -1;
        }
    }
    return 0;
}

/* (the state is not there before the module is executed) */
static int traverse_module(PyObject *module, visitproc visit, void *arg) {
    Codecs *codecs = PyModule_GetState(module);
    if (codecs != NULL) {
        Py_VISIT(codecs->decoders);
        Py_VISIT(codecs->handlers);
    }
    return 0;
}

static int clear_module(PyObject *module) {
    if (PyModule_GetState(module) != NULL)
        clear_codecs(PyModule_GetState(module));
    return 0;
}

static void free_module(void *module) {
    clear_module(module);
}

/* From 3.12 on a module says that each interpreter may load it, also one with a lock of its own. Older ones reject the slot, which
 * they do not know, so there are two definitions; one wheel serves both. (The numbers are those of the stable ABI, whose headers of
 * 3.11 lack them.) */
#ifndef Py_mod_multiple_interpreters
#define Py_mod_multiple_interpreters 3
#define Py_MOD_PER_INTERPRETER_GIL_SUPPORTED ((void *)2)
#endif

static PyModuleDef_Slot old_slots[] = {{Py_mod_exec, begin_module}, {0, NULL}};
static PyModuleDef_Slot new_slots[] = {{Py_mod_exec, begin_module},
                                       {Py_mod_multiple_interpreters, Py_MOD_PER_INTERPRETER_GIL_SUPPORTED},
                                       {0, NULL}};
static struct PyModuleDef old_module = {PyModuleDef_HEAD_INIT, "_noddychest", NULL, sizeof(Codecs), functions, old_slots, traverse_module, clear_module, free_module};
static struct PyModuleDef new_module = {PyModuleDef_HEAD_INIT, "_noddychest", NULL, sizeof(Codecs), functions, new_slots, traverse_module, clear_module, free_module};

PyMODINIT_FUNC PyInit__noddychest(void) {
    return PyModuleDef_Init(version() < 0x030C0000 ? &old_module : &new_module);
}

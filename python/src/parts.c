/* The pieces of a part of input, over the library's decoder.
 *
  * The package keeps the state of a decoder between parts: an offset, and the bytes that are carried over. Its state after a part depends
  * only on the last bytes of that part. So a part is read when its pieces are asked for, and the next one may be fed before. */
#include "maker.h"
#include "views.h"

#include <errno.h>
#include <string.h>

#define BLOCK 256 /* the most pieces of one call of the library */
#define FEW 32    /* the most faults of one call */
#define HELD 3    /* the bytes that are held, at most */
#define READ_AT_ONCE (1 << 16) /* the bytes that a file is asked for */

/* What a part is asked for: its pieces, only its faults, or what ends the input; before it is, nothing. A stream may also be asked for
 * faults with their positions. The numbers are those of the package. */
enum Asked { NOTHING, PIECES, FAULTS, LAST, LOCATED };

/* The pieces of a part. They are put into the block many at a time. */
typedef struct {
    READER_HEAD
    nody_decoder_t decoder; /* before the bytes that are not read yet */
    enum Asked asked;
    size_t read;   /* how many bytes of the part were read */
    Window window; /* for faults: the bytes that are read now */
    size_t seen;   /* how many bytes of the window were read */
    char busy;     /* 1 while a call goes on: it lets the lock go */
    nody_located_t *block;
    size_t room, at, count;
    nody_position_t *places; /* of the faults in the block; NULL if they are not wanted */
    nody_position_t position;
    uint64_t passed; /* the offset up to which the position has passed the input */
} Part;

static void part_dealloc(PyObject *object) {
    Part *self = (Part *)object;
    close_window(&self->window);
    PyMem_Free(self->block);
    PyMem_Free(self->places);
    reader_dealloc(object);
}

/* Part(encoding, data, type, errors): it gives nothing before begin. */
static PyObject *part_new(PyTypeObject *type, PyObject *args, PyObject *names) {
    PyObject *data, *pieces, *errors;
    nody_encoding_t encoding;
    Part *self;
    (void)names;
    if (!PyArg_ParseTuple(args, "O&OOO:Part", take_encoding, &encoding, &data, &pieces, &errors))
        return NULL;
    self = (Part *)PyType_GenericAlloc(type, 0);
    if (self == NULL)
        return NULL;
    if (!take_bytes(data, &self->view) || !maker_begin(&self->maker, pieces, errors)) {
        Py_DECREF(self);
        return NULL;
    }
    self->decoder = nody_decoder(encoding);
    return (PyObject *)self;
}

/* Feeds bytes to a decoder, which writes at most `room` pieces to `out`. Returns how many. */
static size_t fed(nody_decoder_t *decoder, const void *bytes, size_t len, nody_located_t *out, size_t room, size_t *read) {
    size_t count;
    nody_decoder_feed(decoder, bytes, len, out, room, read, &count);
    return count;
}

/* Gives a decoder an offset and the bytes that are held, as parts before left them; they are fed, so none that cannot be is taken. */
static int take_state(nody_decoder_t *decoder, PyObject *offset, const char *held, Py_ssize_t len) {
    nody_decoder_t made = nody_decoder(decoder->encoding);
    nody_located_t piece;
    size_t read;
    made.offset = PyLong_AsUnsignedLongLong(offset);
    if (PyErr_Occurred())
        return 0;
    if (len > HELD || fed(&made, held, (size_t)len, &piece, 1, &read) > 0 || made.count != len) {
        PyErr_SetString(PyExc_ValueError, "no Decoder has this state");
        return 0;
    }
    *decoder = made;
    return 1;
}

/* The decoder after all of a part. Of a long one only the end is read: where a character begins is seen without what is before it. */
static nody_decoder_t after(nody_decoder_t decoder, const Py_buffer *view) {
    nody_located_t pieces[HELD + TAIL];
    uint8_t tail[TAIL];
    size_t len = (size_t)view->len, all = decoder.count + len, count = len, read;
    if (len > TAIL) {
        uint64_t offset = decoder.offset;
        count = TAIL - all % 2;
        decoder = nody_decoder(decoder.encoding);
        decoder.offset = offset + all - count;
    }
    memcpy(tail, (const uint8_t *)view->buf + len - count, count);
    fed(&decoder, tail, count, pieces, HELD + TAIL, &read);
    return decoder;
}

/* Allocates the block: memory for all pieces of `len` bytes, if these are few, and for some faults. */
static int make_block(Part *self, enum Asked asked, size_t len) {
    size_t all = HELD + len;
    self->room = asked == FAULTS ? FEW : all < BLOCK ? all : BLOCK;
    self->block = PyMem_Malloc(self->room * sizeof *self->block);
    if (self->block == NULL)
        PyErr_NoMemory();
    return self->block != NULL;
}

static int make_places(Part *self) {
    self->places = PyMem_Malloc(self->room * sizeof *self->places);
    if (self->places == NULL)
        PyErr_NoMemory();
    return self->places != NULL;
}

/* begin(asked, offset, held): begins the part with the state after the parts before. Returns the state after this one: an offset and bytes. */
static PyObject *part_begin(PyObject *object, PyObject *args) {
    Part *self = (Part *)object;
    int asked;
    PyObject *offset;
    const char *held;
    Py_ssize_t len;
    nody_decoder_t left;
    if (!PyArg_ParseTuple(args, "iOy#:begin", &asked, &offset, &held, &len))
        return NULL;
    if (self->block != NULL || asked < PIECES || asked > LAST) {
        PyErr_SetString(PyExc_ValueError, "a part begins once, and is asked for something");
        return NULL;
    }
    if (!take_state(&self->decoder, offset, held, len) || !make_block(self, (enum Asked)asked, (size_t)self->view.len))
        return NULL;
    left = after(self->decoder, &self->view);
    if (asked == FAULTS && !open_window(&self->window, &self->view))
        return NULL;
    self->window.most = SKIPPED;
    self->asked = (enum Asked)asked;
    if (asked == LAST)
        return Py_BuildValue("Ky#", (unsigned long long)(left.offset + left.count), "", (Py_ssize_t)0);
    return Py_BuildValue("Ky#", (unsigned long long)left.offset, (const char *)left.held, (Py_ssize_t)left.count);
}

/* Advances the position to an offset. The bytes up to it are those that the decoder held before, and then those that it was fed. */
static void pass(Part *self, const nody_decoder_t *before, const uint8_t *fed, uint64_t to) {
    size_t from = (size_t)(self->passed - before->offset), end = (size_t)(to - before->offset), held = end < before->count ? end : before->count;
    if (from < held)
        nody_position_advance(&self->position, before->encoding, before->held + from, held - from);
    if (from < held)
        from = held;
    if (from < end)
        nody_position_advance(&self->position, before->encoding, fed + (from - before->count), end - from);
    self->passed = to;
}

/* Finds the positions of the faults that the decoder gave, and passes all that it holds no more. */
static void locate(Part *self, const nody_decoder_t *before, const uint8_t *fed, size_t count) {
    if (self->places == NULL)
        return;
    for (size_t i = 0; i < count; i++) {
        pass(self, before, fed, self->block[i].offset);
        self->places[i] = self->position;
    }
    pass(self, before, fed, self->decoder.offset);
}

/* Reads on from a copy: the bytes may be changed by others. */
static size_t next_pieces(Part *self) {
    nody_decoder_t before = self->decoder;
    uint8_t copy[4 * BLOCK];
    size_t left = (size_t)self->view.len - self->read, len = left < sizeof copy ? left : sizeof copy, read, count;
    if (len > 0)
        memcpy(copy, (const uint8_t *)self->view.buf + self->read, len);
    count = fed(&self->decoder, copy, len, self->block, self->room, &read);
    self->read += read;
    locate(self, &before, copy, count);
    if (count == 0 && self->asked == LAST) {
        before = self->decoder;
        nody_decoder_finish(&self->decoder, self->block, self->room, &count);
        locate(self, &before, copy, count);
    }
    return count;
}

/* The undecided bytes at the end of the part stay with the decoder, and are not reported. */
static size_t next_faults(Part *self) {
    size_t len = (size_t)self->view.len, read, count = 0;
    PyThreadState *thread = let_lock_go(len - self->read);
    while (count == 0 && self->read < len) {
        nody_decoder_t before = self->decoder;
        if (self->seen == self->window.len) {
            next_window(&self->window, self->decoder.encoding, (const uint8_t *)self->view.buf + self->read, len - self->read);
            self->seen = 0;
        }
        nody_decoder_feed_faults(&self->decoder, self->window.bytes + self->seen, self->window.len - self->seen, self->block, self->room, &read, &count);
        locate(self, &before, self->window.bytes + self->seen, count);
        self->seen += read, self->read += read;
    }
    take_lock(thread);
    return count;
}

/* The next piece, or NULL. It is taken once it is made: so it is not lost if there was no memory. */
static PyObject *next_made(Part *self) {
    const nody_located_t *it = self->block + self->at;
    PyObject *made;
    if (self->at == self->count && self->asked != NOTHING) {
        self->count = self->asked == FAULTS ? next_faults(self) : next_pieces(self);
        self->at = 0;
        it = self->block;
    }
    if (self->at == self->count)
        return NULL;
    made = self->places != NULL ? make_located(&self->maker, it->offset, (nody_piece_t){it->len, it->scalar, it->kind}, self->places + self->at)
                                : make_piece(&self->maker, it->offset, (nody_piece_t){it->len, it->scalar, it->kind});
    self->at += made != NULL;
    return made;
}

static PyObject *part_next(PyObject *object) {
    Part *self = (Part *)object;
    PyObject *made;
    int is_over;
    if (__atomic_exchange_n(&self->busy, 1, __ATOMIC_ACQUIRE)) {
        PyErr_SetString(PyExc_RuntimeError, "this iterator is in use by another call: give each thread its own");
        return NULL;
    }
    made = next_made(self);
    is_over = made == NULL && self->at == self->count && self->asked != NOTHING;
    if (is_over)
        self->asked = NOTHING;
    __atomic_store_n(&self->busy, 0, __ATOMIC_RELEASE);
    if (is_over)
        PyBuffer_Release(&self->view); /* (so that a buffer may be filled anew while this is still there) */
    return made;
}

static PyMethodDef part_methods[] = {{"begin", part_begin, METH_VARARGS, NULL}, {NULL, NULL, 0, NULL}};
static PyType_Slot part_slots[] = {{Py_tp_new, part_new},         {Py_tp_dealloc, part_dealloc},
                                   {Py_tp_iter, PyObject_SelfIter}, {Py_tp_iternext, part_next},
                                   {Py_tp_methods, part_methods}, {Py_tp_traverse, reader_traverse}, {0, NULL}};
PyType_Spec part_spec = {"noddychest._noddychest.Part", sizeof(Part), 0, Py_TPFLAGS_DEFAULT | Py_TPFLAGS_HAVE_GC, part_slots};

/* The pieces of all parts, one after another. It asks for the next part when those of the one before are given, and that may run any code:
 * one call goes at a time. A part that was given is kept until it can be taken. So after an error the next call goes on, and no byte is
 * lost. */
typedef struct {
    Part part; /* the one at hand: its decoder goes on from part to part */
    enum Asked each; /* what each part is asked for */
    PyObject *parts; /* an iterator over bytes-like objects; otherwise those of a file; NULL at the end */
    PyObject *read, *waits, *again;
    PyObject *given; /* the next part, if it is there */
    char by_mark;    /* 1 while a byte order mark is looked for */
    PyObject *front; /* `bytes`, at most one, of which the next one tells whether it begins a mark; or NULL */
} Stream;

static void stream_dealloc(PyObject *object) {
    Stream *self = (Stream *)object;
    PyObject_GC_UnTrack(object);
    Py_XDECREF(self->parts);
    Py_XDECREF(self->read);
    Py_XDECREF(self->waits);
    Py_XDECREF(self->again);
    Py_XDECREF(self->given);
    Py_XDECREF(self->front);
    part_dealloc(object);
}

static int stream_traverse(PyObject *object, visitproc visit, void *arg) {
    Stream *self = (Stream *)object;
    Py_VISIT(self->parts);
    Py_VISIT(self->read);
    Py_VISIT(self->waits);
    Py_VISIT(self->again);
    Py_VISIT(self->given);
    return reader_traverse(object, visit, arg);
}

/* Takes what gives the parts: an iterable, or of a file a tuple of three. `read(size)` gives a block. `waits()` says whether an empty
 * block is the end; if it is not, `again(size)` is asked. */
static int take_parts(Stream *self, PyObject *parts) {
    if (!PyTuple_CheckExact(parts) || PyTuple_Size(parts) != 3) {
        self->parts = PyObject_GetIter(parts);
        return self->parts != NULL;
    }
    self->read = Py_NewRef(PyTuple_GetItem(parts, 0));
    self->waits = Py_NewRef(PyTuple_GetItem(parts, 1));
    self->again = Py_NewRef(PyTuple_GetItem(parts, 2));
    return 1;
}

/* Stream(encoding, parts, asked, type, errors): an encoding of None is that of the byte order mark, or UTF-8. */
static PyObject *stream_new(PyTypeObject *type, PyObject *args, PyObject *names) {
    PyObject *number, *parts, *pieces, *errors;
    nody_encoding_t encoding = NODY_UTF8;
    int asked;
    Stream *self;
    (void)names;
    if (!PyArg_ParseTuple(args, "OOiOO:Stream", &number, &parts, &asked, &pieces, &errors) || (number != Py_None && !take_encoding(number, &encoding)))
        return NULL;
    self = (Stream *)PyType_GenericAlloc(type, 0);
    if (self == NULL)
        return NULL;
    self->part.decoder = nody_decoder(encoding);
    self->each = asked == FAULTS || asked == LOCATED ? FAULTS : PIECES;
    self->part.position = nody_position();
    self->by_mark = number == Py_None;
    if (!take_parts(self, parts) || !maker_begin(&self->part.maker, pieces, errors) || !make_block(&self->part, self->each, BLOCK) ||
        (asked == LOCATED && !make_places(&self->part))) {
        Py_DECREF(self);
        return NULL;
    }
    return (PyObject *)self;
}

/* Takes a part, of which nothing is read yet. Returns 0 with an error. */
static int take_part(Stream *self, PyObject *data) {
    Part *part = &self->part;
    if (!take_bytes(data, &part->view))
        return 0;
    part->read = part->seen = 0;
    if (self->each == FAULTS) {
        close_window(&part->window);
        memset(&part->window, 0, sizeof part->window);
        if (!open_window(&part->window, &part->view))
            return 0;
        part->window.most = SKIPPED;
    }
    part->asked = self->each;
    return 1;
}

/* Whether a block of a file has no bytes. (What is no bytes-like object is rejected later) */
static int is_empty(PyObject *block) {
    Py_buffer view;
    int empty;
    if (PyBytes_CheckExact(block))
        return PyBytes_Size(block) == 0;
    if (!PyObject_CheckBuffer(block) || PyObject_GetBuffer(block, &view, PyBUF_SIMPLE) < 0) {
        PyErr_Clear();
        return 0;
    }
    empty = view.len == 0;
    PyBuffer_Release(&view);
    return empty;
}

/* Calls a function with a size, and returns what it returns. */
static PyObject *call_sized(PyObject *function, Py_ssize_t size) {
    PyObject *number = PyLong_FromSsize_t(size), *made;
    if (number == NULL)
        return NULL;
    made = PyObject_CallFunctionObjArgs(function, number, NULL);
    Py_DECREF(number);
    return made;
}

/* Whether an empty block is the end of the file; -1 with an error. */
static int is_end(Stream *self) {
    PyObject *waits = PyObject_CallFunctionObjArgs(self->waits, NULL);
    int end = waits == NULL ? -1 : PyObject_IsTrue(waits);
    Py_XDECREF(waits);
    return end;
}

/* The next block of a file; NULL at its end, or with an error. None is what a file gives that does not wait, and has no data now. `read1` of
 * a buffered one gives an empty block then, and its `read` gives None. It is C that keeps the block: no signal handler runs in here. */
static PyObject *next_block(Stream *self) {
    PyObject *block = call_sized(self->read, READ_AT_ONCE);
    if (block != NULL && self->again != Py_None && is_empty(block)) {
        int end = is_end(self);
        if (end == 0) {
            Py_DECREF(block);
            block = call_sized(self->again, 1);
        } else if (end < 0) {
            Py_CLEAR(block);
        }
    }
    if (block == Py_None) {
        PyObject *why = Py_BuildValue("is", EAGAIN, "the file has no data now");
        if (why != NULL)
            PyErr_SetObject(PyExc_BlockingIOError, why);
        Py_XDECREF(why);
        Py_CLEAR(block);
    } else if (block != NULL && is_empty(block)) {
        Py_CLEAR(block);
    }
    return block;
}

/* The part that is given, after the bytes in front of it. */
static PyObject *with_front(const Stream *self) {
    size_t held = self->front != NULL ? (size_t)PyBytes_Size(self->front) : 0;
    PyObject *whole;
    Py_buffer view;
    if (!take_bytes(self->given, &view))
        return NULL;
    whole = PyBytes_FromStringAndSize(NULL, (Py_ssize_t)held + view.len);
    if (whole != NULL && held > 0)
        memcpy(PyBytes_AsString(whole), PyBytes_AsString(self->front), held);
    if (whole != NULL && view.len > 0)
        memcpy(PyBytes_AsString(whole) + held, view.buf, (size_t)view.len);
    PyBuffer_Release(&view);
    return whole;
}

/* Looks for a byte order mark. Two bytes tell: a mark of UTF-8 has three, but without one it is UTF-8 too. A single byte that may begin a
 * mark waits in front, and then no part is given. Returns 0 with an error. */
static int look_for_mark(Stream *self) {
    nody_encoding_t encoding = NODY_UTF8;
    PyObject *whole = with_front(self);
    const uint8_t *bytes;
    size_t len;
    if (whole == NULL)
        return 0;
    bytes = (const uint8_t *)PyBytes_AsString(whole), len = (size_t)PyBytes_Size(whole);
    Py_CLEAR(self->given);
    Py_CLEAR(self->front);
    if (len == 0 || (len == 1 && bytes[0] >= 0xFE)) {
        self->front = whole;
        return 1;
    }
    nody_encoding_of_bom(bytes, len, &encoding);
    self->part.decoder = nody_decoder(encoding);
    self->by_mark = 0;
    self->given = whole;
    return 1;
}

/* Gets the next part, unless it is there. Returns 0 at the end, or with an error. */
static int get_part(Stream *self) {
    if (self->given == NULL)
        self->given = self->read != NULL ? next_block(self) : PyIter_Next(self->parts);
    return self->given != NULL;
}

/* Goes to the next part, or after the last one to what is held then. Returns 0 if nothing is left, or with an error. */
static int next_part(Stream *self) {
    Part *part = &self->part;
    part->asked = NOTHING;
    PyBuffer_Release(&part->view); /* (so that a buffer may be filled anew) */
    part->view.len = 0, part->read = 0;
    if (self->parts == NULL && self->read == NULL)
        return 0;
    while (get_part(self)) {
        if (self->by_mark && !look_for_mark(self))
            return 0;
        if (self->given != NULL) {
            if (!take_part(self, self->given))
                return 0;
            Py_CLEAR(self->given);
            return 1;
        }
    }
    if (PyErr_Occurred() || (self->front != NULL && !take_bytes(self->front, &part->view)))
        return 0;
    Py_CLEAR(self->parts);
    Py_CLEAR(self->read);
    part->asked = LAST;
    return 1;
}

static PyObject *next_of_all(Stream *self) {
    do {
        PyObject *made = next_made(&self->part);
        if (made != NULL || PyErr_Occurred())
            return made;
    } while (next_part(self));
    return NULL;
}

static PyObject *stream_next(PyObject *object) {
    Stream *self = (Stream *)object;
    PyObject *made;
    if (__atomic_exchange_n(&self->part.busy, 1, __ATOMIC_ACQUIRE)) {
        PyErr_SetString(PyExc_RuntimeError, "this iterator is in use by another call: give each thread its own");
        return NULL;
    }
    made = next_of_all(self);
    __atomic_store_n(&self->part.busy, 0, __ATOMIC_RELEASE);
    return made;
}

static PyType_Slot stream_slots[] = {{Py_tp_new, stream_new},         {Py_tp_dealloc, stream_dealloc},
                                     {Py_tp_iter, PyObject_SelfIter}, {Py_tp_iternext, stream_next},
                                     {Py_tp_traverse, stream_traverse}, {0, NULL}};
PyType_Spec stream_spec = {"noddychest._noddychest.Stream", sizeof(Stream), 0, Py_TPFLAGS_DEFAULT | Py_TPFLAGS_HAVE_GC, stream_slots};

/* One call at a time. It is kept here since no signal handler runs in here: one that raises would come between a lock that is taken and the
 * `try` that lets it go, and nobody could take that lock again. */
typedef struct {
    PyObject_HEAD
    char busy;
} Turn;

static PyObject *turn_new(PyTypeObject *type, PyObject *args, PyObject *names) {
    (void)names;
    return PyArg_ParseTuple(args, ":Turn") ? PyType_GenericAlloc(type, 0) : NULL;
}

/* take(function, ..): what the function returns for what follows it. */
static PyObject *turn_take(PyObject *object, PyObject *args) {
    Turn *self = (Turn *)object;
    PyObject *function, *rest, *made = NULL;
    if (PyTuple_Size(args) < 1) {
        PyErr_SetString(PyExc_TypeError, "a function is required");
        return NULL;
    }
    function = PyTuple_GetItem(args, 0);
    rest = PyTuple_GetSlice(args, 1, PyTuple_Size(args));
    if (rest == NULL)
        return NULL;
    if (__atomic_exchange_n(&self->busy, 1, __ATOMIC_ACQUIRE)) {
        PyErr_SetString(PyExc_RuntimeError, "this decoder is in use by another call: give each thread its own");
    } else {
        made = PyObject_CallObject(function, rest);
        __atomic_store_n(&self->busy, 0, __ATOMIC_RELEASE);
    }
    Py_DECREF(rest);
    return made;
}

static PyMethodDef turn_methods[] = {{"take", turn_take, METH_VARARGS, NULL}, {NULL, NULL, 0, NULL}};
static PyType_Slot turn_slots[] = {{Py_tp_new, turn_new}, {Py_tp_dealloc, plain_dealloc}, {Py_tp_methods, turn_methods}, {0, NULL}};
PyType_Spec turn_spec = {"noddychest._noddychest.Turn", sizeof(Turn), 0, Py_TPFLAGS_DEFAULT, turn_slots};

/* Pieces as Python has them: see maker.h. */
#include "maker.h"

#define CHARACTERS 256

unsigned long version(void) {
#if defined(Py_LIMITED_API)
    return Py_Version;
#else
    return PY_VERSION_HEX;
#endif
}

/* A tuple of 3.14 keeps its hash, so another piece must not come into it; without the lock nobody knows who has it. */
static int takes_back(void) {
#if defined(Py_GIL_DISABLED)
    return 0;
#else
    return version() < 0x030E0000;
#endif
}

int maker_begin(Maker *maker, PyObject *type, PyObject *errors) {
    if (!PyType_Check(type) || !PyType_IsSubtype((PyTypeObject *)type, &PyTuple_Type) || !PyTuple_Check(errors) ||
        PyTuple_Size(errors) <= NODY_KIND_NONE) {
        PyErr_SetString(PyExc_TypeError, "the type of pieces and a tuple of errors are required");
        return 0;
    }
    maker->type = Py_NewRef(type);
    maker->errors = Py_NewRef(errors);
    for (int i = 0; i < 5; i++)
        if ((maker->lengths[i] = PyLong_FromLong(i)) == NULL)
            return 0;
    return 1;
}

void maker_end(Maker *maker) {
    Py_XDECREF(maker->type);
    Py_XDECREF(maker->errors);
    for (int i = 0; i < 5; i++)
        Py_XDECREF(maker->lengths[i]);
    for (int i = 0; i < 2; i++)
        Py_XDECREF(maker->given[i]);
    Py_XDECREF(maker->line);
    for (int i = 0; i < CHARACTERS && maker->chars != NULL; i++)
        Py_XDECREF(maker->chars[i].string);
    PyMem_Free(maker->chars);
}

typedef struct {
    READER_HEAD
} Reader;

int reader_traverse(PyObject *object, visitproc visit, void *arg) {
    Reader *self = (Reader *)object;
    Py_VISIT(Py_TYPE(object));
    Py_VISIT(self->view.obj);
    Py_VISIT(self->maker.type);
    Py_VISIT(self->maker.errors);
    return 0;
}

void reader_dealloc(PyObject *object) {
    Reader *self = (Reader *)object;
    PyObject_GC_UnTrack(object);
    maker_end(&self->maker);
    PyBuffer_Release(&self->view);
    plain_dealloc(object);
}

static PyObject *character(Maker *maker, uint32_t scalar) {
    Character *it;
    if (maker->chars == NULL && (maker->chars = PyMem_Calloc(CHARACTERS, sizeof *it)) == NULL)
        return PyErr_NoMemory();
    it = &maker->chars[scalar % CHARACTERS];
    if (it->string == NULL || it->scalar != scalar) {
        PyObject *made = PyUnicode_FromOrdinal((int)scalar), *old = it->string;
        if (made == NULL)
            return NULL;
        it->string = made;
        it->scalar = scalar;
        Py_XDECREF(old);
    }
    return Py_NewRef(it->string);
}

/* A number as an int. PyLong_FromLong makes small ones in the fewest steps. */
static PyObject *number(uint64_t it) {
    return it < (1 << 30) ? PyLong_FromLong((long)it) : PyLong_FromUnsignedLongLong(it);
}

/* Puts the length and the error of a piece at an index of a tuple, which may have them still. The tuple may be taken back later. */
static PyObject *finished(Maker *maker, PyObject *tuple, int at, nody_piece_t piece) {
    int turn = maker->turn, fresh = tuple != maker->given[turn];
    if (fresh || piece.len != maker->lens[turn] || piece.kind != maker->kinds[turn]) {
        PyTuple_SetItem(tuple, at, Py_NewRef(maker->lengths[piece.len]));
        PyTuple_SetItem(tuple, at + 1, Py_NewRef(PyTuple_GetItem(maker->errors, piece.kind)));
        maker->lens[turn] = piece.len;
        maker->kinds[turn] = piece.kind;
    }
    if (!fresh)
        return Py_NewRef(tuple);
    PyObject_GC_UnTrack(tuple); /* nothing in a piece leads back to it; a list of a million is then no work for the collector */
    if (takes_back()) {
        Py_XDECREF(maker->given[turn]);
        maker->given[turn] = Py_NewRef(tuple);
    }
    return tuple;
}

PyObject *make_piece(Maker *maker, size_t offset, nody_piece_t piece) {
    int turn = maker->turn ^= 1;
    PyObject **given = &maker->given[turn], *place, *it, *tuple;
    int fresh = *given == NULL || Py_REFCNT(*given) != 1;
    /* (the tuple is made last: the collector may run code of others then, and nothing fails after it) */
    place = number(offset);
    it = place == NULL ? NULL : piece.kind == NODY_KIND_OK ? character(maker, piece.scalar) : Py_NewRef(Py_None);
    tuple = it == NULL ? NULL : fresh ? PyType_GenericAlloc((PyTypeObject *)maker->type, 4) : *given;
    if (tuple == NULL) {
        Py_XDECREF(place);
        Py_XDECREF(it);
        return NULL;
    }
    PyTuple_SetItem(tuple, 0, place);
    PyTuple_SetItem(tuple, 1, it);
    return finished(maker, tuple, 2, piece);
}

/* The line of the next fault is put into the maker, unless it is that of the last one. */
static int has_line(Maker *maker, uint64_t line) {
    PyObject *made;
    if (maker->line != NULL && maker->line_number == line)
        return 1;
    made = number(line);
    if (made == NULL)
        return 0;
    Py_XDECREF(maker->line);
    maker->line = made, maker->line_number = line;
    return 1;
}

PyObject *make_located(Maker *maker, uint64_t offset, nody_piece_t piece, const nody_position_t *position) {
    int turn = maker->turn ^= 1, has_all = has_line(maker, position->line);
    PyObject *place, *column, *bytes, *tuple = maker->given[turn];
    int fresh = tuple == NULL || Py_REFCNT(tuple) != 1;
    /* (the tuple is made last, as above) */
    place = has_all ? number(offset) : NULL;
    column = place == NULL ? NULL : number(position->column);
    bytes = column == NULL ? NULL : position->byte_column == position->column ? Py_NewRef(column) : number(position->byte_column);
    tuple = bytes == NULL ? NULL : fresh ? PyType_GenericAlloc((PyTypeObject *)maker->type, 6) : tuple;
    if (tuple == NULL) {
        Py_XDECREF(place);
        Py_XDECREF(column);
        Py_XDECREF(bytes);
        return NULL;
    }
    PyTuple_SetItem(tuple, 0, place);
    if (fresh || maker->lines[turn] != position->line) {
        PyTuple_SetItem(tuple, 1, Py_NewRef(maker->line));
        maker->lines[turn] = position->line;
    }
    PyTuple_SetItem(tuple, 2, column);
    PyTuple_SetItem(tuple, 3, bytes);
    return finished(maker, tuple, 4, piece);
}

/* Pieces as Python has them. */
#ifndef MAKER_H
#define MAKER_H

#include "views.h"

/* The version of the interpreter, which may be later than that of its headers. */
unsigned long version(void);

typedef struct {
    uint32_t scalar;
    PyObject *string;
} Character;

/* Makes pieces. As zip() and enumerate() do, it takes back a tuple that nobody else has any more, and puts the next piece into it:
 * that doubles the speed of a loop over pieces. A caller has one piece while it asks for the next, so two go round. */
typedef struct {
    PyObject *type, *errors, *lengths[5];
    PyObject *given[2];
    size_t lens[2];
    nody_kind_t kinds[2];
    uint64_t lines[2];
    int turn;
    PyObject *line; /* of the last fault with a position, and its number: many faults are in one line */
    uint64_t line_number;
    Character *chars; /* those that were made, each at its last eight bits; NULL before the first */
} Maker;

/* Takes the type of pieces, and the tuple of errors by their numbers. Returns 0 with an error; maker_end is due then too. */
int maker_begin(Maker *maker, PyObject *type, PyObject *errors);
void maker_end(Maker *maker);

/* Returns NULL if it fails, before any other code has run: the caller puts the piece back, and nothing is lost. */
PyObject *make_piece(Maker *maker, size_t offset, nody_piece_t piece);

/* A fault with its position: a tuple of six. All pieces of a maker have their position, or none has. */
PyObject *make_located(Maker *maker, uint64_t offset, nody_piece_t piece, const nody_position_t *position);

/* ---- iterators over pieces ---- */

/* How each of them begins. */
#define READER_HEAD \
    PyObject_HEAD   \
    Py_buffer view; \
    Maker maker;

/* What the collector of garbage sees of one: its bytes may be those of an object that has the iterator. (It has nothing but what was there
 * before it; so in each circle there is another object that breaks it) */
int reader_traverse(PyObject *object, visitproc visit, void *arg);

/* Lets go what each of them has, and frees it. */
void reader_dealloc(PyObject *object);

#endif

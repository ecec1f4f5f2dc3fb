/* Lengths and counts of text, vectorised. */
#ifndef LENGTHS_H
#define LENGTHS_H

#include "noddychest.h"

/* The least length of an input in another encoding, whatever is invalid in it: the exact length, if it is valid and has few characters
 * above U+FFFF. It is the capacity of the first allocation. */
size_t least_recoded(nody_encoding_t from, nody_encoding_t to, const uint8_t *in, size_t len);

/* How many of the characters are U+000A, also in text that is not valid. */
size_t line_count(nody_encoding_t encoding, const uint8_t *bytes, size_t len);

#endif

/* The names of encodings: the labels of the Encoding Standard (https://encoding.spec.whatwg.org/#names-and-labels), and the names that
 * nody-pieces and nody-recode take. */
#include "nody.h"

#include <string.h>
#include <strings.h>

static const struct {
    const char *label;
    nody_encoding_t encoding;
} labels[] = {
    {"utf-8", NODY_UTF8},
    {"utf8", NODY_UTF8},
    {"unicode-1-1-utf-8", NODY_UTF8},
    {"unicode11utf8", NODY_UTF8},
    {"unicode20utf8", NODY_UTF8},
    {"x-unicode20utf8", NODY_UTF8},
    {"utf-16", NODY_UTF16LE},
    {"utf-16le", NODY_UTF16LE},
    {"utf16le", NODY_UTF16LE},
    {"csunicode", NODY_UTF16LE},
    {"iso-10646-ucs-2", NODY_UTF16LE},
    {"ucs-2", NODY_UTF16LE},
    {"unicode", NODY_UTF16LE},
    {"unicodefeff", NODY_UTF16LE},
    {"utf-16be", NODY_UTF16BE},
    {"utf16be", NODY_UTF16BE},
    {"unicodefffe", NODY_UTF16BE},
};

/* (the standard allows white space around a label) */
bool encoding_of_label(const char *label, nody_encoding_t *encoding) {
    static const char blanks[] = "\t\n\f\r ";
    label += strspn(label, blanks);
    size_t len = strlen(label);
    while (len > 0 && strchr(blanks, label[len - 1])) len--;
    for (size_t i = 0; i < sizeof labels / sizeof *labels; i++)
        if (strlen(labels[i].label) == len && strncasecmp(labels[i].label, label, len) == 0) {
            *encoding = labels[i].encoding;
            return true;
        }
    return false;
}

const char *name_of_encoding(nody_encoding_t encoding) {
    static const char *const names[] = {"UTF-8", "UTF-16LE", "UTF-16BE"};
    return names[encoding];
}

/* What an invalid piece is called: in UTF-16 it is a unit, or a byte at the end. */
const char *noun_of_invalid(nody_encoding_t encoding, uint64_t count) {
    if (encoding == NODY_UTF8) return count == 1 ? "invalid byte" : "invalid bytes";
    return count == 1 ? "invalid unit" : "invalid units";
}

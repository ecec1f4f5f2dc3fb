/* Transcodes standard input in blocks, as the program `recode` does: recode FROM TO, each utf8, utf16le or utf16be. The status is 2
 * for wrong arguments, and 3 if a read or a write failed. */
#include "noddychest.h"

#include <stdio.h>
#include <string.h>

enum { BLOCK = 4096, NO_ENCODING = 3 };

static nody_encoding_t encoding_of(const char *name) {
    if (strcmp(name, "utf8") == 0) return NODY_UTF8;
    if (strcmp(name, "utf16le") == 0) return NODY_UTF16LE;
    if (strcmp(name, "utf16be") == 0) return NODY_UTF16BE;
    return (nody_encoding_t)NO_ENCODING;
}

static int fails(const char *why) {
    fprintf(stderr, "recode: cannot %s\n", why);
    return 3;
}

int main(int argc, char **argv) {
    uint8_t in[BLOCK], out[BLOCK];
    nody_status_t status;
    size_t len, read, written;
    if (argc != 3 || encoding_of(argv[1]) == NO_ENCODING || encoding_of(argv[2]) == NO_ENCODING) {
        fprintf(stderr, "usage: %s FROM TO <FILE, each of utf8, utf16le, utf16be\n", argv[0]);
        return 2;
    }
    nody_recoder_t recoder = nody_recoder(encoding_of(argv[1]), encoding_of(argv[2]));
    while ((len = fread(in, 1, sizeof in, stdin)) > 0) {
        size_t place = 0;
        do {
            status = nody_recoder_feed(&recoder, in + place, len - place, out, sizeof out, &read, &written);
            if (fwrite(out, 1, written, stdout) < written) return fails("write");
            place += read;
        } while (status == NODY_STATUS_FULL);
    }
    if (ferror(stdin)) return fails("read");
    do {
        status = nody_recoder_finish(&recoder, out, sizeof out, &written);
        if (fwrite(out, 1, written, stdout) < written) return fails("write");
    } while (status == NODY_STATUS_FULL);
    return fflush(stdout) == 0 ? 0 : fails("write");
}

/* Shows constants of each enum of noddychest.h on streams of C++, which have to show numbers and no bytes. The header is included as
 * many a program includes those of C. */
extern "C" {
#include "noddychest.h"
}

#include <iostream>
#include <sstream>

int main() {
    const uint8_t bytes[] = {0xE2, 0x82, 0x41};
    nody_piece_t piece = nody_utf8_first(bytes, sizeof bytes);
    std::ostringstream text;
    text << piece.kind << ' ' << NODY_UTF16BE << ' ' << NODY_STATUS_FULL;
    std::ostream &out = std::cout;
    out << piece.kind << ' ' << nody_encoding_t(NODY_UTF16BE) << ' ' << NODY_STATUS_FULL << ' ' << text.str() << ' ';
    (std::ostringstream() << piece.kind).swap(text);
    std::cout << text.str() << '\n';
    /* (what is no stream is shifted as before) */
    int shifted = 1;
    return (shifted << NODY_STATUS_FULL) == 2 && 1 << piece.kind == 16 ? 0 : 1;
}

// Lists the pieces of standard input by noddychest.hpp: offset, length, and scalar or error. C++17. The status is 1 if there is a
// fault, 2 for wrong arguments, and 3 if a read or a write failed.
#include "noddychest.hpp"

#include <cstdio>
#include <iostream>
#include <iterator>
#include <string>

static int fails(const char *why) {
    std::fprintf(stderr, "cpp: cannot %s\n", why);
    return 3;
}

int main(int argc, char **argv) {
    if (argc > 1) {
        std::fprintf(stderr, "usage: %s <FILE\n", argv[0]);
        return 2;
    }
    const std::string text{std::istreambuf_iterator<char>(std::cin), std::istreambuf_iterator<char>()};
    if (std::cin.bad()) return fails("read");
    for (const nody::piece &it : nody::pieces(text)) {
        std::printf("%zu %zu ", it.offset, it.length);
        if (it.is_ok()) std::printf("%06lx\n", static_cast<unsigned long>(it.scalar));
        else std::puts(nody::name(it.kind).data());
    }
    if (std::fflush(stdout) != 0 || std::ferror(stdout)) return fails("write");
    return !nody::is_valid(text);
}

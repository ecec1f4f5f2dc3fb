# What the scripts of this folder share; they source it from the top of the repository.
# shellcheck shell=sh

has() { command -v "$1" >/dev/null 2>&1; }

# The version, which only the header has.
version() {
    awk '/^#define NODY_VERSION_(MAJOR|MINOR|PATCH) / { out = out dot $3; dot = "." } END { print out }' c/noddychest.h
}

# The build time of packages, in seconds: that of the last commit, or if git has none, as in a folder of another user,
# that of the header's file.
epoch() {
    if [ -n "${SOURCE_DATE_EPOCH-}" ]; then
        echo "$SOURCE_DATE_EPOCH"
    elif [ -e .git ] && has git && git log -1 --format=%ct 2>/dev/null; then
        :
    else
        stat -c %Y c/noddychest.h
    fi
}

# A compiler for x86_64 or aarch64 that links; nothing if there is none.
compiler() {
    for it in "${CC:-cc}" "$1-linux-gnu-gcc" "clang --target=$1-linux-gnu"; do
        # shellcheck disable=SC2086
        if has ${it%% *} && case $($it -dumpmachine 2>/dev/null) in "$1"-*) true ;; *) false ;; esac &&
            echo 'int main(void) { return 0; }' | $it -x c - -o /dev/null 2>/dev/null; then
            echo "$it"
            return
        fi
    done
}

# A tool of the binutils for that compiler.
tool() {
    # shellcheck disable=SC2086
    for it in "$($2 -print-prog-name="$1")" "llvm-$1"; do
        if has "$it"; then
            echo "$it"
            return
        fi
    done
}

# Builds with that compiler in a folder, and installs below another: `installed COMPILER BUILD DESTDIR PREFIX LIBDIR LDFLAGS`.
installed() {
    # (options that this script's own make was given are not for this build)
    env -u MAKEFLAGS -u MAKEOVERRIDES make -s BUILD="$2" CC="$1" CFLAGS="-O2 -fstack-protector-strong" CPPFLAGS="-D_FORTIFY_SOURCE=2" \
        LDFLAGS="-Wl,-z,relro,-z,now $6" PREFIX="$4" LIBDIR="$5" DESTDIR="$3" install >&2
}

# Packs the man pages that make installed: `pack_pages DESTDIR PREFIX`.
pack_pages() {
    gzip -9n "$1$2"/share/man/man1/*.1
}

# Sets equal times and modes for all files of a folder.
level() {
    chmod -R u=rwX,go=rX "$1"
    find "$1" -exec touch -h -d "@$(epoch)" {} +
}

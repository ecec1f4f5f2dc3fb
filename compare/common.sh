# What the scripts of this folder share that ask the Rust crate. They set `name` to their own.
unset CDPATH
compare_folder=$(cd "$(dirname "${BASH_SOURCE[0]}")" && pwd)
root_folder=$(dirname "$compare_folder")
source "$root_folder/scripts/build.sh"

# The comment at the head of the script that sources this, and its usage.
if [ "${1-}" = --help ] || [ "${1-}" = -h ]; then
    sed -n '2,/^set/{/^set/d;s/^# \{0,1\}//p}' "$0"
    grep -m 1 -o 'usage: [^"]*' "$0"
    exit 0
fi

die() {
    echo "$name: $*" >&2
    exit 2
}

# need_number OPTION NUMBER: a whole number.
need_number() {
    [[ "$2" =~ ^[0-9]{1,18}$ ]] || die "$1 asks for a number, not '$2'"
}

# The Rust crate's sources as they are. Its manifest is replaced: it may name crates that only its own
# tests and options use, and Cargo would look for them.
copy_crate() {
    mkdir "$work/encode_unicode"
    cp -R "$1/src" "$work/encode_unicode/src"
    cat >"$work/encode_unicode/Cargo.toml" <<MANIFEST
[package]
name = "encode_unicode"
version = "1.0.0"
edition = "2021"
[features]
default = ["std"]
std = []
MANIFEST
}

# prepare PATH: the library for C, and in `work`, which is new and goes when the script ends, the Rust crate and a copy of this folder,
# side by side. The copy names the crate for Cargo where it is.
prepare() {
    [ -f "$1/src/lib.rs" ] || die "no Rust crate in $1"
    command -v cargo >/dev/null || die "cargo is not on the path"
    work=$(mktemp -d)
    trap 'rm -rf "$work"' EXIT
    build_library || exit 2
    copy_crate "$1"
    cp -R "$compare_folder" "$work/compare"
    sed -i "s|\"\.\./rust\"|\"$root_folder/rust\"|" "$work/compare/Cargo.toml"
}

# run_cargo COMMAND ARGUMENTS: cargo in that copy of this folder.
run_cargo() {
    local command=$1
    shift
    if ! (cd "$work/compare" && LIBRARY_FOLDER="$root_folder/build" \
        cargo "$command" --release --offline --target-dir "$work/target" "$@" >"$work/log" 2>&1); then
        cat "$work/log" >&2
        die "the comparison could not be built"
    fi
}

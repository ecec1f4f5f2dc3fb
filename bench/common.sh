# What the scripts of this folder share. They set `name` to their own.
unset CDPATH
bench_folder=$(cd "$(dirname "${BASH_SOURCE[0]}")" && pwd)
root_folder=$(dirname "$bench_folder")
source "$root_folder/scripts/build.sh"

# The comment at the head of the script that sources this, and its usage.
if [ "${1-}" = --help ] || [ "${1-}" = -h ]; then
    sed -n '2,/^set/{/^set/d;s/^# \{0,1\}//p}' "$0"
    grep -m 1 -o 'usage: [^"]*' "$0"
    exit 0
fi

die() {
    echo "$name: $*" >&2
    exit 2
}

# A whole number above 0.
need_number() {
    [[ "$2" =~ ^[1-9][0-9]{0,11}$ ]] || die "$1 asks for a number above 0, not '$2'"
}

# run_cargo ARGUMENTS: cargo in the copy of this folder. The CPU is the least one that the library for C takes.
run_cargo() {
    if ! (cd "$work_folder/bench" && LIBRARY_FOLDER="$root_folder/build" \
        RUSTFLAGS="-C target-cpu=x86-64-v2" CARGO_TARGET_DIR="$work_folder/target" \
        cargo "$@" >"$work_folder/cargo.log" 2>&1); then
        cat "$work_folder/cargo.log" >&2
        die "the Rust programs could not be built"
    fi
}

# The peers, and what they use, are of Debian's packages; REGISTRY is the folder in which they are, if it is not Debian's.
peers=(bstr encoding_rs simdutf8 memchr cfg-if)
registry=${REGISTRY:-/usr/share/cargo/registry}

# Stops if one of them is missing, and names the packages. What takes minutes comes after this.
need_peers() {
    local crate missing=()
    for crate in "${peers[@]}"; do
        compgen -G "$registry/$crate-[0-9]*" >/dev/null || missing+=("librust-${crate//_/-}-dev")
    done
    [ ${#missing[@]} -eq 0 ] || die "peers are missing (apt-get install ${missing[*]})"
}

need_valgrind() {
    command -v valgrind >/dev/null || die "valgrind is not on the path (apt-get install valgrind)"
}

# Copies their sources next to the copy of this folder. The attributes that are taken out of `simdutf8` name a lint that rustc has
# no more, or make rustc's newer warnings errors.
copy_peers() {
    local crate folders
    for crate in "${peers[@]}"; do
        folders=("$registry/$crate"-[0-9]*)
        cp -r "${folders[0]}" "$work_folder/$crate"
    done
    find "$work_folder/simdutf8/src" -name '*.rs' -exec sed -i '/#\[allow(const_err)\]/d; /#!\[deny(warnings)\]/d' {} +
}

# Builds the Rust programs in a temporary folder next to a copy of the Rust crate, and sets `programs`. Where BENCH_FOLDER
# names a folder, they are built there once, and stay for the next script: as long as no source changes.
build_programs() {
    local rust_crate=$1
    [ -f "$rust_crate/Cargo.toml" ] || die "no Rust crate in '$rust_crate': there is no Cargo.toml"
    command -v cargo >/dev/null || die "cargo is not on the path"
    need_peers
    build_library || exit 2
    work_folder=${BENCH_FOLDER:-$(mktemp -d)}
    [ -n "${BENCH_FOLDER-}" ] || trap 'rm -rf "$work_folder"' EXIT
    rm -f "$work_folder"/{raw,counts,times_?}
    [ -d "$work_folder/encode_unicode" ] || copy_sources "$rust_crate"
    run_cargo build --release --offline
    programs="$work_folder/target/release"
}

copy_sources() {
    mkdir -p "$work_folder/bench"
    cp -r "$bench_folder"/{Cargo.toml,build.rs,passages.txt,src} "$work_folder/bench/"
    sed -i "s|\"\.\./rust\"|\"$root_folder/rust\"|" "$work_folder/bench/Cargo.toml"
    copy_peers
    mkdir "$work_folder/encode_unicode"
    tar -C "$1" --exclude=./target --exclude=./.git -cf - . | tar -C "$work_folder/encode_unicode" -xf -
}

# time_at_places PROGRAM WORDS..: links the program at four places, 16 bytes apart, runs it with these words at each,
# and keeps what it printed in times_0 to times_3. Where a loop lies decides a good part of its time: on some CPUs
# a branch over a line of 32 bytes is slow. Sets `differs` if the program's status is not 0.
time_at_places() {
    local program=$1 place
    shift
    for place in 0 1 2 3; do
        run_cargo rustc --release --offline --bin "$program" -- -C "link-arg=-Wl,-Ttext=$((0x1000000 + 16 * place))"
        "$programs/$program" "$@" >"$work_folder/times_$place" || differs=1
    done
}

# What `count_run` counts: instructions, or mispredictions.
counted=instructions

# count_run COMMAND WORDS..: runs it under callgrind, and sets `told` to its output and `count` to its instructions, or to
# a thousand times the branches that valgrind's predictor mispredicts.
count_run() {
    local log="$work_folder/callgrind.log" options=() conditional indirect
    [ "$counted" = instructions ] || options=(--branch-sim=yes)
    told=$(valgrind --tool=callgrind --callgrind-out-file=/dev/null "${options[@]}" "$@" 2>"$log" </dev/null) \
        || { cat "$log" >&2 && die "valgrind failed"; }
    read -r count _ conditional _ indirect < <(sed -n 's/^==[0-9]*== Collected : //p' "$log")
    [ -n "$count" ] || die "callgrind told no count"
    [ "$counted" = instructions ] || count=$((1000 * (conditional + indirect)))
}

# say_count ROW COUNT AMONG: the raw line of a row and a side. A count is below 0 if a run with no call had more mispredictions.
say_count() {
    awk -v row="$1" -v count="$2" -v among="$3" 'BEGIN { printf "%s %.5f\n", row, (count < 0 ? 0 : count) / among }'
}

# Proves and builds what a crate makes, if it is not there or older than a source. Sourced by the scripts
# that need a program or a static library; they set `name`, with which their messages begin.
unset CDPATH
top_folder=$(cd "$(dirname "${BASH_SOURCE[0]}")/.." && pwd)

# Whether the file is missing, or older than some source of the crates.
is_stale() {
    [ ! -e "$1" ] && return 0
    [ -n "$(find "$top_folder/crates" -name out -prune -o \( -name '*.rt' -o -name '*.antt' \) -newer "$1" -print -quit)" ]
}

# The crate and those that it is built on, each after those that it uses. Crates that the list does not have are
# the toolchain's, and are built already.
crates_up_to() {
    awk -v top="$1" '
        function visit(crate, used, count, i) {
            if (!(crate in uses) || seen[crate]++) return
            count = split(uses[crate], used, " ")
            for (i = 1; i <= count; i++) visit(used[i])
            print crate
        }
        /^[^#]/ { split($0, sides, ":"); split(sides[1], words, " "); uses[words[1]] = sides[2] }
        END { visit(top) }
    ' "$top_folder/crates.txt"
}

# run_rt CRATE COMMAND [FILE]: rt on one crate, on all CPUs. It has failed if its status is not 0, or, if it
# makes FILE, that is not there: a program that is built is also run, and may end with any status. What it prints is then
# shown.
run_rt() {
    local folder="$top_folder/crates/$1" log status=0
    log=$(mktemp)
    (cd "$folder" && rt "$2" --jobs "$(nproc)" </dev/null >"$log" 2>&1) || status=$?
    if [ $# -eq 3 ]; then
        [ -e "$folder/out/$3" ] && status=0 || status=1
    fi
    [ "$status" -eq 0 ] || cat "$log" >&2
    rm -f "$log"
    return "$status"
}

# Makes build/libnoddychest.a of generated/. The status is 1 if it could not be built.
build_library() {
    if ! command -v make >/dev/null || ! command -v "${CC:-cc}" >/dev/null; then
        echo "$name: no C compiler is there (make and cc)" >&2
        return 1
    fi
    make -s -C "$top_folder" BUILD=build build/libnoddychest.a >&2
}

# build_crate CRATE COMMAND FILE WHAT: by `rt COMMAND`, which makes FILE in the crate's out/, with the crates below
# it first. Messages call it WHAT. The status is 1 if it could not be built.
build_crate() {
    local top=$1 command=$2 made=$3 what=$4 file="$top_folder/crates/$1/out/$3" crate crates left
    is_stale "$file" || return 0
    if ! command -v rt >/dev/null; then
        echo "$name: rt, the kit's command, is not on the path" >&2
        return 1
    fi
    rm -f "$file"
    mapfile -t crates < <(crates_up_to "$top")
    left=${#crates[@]}
    echo "$name: building $what takes about ten minutes the first time: $left crates are proved" >&2
    for crate in "${crates[@]}"; do
        if [ "$crate" = "$top" ]; then
            run_rt "$crate" "$command" "$made" || break
        else
            run_rt "$crate" lib || break
        fi
        left=$((left - 1))
        echo "$name: $crate is proved, $left left" >&2
    done
    if [ "$left" -gt 0 ]; then
        echo "$name: $what could not be built: $crate failed" >&2
        return 1
    fi
    touch "$file"
}

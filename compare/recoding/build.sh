# Builds the comparison of transcoding as "$work/recode", with `encoding_rs` if Debian's package of its source is installed.
# Sourced by the scripts that need it, which set `name`, `here`, `top` and `work`.

# The newest folder of a crate's source, or nothing.
source_of() {
    # (there may be no such folder, and then no source)
    { find /usr/share/cargo/registry -maxdepth 1 -name "$1-[0-9]*" 2>/dev/null || true; } | sort -V | tail -n 1
}

# build_rust LOG ARGUMENTS: rustc, for the fastest code.
build_rust() {
    rustc -O --out-dir "$work" -L "$work" "$@" >>"$work/log" 2>&1
}

# Sets `peer` to rustc's options for `encoding_rs`.
build_peer() {
    local encoding cfg_if
    peer=()
    encoding=$(source_of encoding_rs)
    cfg_if=$(source_of cfg-if)
    if [ -z "$encoding" ] || [ -z "$cfg_if" ]; then
        echo "$name: left out: encoding_rs (apt-get install librust-encoding-rs-dev librust-cfg-if-dev)"
        return
    fi
    if build_rust --edition 2018 --crate-type rlib --crate-name cfg_if --cap-lints allow "$cfg_if/src/lib.rs" \
        && build_rust --edition 2018 --crate-type rlib --crate-name encoding_rs --cfg 'feature="alloc"' \
            --extern "cfg_if=$work/libcfg_if.rlib" --cap-lints allow "$encoding/src/lib.rs"; then
        peer=(--cfg encoding_rs --extern "encoding_rs=$work/libencoding_rs.rlib")
    else
        cat "$work/log" >&2
        echo "$name: encoding_rs could not be built" >&2
        exit 2
    fi
}

build_comparison() {
    build_library || exit 2
    build_peer
    if ! build_rust --edition 2021 --check-cfg 'cfg(encoding_rs)' "${peer[@]}" "$here/recoding/recode.rs" \
        -L "native=$top/build" -l static=noddychest; then
        cat "$work/log" >&2
        echo "$name: the comparison could not be built" >&2
        exit 2
    fi
}

# What the commands of this repository need to build. `root` is its folder.

# Waits until no other command builds here, or holds the file named, and lets none before `unlock` or the end: neither `rt` nor apt-get expects another at
# its files.
lock() {
    held=${1-$root/crates.txt}
    exec 9<"$held"
    flock -n 9 && return
    printf '%s: waiting for another command at work\n' "$name" >&2
    flock 9 || fail "$held cannot be locked"
}

unlock() {
    exec 9<&-
}

# Writes a file, or standard input for `-`, to its place whole, whoever reads the old one: replace MODE PLACE FILE
replace() {
    (umask 022 && mkdir -p -- "${2%/*}") || fail "${2%/*} cannot be made"
    [ ! -d "$2" ] || fail "$2 is a folder"
    new=$(mktemp -- "$2.XXXXXX") || fail "$2 cannot be written"
    cat "$3" >"$new" && chmod "$1" "$new" && mv -f -- "$new" "$2" && return
    rm -f -- "$new"
    fail "$2 cannot be written"
}

# The checksum of these files and all files of these folders, but for what `rt`, cargo and ./setup make there: checksum PATH...
checksum() {
    listed=$(
        cd "$root" &&
            find "$@" \( -path 'crates/*/out' -o -path command/.cargo -o -path command/Cargo.lock -o -path command/target -o -path volefleece-rs/target \) -prune \
                -o -type f -exec sha256sum {} +
    ) || return
    printf '%s\n' "$listed" | LC_ALL=C sort | sha256sum
}

# What FILE.built has where FILE was built from those sources and is still what was built: state SOURCES FILE
state() {
    printf '%s %s\n' "$1" "$(sha256sum <"$2")"
}

# Whether `file` is built from `sources`, files and folders; `from` is their checksum.
is_built() {
    from=$(checksum $sources) || fail 'the sources cannot be read'
    [ -f "$file" ] && [ -f "$file.built" ] && [ "$(cat "$file.built")" = "$(state "$from" "$file")" ]
}

# Whether `file` was built from these sources and is another file now, or none: `rt` and cargo would still take it for built.
is_spoilt() {
    case $(cat "$file.built" 2>/dev/null) in
    "$from "*) ;;
    *) return 1 ;;
    esac
}

# Has a function build `file` unless it is built from `sources` as they are now: renew FUNCTION ARGUMENT...
renew() {
    is_built && return
    lock
    if ! is_built; then
        "$@" </dev/null
        state "$from" "$file" >"$file.built" || fail "$file.built cannot be written"
    fi
    unlock
}

# In a crate's folder, has `rt` prove the crate and build it: in_crate lib|run CRATE
in_crate() (
    cd "$root/crates/$2" && exec rt "$1"
)

# `rt` leaves what it builds in the crate's folder `out`, and `file` is a copy. It runs a program once too, in the crate's folder: what that writes is no answer.
by_rt() {
    command -v rt >/dev/null || fail "$file is not built from these sources, and to build it the kit's rt must be on PATH"
    made=$root/crates/$2/out/${file##*/}
    ! is_spoilt || rm -f "$made" "$made.stamp"
    rm -f "$file.built"
    case $1 in
    lib) mode=644 && in_crate "$@" >&2 ;;
    run) mode=755 && in_crate "$@" >/dev/null ;;
    esac || fail "rt $1 failed in crates/$2"
    replace "$mode" "$file" "$made"
}

# Has `rt` build a crate's archive or program unless it is built from what is there now: build FILE lib|run CRATE
build() {
    file=$root/$1
    sources='KIT crates.txt crates'
    shift
    renew by_rt "$@"
}

# The archive and the folder are these, whatever the caller's environment names.
in_command() (
    unset VOLEFLEECE_LIB_DIR
    cd "$root/command" && exec cargo "$@" --target-dir target
)

by_cargo() {
    "$root/setup" || exit 2
    if is_spoilt; then
        in_command clean --release --package volefleece-command >&2 || fail 'cargo clean failed'
    fi
    rm -f "$file.built"
    in_command build --release >&2 || fail 'cargo build failed'
    [ -f "$file" ] || fail "cargo takes $file for built, and it is missing: remove the folder command/target and try again"
}

# Has cargo build the command, `file` then, unless it is built from what is there now, the archive among it.
build_command() {
    build target/staticlib/libvolefleece.a lib volefleece
    file=$root/command/target/release/volefleece
    sources='target/staticlib/libvolefleece.a command volefleece-rs'
    renew by_cargo
}

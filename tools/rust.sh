#!/usr/bin/env bash
# The Rust and C side of the register: installs what is missing, once, and runs.
#
#   tools/rust.sh test                 the tests of rust/, the examples in the docs included
#   tools/rust.sh replay 200000        the straight version against the static library, event by event
#   tools/rust.sh long                 the same with 10,000,000 events, and 1,000,000 damaged lines and books
#   tools/rust.sh desk [COMMAND]       the desk, or what COMMAND starts, on 300,000 lines, a third of them damaged
#   tools/rust.sh kill [TIMES]         the desk with a journal, killed TIMES (300) at any moment and as often by a power cut
#   tools/rust.sh bench                the tables of docs/SPEED.md
#   tools/rust.sh example              include/example.c, compiled, linked and run
#   tools/rust.sh picture [OPTIONS]    a picture of a run: lines of the desk in, one page out; `picture --help` has its options
#   tools/rust.sh pictures [check]     the pictures of docs/ made again; with `check` they are only compared
#   tools/rust.sh cargo ARGUMENTS      cargo itself, in rust/, with everything set
#   tools/rust.sh archive              only has rt make the archive, target/staticlib/libexport.a
#   tools/rust.sh setup                only install what is missing for these
#
# The archive and the Rattle kit that makes it are for x86-64, and so is this machine. What is missing comes from Debian's
# packages. DEPOT_STATICLIB names another folder for the archive.
set -euo pipefail
unset CDPATH
self=$(readlink -f -- "${BASH_SOURCE[0]}")
root=${self%/tools/*}

fail() { echo "rust.sh: $1" >&2; exit 1; }

usage() {
    sed -n 's/^#define DEPOT_REGISTER_VERSION "\(.*\)"$/depot register \1/p' "$root/include/depot_register.h"
    sed -n '2,/^[^#]/s/^# \{0,1\}//p' "$self"
}

case $#:${1-} in
*:test | *:replay | *:long | *:desk | *:kill | *:bench | *:picture | *:cargo | 1:setup | 1:archive | 1:example | 1:pictures) ;;
2:pictures) [ "$2" = check ] || { echo "rust.sh: pictures takes check, and not $2" >&2; exit 2; } ;;
1:--help | 1:-h) usage; exit 0 ;;
0:) usage >&2; exit 2 ;;
*:setup | *:archive | *:example) { echo "rust.sh: $1 takes no arguments"; usage; } >&2; exit 2 ;;
*) { echo "rust.sh: no command $1"; usage; } >&2; exit 2 ;;
esac
command=$1
shift
if [ -e "$root/target" ]; then locked=$(find "$root/target" -maxdepth 2 ! -writable -print -quit); else locked=$(find "$root" -maxdepth 0 ! -writable); fi
[ -z "$locked" ] || [ "$command" = setup ] || fail "$(id -un) cannot write $locked: please use a clone of your own"

# Installs packages, as root. What apt says goes to a log; its end is shown on a failure only.
install() {
    local as=() log
    command -v apt-get >/dev/null || fail "missing: $*. On a system without apt-get, please install them by hand"
    if [ "$(id -u)" != 0 ]; then
        command -v sudo >/dev/null || fail "missing: $*. Run once as root: $self setup"
        as=(sudo)
    fi
    log=$(mktemp)
    echo "rust.sh: installing, once: $*" >&2
    {
        "${as[@]}" apt-get -o DPkg::Lock::Timeout=300 update &&
            "${as[@]}" env DEBIAN_FRONTEND=noninteractive apt-get -o DPkg::Lock::Timeout=300 install -y --no-install-recommends "$@"
    } >"$log" 2>&1 || { tail -n 15 "$log" >&2; fail "could not install: $* (all of the log: $log)"; }
    rm -f "$log"
}

[ "$(uname -m)" = x86_64 ] || fail "the archive is for x86-64, and this machine is $(uname -m)"
lacks=()
command -v cargo >/dev/null || lacks+=(cargo-web rustc-web)
command -v cc >/dev/null || lacks+=(gcc libc6-dev)
[ ${#lacks[@]} = 0 ] || install "${lacks[@]}"
[ "$command" != setup ] || exit 0

export CARGO_TARGET_DIR=$root/target/rust CARGO_NET_OFFLINE=true
own=$root/target/staticlib
DEPOT_STATICLIB=$(realpath -ms -- "${DEPOT_STATICLIB:-$own}")
export DEPOT_STATICLIB

# Has rt make the repository's own archive. rt says whether what it has proved still holds.
make_archive() {
    command -v rt >/dev/null || fail "target/staticlib/libexport.a is not there or is older than the code, and rt, which makes it, is not on the path"
    echo "rust.sh: making target/staticlib/libexport.a" >&2
    mkdir -p "$own"
    touch "$own/began"
    (cd "$root/crates/export" && rt lib) </dev/null >&2 || fail "rt lib in crates/export made no archive"
    cp "$root/crates/export/out/libexport.a" "$own/libexport.a.new"
    touch -r "$own/began" "$own/libexport.a.new"
    mv -f "$own/libexport.a.new" "$own/libexport.a"
}

# The archive. The repository's own is made if it is not there, or if code is newer.
archive() {
    local archive=$DEPOT_STATICLIB/libexport.a
    if [ "$DEPOT_STATICLIB" != "$own" ]; then
        [ -f "$archive" ] || fail "no libexport.a in $DEPOT_STATICLIB"
    elif [ ! -f "$archive" ] || [ -n "$(find "$root/crates.txt" "$root"/crates/*/src -newer "$archive" -print -quit)" ]; then
        make_archive
    fi
}

# A program of rust/, optimised.
run() {
    local program=$1
    shift
    archive
    cargo run --manifest-path "$root/rust/Cargo.toml" --quiet --release --package "$program" -- "$@"
}

# The library that makes a kill a power cut.
forgets() {
    mkdir -p "$root/target/kill"
    cc -std=gnu99 -Wall -Wextra -Werror -shared -fPIC -O2 "$root/rust/kill/forgets.c" -o "$root/target/kill/forgets.so" ||
        fail "rust/kill/forgets.c does not compile"
    echo "$root/target/kill/forgets.so"
}

# Proves and links the desk and its snapshot, if what they are made of is newer.
programs() { "$root/tools/desk.sh" --make </dev/null >&2 || fail "there is no desk"; }

# One picture of docs/, for a desk and for a telephone: its name, its title; the lines of the desk come in.
drawn() {
    local lines
    lines=$(cat)
    mkdir -p "$(dirname "$made/$1")"
    run picture --svg --title "$2" <<<"$lines" >"$made/$1.svg"
    run picture --svg --phone --title "$2" <<<"$lines" >"$made/$1-phone.svg"
}

# The pictures of docs/: the story of README.md, from its own table, and those of the tour, docs/tour/NAME.desk, each with its title.
pictures() {
    local made=$root/target/pictures lines name title
    rm -rf "$made"
    sed -n '/^## A bearing moves to a new motor/,/^## Where/s/^| `\([^`]*\)` |.*/\1/p' "$root/README.md" | drawn story "A bearing moves to a new motor"
    for lines in "$root"/docs/tour/*.desk; do
        name=$(basename "$lines" .desk)
        title=$(sed -n "s|.*<img src=\"tour/$name.svg\" alt=\"\([^\"]*\)\">.*|\1|p" "$root/docs/TOUR.md")
        [ -n "$title" ] || fail "docs/TOUR.md does not show tour/$name.svg"
        drawn "tour/$name" "$title" <"$lines"
    done
    [ "${1-}" = check ] || cp -R "$made/." "$root/docs/"
    (cd "$made" && find . -name '*.svg') | while IFS= read -r name; do
        cmp "$made/$name" "$root/docs/$name" || fail "docs/${name#./} is not what the program draws: tools/rust.sh pictures makes it again"
    done
    echo "pictures: $(find "$made" -name '*.svg' | wc -l), each to the byte"
}

case $command in
archive)
    [ "$DEPOT_STATICLIB" = "$own" ] || fail "DEPOT_STATICLIB names $DEPOT_STATICLIB, and archive makes that of this repository"
    make_archive
    ;;
test)
    archive
    DEPOT_FORGETS=$(forgets)
    export DEPOT_FORGETS
    cargo test --manifest-path "$root/rust/Cargo.toml" --quiet --release --workspace "$@"
    ;;
replay) run replay "$@" ;;
long) run replay --long "$@" ;;
desk)
    [ $# != 0 ] || set -- "$root/tools/desk.sh"
    lines=$root/target/desk
    run replay --lines "$lines" 300000
    "$@" <"$lines/desk.in" >"$lines/desk.got" || fail "the desk ended with status $?"
    cmp "$lines/desk.out" "$lines/desk.got" || fail "the desk answers otherwise: target/desk/desk.got, and not desk.out"
    echo "desk: every answer to the byte"
    ;;
kill)
    programs
    library=$(forgets)
    kills=(cargo run --manifest-path "$root/rust/Cargo.toml" --quiet --release --package kill -- "$@" "$root/target/bin")
    "${kills[@]}"
    echo "kill: now on a disk that forgets what was not synced"
    "${kills[@]}" env "LD_PRELOAD=$library"
    ;;
picture) run picture "$@" ;;
pictures) pictures "$@" ;;
bench)
    desk=()
    if command -v rt >/dev/null; then
        programs
        desk=(--desk "$root/target/bin/desk")
    fi
    run bench "$@" "${desk[@]}"
    ;;
example)
    archive
    mkdir -p "$root/target/c"
    cc -std=c99 -Wall -Wextra -Werror -pedantic -O2 -I"$root/include" "$root/include/example.c" "$DEPOT_STATICLIB/libexport.a" -o "$root/target/c/example" ||
        fail "include/example.c does not compile or link"
    "$root/target/c/example"
    ;;
cargo)
    cd "$root/rust"
    cargo "$@"
    ;;
esac

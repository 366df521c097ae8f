#!/usr/bin/env bash
# The desk: lines from standard input, one answer line for each to standard output. docs/DESK.md has the lines and the answers.
#
#   tools/desk.sh                      type lines, each is answered at once; Ctrl-D ends
#   tools/desk.sh JOURNAL              the same, and the register is kept in this file, which is made if there is none
#   tools/desk.sh JOURNAL IMAGE        the same; the journal goes on from an image
#   tools/desk.sh --image JOURNAL NEW_IMAGE [IMAGE]
#                                      saves an image of a journal's register to a new file; IMAGE is the one that the journal goes on from
#   tools/desk.sh < crates/desk/stdin  the listing of docs/DESK.md
#   tools/desk.sh --make               only makes the programs, target/bin/desk and target/bin/snapshot
#   tools/desk.sh --help               this text
#
# What has changed of that which the program is made of is proved and linked first; on a terminal each crate is told when its proof begins.
# The program and the Rattle kit that makes it are for x86-64.
set -euo pipefail
unset CDPATH
self=$(readlink -f -- "${BASH_SOURCE[0]}")
root=${self%/tools/*}

fail() { echo "desk.sh: $1" >&2; exit 1; }

# For a person who waits, never for a pipe.
tell() { [ ! -t 2 ] || echo "desk.sh: $1" >&2; }

usage() {
    sed -n 's/^#define DEPOT_REGISTER_VERSION "\(.*\)"$/depot register \1/p' "$root/include/depot_register.h"
    sed -n '2,/^[^#]/s/^# \{0,1\}//p' "$self"
}

program=desk made=(desk)
case $#:${1-} in
1:--help | 1:-h) usage; exit 0 ;;
1:--make)
    made=(desk snapshot)
    shift
    ;;
3:--image | 4:--image)
    program=snapshot made=(snapshot)
    shift
    ;;
*:-*) { echo "desk.sh: no such option, or not as many files as it takes: $1"; usage; } >&2; exit 2 ;;
0: | 1:* | 2:*) ;;
*) { echo "desk.sh: too many files: a journal, and the image that it goes on from"; usage; } >&2; exit 2 ;;
esac

# The files by their whole names, for the folder changes below.
files=()
for file in "$@"; do
    [ -n "$file" ] || { echo "desk.sh: a file has an empty name" >&2; exit 2; }
    [[ $file == /* ]] || file=$PWD/$file
    files+=("$file")
done
[ $program = desk ] || [ ! -e "${files[1]}" ] || fail "${files[1]} is there already: an image is saved to a new file"

# The crates that one stands on and that one, in the order in which rt proves them.
stands_on() {
    awk -v want="$1" '
        function visit(name, below, i, n) {
            if (!(name in deps) || name in seen) return
            seen[name] = 1
            n = split(deps[name], below, " ")
            for (i = 1; i <= n; i++) visit(below[i])
            print name
        }
        { sub(/#.*/, "") }
        /^[A-Za-z_]/ { name = $1; sub(/:.*/, "", name); deps[name] = sub(/^[^:]*:/, "") ? $0 : "" }
        END { visit(want) }' crates.txt
}

# How long a crate's proof took last, if that is known.
last_time() { awk -v name="$1" '$1 == name { s = $2 } END { if (s != "") print " (last time " s " s)" }' target/seconds; }

# Tells each crate that is being proved: rt's log has a line when it begins. One that is done within half a second is not told.
progress() {
    local name last='' i since
    while sleep 0.5; do
        name=$(sed -nE 's/^rt: chose --jobs [0-9]+ for (\S+)$/\1/p' "$log" | tail -n 1)
        [ "$name" != "$last" ] || continue
        [ -z "$last" ] || echo "$last $((SECONDS - since))" >>target/seconds
        last=$name since=$SECONDS
        for i in "${!crates[@]}"; do
            [ "${crates[i]}" != "$name" ] || tell "proving $name, $((i + 1)) of ${#crates[@]}$(last_time "$name")"
        done
    done
}

# Whether a program is older than what it is made of, or made by another kit. Then rt is asked.
is_old() {
    [ -x "target/bin/$1" ] && [ "$(cat "target/bin/$1.kit" 2>/dev/null)" = "$kit" ] || return 0
    [ -n "$(find . \( -path ./.git -o -path ./target -o -path ./rust -o -regex '\./crates/[^/]*/\(out\|must-fail\)' \) -prune -o \
        \( -path ./crates.txt -o -path ./HANDLES -o -path './crates/*/*' \) -newer "target/bin/$1" -print -quit)" ]
}

# Has rt prove and link a program. It runs it too, here on no input; the line before that tells that it is made. The copy stays while rt makes it anew.
make() {
    local log=target/$1.log crates locked watcher=
    locked=$(find crates -maxdepth 2 \( -path 'crates/*/out' -o ! -path 'crates/*/*' \) ! -writable -print -quit)
    [ -z "$locked" ] || fail "$(id -un) cannot write $locked: please use a clone of your own"
    touch target/began
    mapfile -t crates < <(stands_on "$1")
    : >"$log"
    if [ -t 2 ]; then
        progress </dev/null >/dev/null 9>&- &
        watcher=$!
        trap 'kill "$watcher" 2>/dev/null' EXIT
    fi
    (cd "crates/$1" && rt run) </dev/null >"$log" 2>&1 || true
    [ -z "$watcher" ] || { kill "$watcher"; wait "$watcher"; } 2>/dev/null || true
    trap - EXIT
    if ! grep -q "^rt: running out/$1;" "$log"; then
        { grep -E '^\S+:[0-9]+:[0-9]+: error|^fn \S+: (not proved|no proof)|^rt: (the library|mend) ' "$log" || tail -n 5 "$log"; } | cut -c1-300 | sed -n 1,8p >&2
        fail "$1 is not proved; $log has all that rt said"
    fi
    cp "crates/$1/out/$1" "target/bin/$1.new"
    touch -r target/began "target/bin/$1.new"
    mv -f "target/bin/$1.new" "target/bin/$1"
    echo "$kit" >"target/bin/$1.kit"
}

[ "$(uname -m)" = x86_64 ] || fail "the desk and the Rattle kit that makes it are for x86-64, and this machine is $(uname -m)"
command -v rt >/dev/null || fail "rt, which proves and links the desk, is not on the path: it is the command of the Rattle kit"
if [ -e "$root/target" ]; then locked=$(find "$root/target" -maxdepth 2 ! -writable -print -quit); else locked=$(find "$root" -maxdepth 0 ! -writable); fi
[ -z "$locked" ] || fail "$(id -un) cannot write $locked: please use a clone of your own"
cd "$root"
mkdir -p target/bin

# One at a time: two would write the same files.
exec 9>target/desk.lock
flock -n 9 || { tell "waiting for another desk.sh, which is proving"; flock 9; }
touch target/seconds
kit=$(rt version)
for name in "${made[@]}"; do
    if is_old "$name"; then make "$name"; fi
done
[ $SECONDS -lt 5 ] || tell "the desk is proved ($SECONDS s)"
[ ${#made[@]} = 1 ] || exit 0

if [ $program = snapshot ]; then
    target/bin/snapshot "${files[@]}" </dev/null 9>&-
    [ -f "${files[1]}" ] || exit 1 # the program has said why
    exit 0
fi
[ ! -t 0 ] || [ ! -t 2 ] || echo "The desk: S 2 2 4 2 0 1 sets up a register; docs/DESK.md has every line; Ctrl-D ends" >&2
exec target/bin/desk "${files[@]}" 9>&-

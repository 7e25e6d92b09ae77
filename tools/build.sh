#!/usr/bin/env bash
# Proves and builds a program with all crates that it stands on, as the gate does: `rt ci` runs on a copy of their files, without wrong bodies,
# tests and other crates, one job a check where several crates are ready, and builds the libraries as statements, without their proofs. It prints one
# line a crate, and the log of a crate that fails.
# What is proved is kept beside the toolchain on this machine: an interrupted build goes on where it was, and the gate proves none of it again but
# the program's own crate: this ends when LLVM's program is linked, and the gate has Rattle's own compiler build it too and runs both.
# A program of another TOP, which no gate builds, is waited for until it is kept too, so that it isn't proved again when it is built once more.
# usage: tools/build.sh PROGRAM [TOP], with crates.txt and crates/ in TOP (this repository unless given)
set -u
here=$(cd "$(dirname "${BASH_SOURCE[0]}")" && pwd)
. "$here/crates.sh"
fail() {
    printf '%s\n' "$1" >&2
    exit 1
}

# (a function, so that a change of this file meanwhile is of no matter)
main() {
    [ "$#" -ge 1 ] || fail 'usage: tools/build.sh PROGRAM [TOP]'
    program=$1
    top=$(cd "${2:-$here/..}" && pwd -P) || exit 1
    closure_of "$top" "$program" >/dev/null || fail "$program: crates.txt has no such crate"
    [ -f "$top/crates/$program/src/main.rt" ] || fail "$program is a library, and this builds programs: rt ci $program proves it"

    room=$(mktemp -d) && room=$(realpath "$room") || exit 1
    trap 'rm -rf "$room"' EXIT
    # (rt takes it for the top of a repository)
    mkdir -p "$room/copy/.git"
    touch "$room/begun"
    [ ! -e "$top/HANDLES" ] || cp "$top/HANDLES" "$room/copy/"
    take_crates "$top" "$program" "$room/copy" src specs proofs || fail 'the crates could not be copied'
    until=linked
    [ "$#" -eq 1 ] || until=kept
    python3 "$here/build_lines.py" "$room/copy" "$room/first" "$top" "$program" "$until" &
    lines=$!
    trap 'kill "$lines" 2>/dev/null' INT TERM HUP
    wait "$lines"
    status=$?
    # (a signal ends the wait before the process)
    while kill -0 "$lines" 2>/dev/null; do
        wait "$lines"
        status=$?
    done
    [ "$status" -eq 0 ] || exit "$status"

    # A source that was changed meanwhile is newer than the program.
    out=$top/crates/$program/out
    mkdir -p "$out"
    cp "$room/copy/crates/$program/out/$program" "$out/$program.$$" || exit 1
    touch -r "$room/begun" "$out/$program.$$"
    mv -f "$out/$program.$$" "$out/$program"
}
main "$@"; exit

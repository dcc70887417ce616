#!/bin/sh
# run-program.sh [--plain] PROGRAM [ARG..]: runs an x86-64 program, as target/bin/card, with this shell's standard input and output, under
# the kit's loader and C library, and on another machine than x86-64 under the kit's emulator. Those that judge a recording, `checker` and
# `referee`, get an exit status: 0 none, 1 a call, 2 refused or nothing read; an argument, a directory, a closed input and a read that fails
# are refused (tools/release/judged.sh, as in a release). With --plain they are run as they are: one line and no status.
set -eu
. "$(dirname "$0")/words.sh"
plain=
[ "${1:-}" != --plain ] || { plain=yes && shift; }
[ $# -ge 1 ] || refuse 'usage: run-program.sh [--plain] PROGRAM [ARG..]'
[ -f "$1" ] || refuse "no program $1"
find_kit
tools=$kit/toolchain
program=$1
shift
case $program in
*/*) ;;
*) program=./$program ;;
esac

# by COMMAND..: ends with it, and gives the status of a recording if the program judges one
by() {
    name=$(basename "$program")
    case $plain$name in
    checker | referee)
        . "$(dirname "$0")/release/judged.sh"
        judged "$name" "$words" "$@"
        ;;
    *) exec "$@" ;;
    esac
}

words=$#
loader=$tools/lib/ld-linux-x86-64.so.2
emulator=$tools/bin/qemu-x86_64
if [ -x "$emulator" ]; then
    # with erms the emulator runs each long memcpy byte by byte
    by "$emulator" -cpu max,-erms "$loader" --library-path "$tools/lib" "$program" "$@"
fi
by "$loader" --library-path "$tools/lib" "$program" "$@"

#!/bin/sh
# measure-recall.sh: instructions and stack of the engine that only remembers (02, CR 12) on full logs, for docs/MEASURES.md: of the 256th
# call, which goes through 255 kept ones, and of a run of 256 calls from fresh; by kinds of calls (tools/bench/measure-recall.c).
# Instructions are exact, counted by valgrind's callgrind as the difference of two runs, so what is around the calls is not in them. ARCHIVE
# names another archive than libbench.a of the proved crate, as the unproved one of `CRATE=door_bench sh tools/try-archive.sh
# target/try-bench/libbench.a`. Needs x86-64 and valgrind. No part of the gate.
set -eu
. "$(dirname "$0")/words.sh"
no_words "$@"
needs rt valgrind
find_kit
cd "$(dirname "$0")/.."
work=target/measure-recall
mkdir -p "$work"
tools=$kit/toolchain
archive=${ARCHIVE:-target/staticlib/libbench.a}
[ -n "${ARCHIVE:-}" ] || archive "$work/log" bench >"$work/said" 2>&1 || { tail -n 3 "$work/said" >&2; exit 1; }
sh tools/build-driver.sh "$work/measure" tools/bench/measure-recall.c "$archive" -Iinclude

# counted KIND call|run N: the instructions of the whole program
counted() {
    valgrind --tool=callgrind --callgrind-out-file=/dev/null "$tools/lib/ld-linux-x86-64.so.2" --library-path "$tools/lib" \
        "$work/measure" "$@" >"$work/line" 2>"$work/said" || { cat "$work/line" "$work/said" >&2; exit 1; }
    sed -n 's/.*Collected : //p' "$work/said"
}

# took KIND call|run: those of one
took() {
    one=$(counted "$1" "$2" 1)
    two=$(counted "$1" "$2" 2)
    echo $((two - one))
}

echo '| 256 calls | Sessions | The 256th call | A run | Stack |'
echo '|---|---|---|---|---|'
while read -r kind what; do
    call=$(took "$kind" call)
    run=$(took "$kind" run)
    sessions=$(sed 's/ sessions.*//' "$work/line")
    stack=$(sh tools/run-program.sh "$work/measure" "$kind" stack)
    echo "| $what | $sessions | $call | $run | ${stack%% *} |"
done <<END
i lots of 52, 64, 64 and 64 sessions, each played in one tick
n the same, ten over each other
c chains of 10 to 21 sessions, aborted
f chains of 9 to 20 sessions that fail, in ticks
e 120 ended sessions, then ExtendedData_Requests for none of them
d 13 Splice_Requests of 675 descriptors, then Alive_Requests
p opens and closes
END

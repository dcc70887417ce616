#!/bin/sh
# measure-check.sh: instructions and stack of the checker (splicer_check) on recordings of 65,536 bytes, for docs/MEASURES.md. Instructions
# are exact, counted by Debian's qemu-user with tools/measure/insns.c. ARCHIVE names another archive than libbench.a of the proved crate.
# No part of the gate.
set -eu
. "$(dirname "$0")/words.sh"
no_words "$@"
needs rt gcc qemu-x86_64
find_kit
cd "$(dirname "$0")/.."
work=target/measure-check
mkdir -p "$work"
tools=$kit/toolchain
archive=${ARCHIVE:-target/staticlib/libbench.a}
[ -n "${ARCHIVE:-}" ] || archive "$work/log" bench >"$work/said" 2>&1 || { tail -n 3 "$work/said" >&2; exit 1; }
sh tools/build-driver.sh "$work/measure" tools/bench/measure.c "$archive" -Iinclude
gcc -O2 -shared -fPIC tools/measure/insns.c -o "$work/insns.so"

# run [WORD..]: the program, and instructions on standard error
run() {
    qemu-x86_64 -cpu max,-erms -plugin "$work/insns.so" "$tools/lib/ld-linux-x86-64.so.2" --library-path "$tools/lib" "$work/measure" "$@" \
        2>"$work/insns"
}

echo '| 65,536 bytes of | Found | Instructions | Stack |'
echo '|---|---|---|---|'
for kind in 'o opens of one connection' 'p opens and closes in turn' 'r refused opens and their refusals' 't ticks'; do
    run "${kind%% *}" 1 >/dev/null && one=$(sed -n 's/^insns //p' "$work/insns")
    found=$(run "${kind%% *}" 3) && three=$(sed -n 's/^insns //p' "$work/insns")
    stack=$(run "${kind%% *}" 0)
    echo "| ${kind#* } | $found | $(((three - one) / 2)) | $stack |"
done

#!/bin/sh
# measure-cues.sh: instructions and stack of the cue call (02, CR 7) beside a plain one in C (tools/measure/cues.c), after some random
# sections by both, and the bytes of its code; tables for docs/MEASURES.md. Instructions are exact, counted by Debian's qemu-user with
# tools/measure/insns.c. ARCHIVE names another archive than libdoor.a of tools/archives.sh, CALLS another number of random ones. No part of
# the gate.
set -eu
. "$(dirname "$0")/words.sh"
no_words "$@"
needs rt gcc qemu-x86_64
find_kit
cd "$(dirname "$0")/.."
work=target/measure-cues
mkdir -p "$work"
tools=$kit/toolchain
archive=${ARCHIVE:-target/staticlib/libdoor.a}
[ -n "${ARCHIVE:-}" ] || archive "$work/log" door >"$work/said" 2>&1 || { tail -n 3 "$work/said" >&2; exit 1; }
sh tools/build-driver.sh "$work/cues" tools/measure/cues.c "$archive" -Iinclude
gcc -O2 -shared -fPIC tools/measure/insns.c -o "$work/insns.so"
objdump=$(command -v x86_64-linux-gnu-objdump || command -v objdump)

for seed in 1 2 3; do
    sh tools/run-program.sh "$work/cues" agree $seed "${CALLS:-100000}"
done

# counted WHO CASE DO: the instructions of 200 calls and all that is around them
counted() {
    qemu-x86_64 -cpu max,-erms -plugin "$work/insns.so" "$tools/lib/ld-linux-x86-64.so.2" --library-path "$tools/lib" "$work/cues" \
        count "$1" "$2" 200 "$3" 2>&1 >/dev/null |
        sed -n 's/^insns //p'
}

# call WHO CASE
call() { echo $((($(counted "$1" "$2" 1) - $(counted "$1" "$2" 0) + 100) / 200)); }

echo
echo '| Cue call | Core | C | Core/C | Stack, core : C |'
echo '|---|---|---|---|---|'
for row in '50 a section of 50 bytes to four connections' '512 of 512 bytes to four' \
    'bad of 50 bytes with a wrong CRC_32, 117 to four' 'none of 50 bytes, nobody initialised'; do
    a=$(call core "${row%% *}")
    b=$(call c "${row%% *}")
    s=$(sh tools/run-program.sh "$work/cues" stack "${row%% *}")
    echo "| ${row#* } | $a | $b | $(awk "BEGIN { printf \"%.2f\", $a / $b }") | ${s% *} : ${s#* } |"
done
echo
long=$(call core 512)
short=$(call core none)
echo "The register of C: $((($(call c crc512) - $(call c crc50)) * 100 / 462 / 8)) hundredths of an instruction a bit"
bit=$(((long - $(call core 50)) * 100 / 462 / 8))
echo "A bit of a section more, the core (copies to four connections included): $bit hundredths; nobody initialised, 50 bytes: $short"
echo
code=$((0x$("$objdump" -h "$archive" | awk '$2 == ".text.splicer_7_cue" { print $3 }')))
constants=$("$objdump" -h "$archive" | grep -c 'rodata.*cue' || true)
echo "Code of splicer_7_cue, all that it takes into itself: $code bytes; constants of its own: $constants"

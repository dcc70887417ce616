#!/bin/sh
# measure-reads.sh: instructions of the reads for drivers, of the idle tick and of the idle reading, by how many have started and wait; a
# table for docs/MEASURES.md. Of the archives' functions as they are called from C, the bench's own way to a call taken off. Instructions
# are exact, counted by Debian's qemu-user with tools/measure/insns.c. ARCHIVES names a folder with libdoor.a and librolldoor.a other than
# that of the proved ones (as target/try of tools/try-archive.sh); BASE another libdoor.a, of which the idle tick is counted beside. No part
# of the gate.
set -eu
. "$(dirname "$0")/words.sh"
no_words "$@"
needs rt gcc qemu-x86_64
find_kit
cd "$(dirname "$0")/.."
work=target/measure-reads
mkdir -p "$work"
tools=$kit/toolchain
folder=${ARCHIVES:-target/staticlib}
[ -n "${ARCHIVES:-}" ] || { archive "$work/log" door && archive "$work/log" rolldoor; }
sh tools/build-driver.sh "$work/reads" tools/measure/reads.c "$folder/libdoor.a" "$folder/librolldoor.a" -Iinclude
[ -z "${BASE:-}" ] || sh tools/build-driver.sh "$work/base" tools/measure/reads.c "$BASE" -Iinclude -DBASE
gcc -O2 -shared -fPIC tools/measure/insns.c -o "$work/insns.so"

# counted PROGRAM WHAT STARTED WAITING CALLS: the instructions of a run
counted() {
    qemu-x86_64 -cpu max,-erms -plugin "$work/insns.so" "$tools/lib/ld-linux-x86-64.so.2" --library-path "$tools/lib" "$@" 2>&1 >/dev/null |
        sed -n 's/^insns //p'
}

# each PROGRAM WHAT STARTED WAITING: of one call of 1,000; the loader's own count differs a little from run to run
each() { echo $((($(counted "$@" 1020) - $(counted "$@" 20) + 500) / 1000)); }

# call PROGRAM WHAT STARTED WAITING
call() { echo $(($(each "$@") - $(each "$1" none "$3" "$4"))); }

echo '| Started, waiting | air | due | rolling due | idle tick | idle reading | waiting counts |'
echo '|---|---|---|---|---|---|---|'
for state in '0 0' '0 10' '0 64' '1 0' '1 10' '1 63' '10 54'; do
    line="| ${state% *}, ${state#* } |"
    for what in air due rolling tick reading waiting; do
        count=$(call "$work/reads" "$what" ${state% *} ${state#* })
        [ "$what" != tick ] || [ -z "${BASE:-}" ] || count="$count (before: $(call "$work/base" tick ${state% *} ${state#* }))"
        line="$line $count |"
    done
    echo "$line"
done

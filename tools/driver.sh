#!/bin/sh
# driver.sh: the C headers, each by itself, as C99, C11 and C++11 to C++20, and the example drivers over the proved archive, their output
# compared with examples/driver.out, rolling.out, cues.out, whole.out, remember.out and referee.out, and the recordings of the first one and
# of whole.c with desk/recordings/sport.rec and whole.rec; the reads for drivers in random states; the example day by a driver that sleeps
# and by one that ticks each millisecond; a driver of version 1 or 6 must not link with it. All by the kit's own compiler and linker. The
# last line is 'N passed, M failed'.
set -eu
. "$(dirname "$0")/words.sh"
no_words "$@"
needs rt
find_kit
cd "$(dirname "$0")/.."
work=target/driver
rm -rf "$work"
mkdir -p "$work"
clang=$kit/toolchain/bin/clang
passed=0
failed=0

# tried NAME COMMAND..: counts it, and shows what a failed one printed
tried() {
    name=$1
    shift
    echo "driver: $name"
    if "$@" >"$work/log" 2>&1; then
        echo "driver: $name: good"
        passed=$((passed + 1))
    else
        cat "$work/log"
        echo "driver: $name: FAILED"
        failed=$((failed + 1))
    fi
}

# header LANGUAGE STANDARD: a source of nothing but a header, each by itself
header() {
    for file in include/*.h; do
        echo "#include \"$(basename "$file")\"" | "$clang" --target=x86_64-unknown-linux-gnu -DSPLICER_NO_STANDARD_HEADERS \
            -x "$1" -std="$2" -pedantic -Wall -Wextra -Werror -Iinclude -fsyntax-only - || return 1
    done
}

# built: the archives of the proved crates, and the programs over them
built() {
    archive "$work/archive" door && sh tools/build-driver.sh "$work/driver" examples/driver.c target/staticlib/libdoor.a -Iinclude &&
        sh tools/build-driver.sh "$work/cues" examples/cues.c target/staticlib/libdoor.a -Iinclude &&
        sh tools/build-driver.sh "$work/whole" examples/whole.c target/staticlib/libdoor.a -Iinclude &&
        sh tools/build-driver.sh "$work/sleeping" tools/driver/sleeping.c target/staticlib/libdoor.a -Iinclude &&
        archive "$work/archive" rolldoor &&
        sh tools/build-driver.sh "$work/rolling" examples/rolling.c target/staticlib/libdoor.a target/staticlib/librolldoor.a -Iinclude &&
        sh tools/build-driver.sh "$work/reads" tools/driver/reads.c target/staticlib/libdoor.a target/staticlib/librolldoor.a -Iinclude &&
        archive "$work/archive" bench &&
        sh tools/build-driver.sh "$work/remember" examples/remember.c target/staticlib/libdoor.a target/staticlib/libbench.a -Iinclude &&
        sh tools/build-driver.sh "$work/referee-beside" examples/referee.c target/staticlib/libdoor.a target/staticlib/libbench.a -Iinclude
}

# runs: the program writes what was worked out by hand
runs() {
    sh tools/run-program.sh "$work/driver" >"$work/out" && diff examples/driver.out "$work/out"
}

# rolls: so does the driver of the card with a rolling counter
rolls() {
    sh tools/run-program.sh "$work/rolling" >"$work/rolled" && diff examples/rolling.out "$work/rolled"
}

# cues: so does the driver that passes cues on
cues() {
    sh tools/run-program.sh "$work/cues" >"$work/cued" && diff examples/cues.out "$work/cued"
}

# wholes: so does the driver that records all it does; these are the bytes of the recording that desk/ reads in its tests
wholes() {
    sh tools/run-program.sh "$work/whole" >"$work/wholes" && diff examples/whole.out "$work/wholes" || return 1
    tr -d '\n' <"$work/wholes" >"$work/whole.hex"
    od -An -v -tx1 desk/recordings/whole.rec | tr -d ' \n' | tr a-f A-F | cmp - "$work/whole.hex"
}

# remembers: so does the driver of the engine that only remembers
remembers() {
    sh tools/run-program.sh "$work/remember" >"$work/remembered" && diff examples/remember.out "$work/remembered"
}

# referees: so does the driver with a referee beside its card
referees() {
    sh tools/run-program.sh "$work/referee-beside" >"$work/refereed" && diff examples/referee.out "$work/refereed"
}

# reads: in random states the reads for drivers say what the calls then do
reads() {
    sh tools/run-program.sh "$work/reads"
}

# sleeps: on the example day a driver that sleeps until something is due, and one that ticks each millisecond, write the same records
sleeps() {
    sh tools/run-program.sh "$work/sleeping" examples/recordings/day.rec
}

# records: what it records on a channel "SPORT" is what desk/ reads in its tests
records() {
    sh tools/run-program.sh "$work/driver" SPORT "$work/sport.rec" >"$work/sport" || return 1
    cmp desk/recordings/sport.rec "$work/sport.rec" || { echo "if that is meant: cp $work/sport.rec desk/recordings/"; return 1; }
}

# old VERSION FUNCTION: a driver that was compiled with that version's header must not link, for want of its functions
old() {
    if sh tools/build-driver.sh "$work/old" "tools/driver/version-$1.c" target/staticlib/libdoor.a >"$work/old.log" 2>&1; then
        echo 'it links'
        return 1
    fi
    grep "undefined symbol: $2\$" "$work/old.log"
}

for standard in c99 c11; do tried "headers as $standard" header c $standard; done
for standard in c++11 c++14 c++17 c++20; do tried "headers as $standard" header c++ $standard; done
tried 'build' built
tried 'run' runs
tried 'run with a rolling counter' rolls
tried 'run with cues' cues
tried 'run with all of it recorded' wholes
tried 'run with the engine that only remembers' remembers
tried 'run with a referee' referees
tried 'recording' records
tried 'reads of random states' reads
tried 'the example day, asleep and each millisecond' sleeps
tried 'a driver of version 1 does not link' old 1 splicer_fresh
tried 'a driver of version 6 does not link' old 6 splicer_6_ended
echo "$passed passed, $failed failed"
[ "$failed" -eq 0 ]

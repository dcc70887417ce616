#!/bin/sh
# measure.sh [counts|ticks|stack|frames|frames0|size|agree|programs]..: the proved core against other engines of the same rules
# (tools/measure): inplace.rs, plain Rust as one writes it, and peer.h, tuned C; for ticks also unordered.rs, Rust in place without order,
# and the second program's own engine (second/). All parts without a word. Prints tables for docs/MEASURES.md:
#   counts  instructions of a call (exact; only a library copy takes some more or less by where its memory lies) and the ratio of times
#           beside them
#   ticks   the same of ticks, of accepted requests and of the read of the waiting counts, with 0, 10 and 64 waiting, by all five
#   stack   bytes of stack that a call reached, from the caller's stack pointer down; library functions were bound before
#   frames  code and frame of each function of the core, by objdump
#   frames0 frames on three ways of the same module compiled without an optimiser (-O0), and their sums: what a compiler that inlines
#           nothing needs. Of the sources as they stand (tools/try-archive.sh); no part of what is measured without a word
#   size    code and state
#   agree   random calls by all five, compared (RANDOM_CALLS, 300,000 for each of three seeds)
#   programs  instructions of the card program and of the second program, both x86-64, on the same generated streams
# Before anything is measured, replies, buffers and reads (waiting counts, value on air, primary sum) of all five are compared on the call
# and on all calls that made its state.
# How the states are made, so that they favour no engine: tools/measure/cases.h.
# ARCHIVE names another archive than libdoor.a of tools/archives.sh, as the unproved one of tools/try-archive.sh.
# Needs Debian's qemu-user and gcc (once, for the plugin; the kit's own emulator takes no plugin), cargo and a rustc with the library for
# x86-64 (RUSTC names one; Debian 12: rustc-web and libstd-rust-web-dev:amd64), on Arm gcc-x86-64-linux-gnu too (objdump, objcopy, and the
# linker for programs). `sh tools/setup.sh x86` installs them. No part of the gate.
set -eu
. "$(dirname "$0")/words.sh"
for part; do
    case $part in
    counts | ticks | stack | frames | frames0 | size | agree | programs) ;;
    *) refuse "no part '$part'" ;;
    esac
done
needs rt
needs_rust 1.81
find_kit
cd "$(dirname "$0")/.."
work=target/measure
mkdir -p "$work"
tools=$kit/toolchain
target=x86_64-unknown-linux-gnu
core=${ARCHIVE:-target/staticlib/libdoor.a}
rust=$work/libinplace.a
unordered=$work/libunordered.a
second=$work/second/$target/release/libsecond.a
RT_JOBS=${RT_JOBS:-1}
export RT_JOBS
rows=0 calls=2000 second_calls=100

fail() {
    echo "measure.sh: $*" >&2
    exit 1
}

# quiet COMMAND..: shows what it said only if it fails
quiet() {
    "$@" >"$work/log" 2>&1 || { cat "$work/log" >&2; fail "$1 failed"; }
}

# a rustc that has the library for x86-64
find_rustc() {
    for r in "${RUSTC:-rustc}" rustc /usr/bin/rustc; do
        command -v "$r" >/dev/null 2>&1 || continue
        [ -d "$("$r" --print sysroot)/lib/rustlib/$target/lib" ] || continue
        echo "$r"
        return
    done
    fail "no rustc here has the library for $target"
}

# binutils NAME: one of them that knows x86-64
binutils() {
    command -v "x86_64-linux-gnu-$1" || command -v "$1" || fail "no $1"
}

# in_place NAME: an engine in place, an archive without libraries that has its own panic handler. That stays its own, so that two of them
# and the second program, which has the standard library's, can be linked together.
in_place() {
    quiet "$rustc" --edition 2021 --crate-type staticlib --crate-name "$1" -C opt-level=3 -C panic=abort --target $target \
        -D warnings -o "$work/lib$1.a" "tools/measure/$1.rs"
    quiet "$objcopy" --wildcard --localize-symbol='*rust_begin_unwind' --localize-symbol=rust_eh_personality "$work/lib$1.a"
}

build() {
    if [ -z "${ARCHIVE:-}" ]; then
        quiet archive "$work/rt.log" door
    fi
    in_place inplace
    in_place unordered
    quiet env RUSTC="$rustc" CARGO_TARGET_DIR="$work/second" cargo build --release --offline --target $target \
        --manifest-path tools/measure/second/Cargo.toml
    quiet "$tools/bin/clang" --target=$target -march=x86-64 -std=c11 -Wall -Wextra -Werror -O3 -fPIC -DSPLICER_NO_STANDARD_HEADERS \
        -Iinclude -Itools/measure -c tools/measure/bench.c -o "$work/bench.o"
    quiet "$kit/bin/rattle-link" --target $target --toolchain "$tools" -o "$work/bench" "$work/bench.o" "$core" "$rust" \
        "$unordered" "$second"
    quiet gcc -O2 -shared -fPIC tools/measure/insns.c -o "$work/insns.so"
}

versions() {
    if [ -n "${ARCHIVE:-}" ]; then
        echo "Core: the archive $ARCHIVE as it is; nothing here says that it is proved"
    fi
    echo "Core: $(rt version), clang of the kit: $("$tools/bin/clang" --version | head -n 1)"
    echo "Rust: $("$rustc" --version), -C opt-level=3 -C panic=abort"
    echo "Counts: $(qemu-x86_64 --version | head -n 1), -cpu max,-erms"
    if [ -x "$tools/bin/qemu-x86_64" ]; then
        times="emulated"
        echo "Times: emulated on $(uname -m) by the kit's $("$tools/bin/qemu-x86_64" --version | head -n 1)"
    else
        times="real"
        echo "Times: real, $(uname -m)"
    fi
}

# bench ARG..: a run under the kit's loader
bench() {
    sh tools/run-program.sh "$work/bench" "$@"
}

# agreed CASE N: stops if the five differ
agreed() {
    bench agree "$1" "$2" >"$work/said" || fail "$(cat "$work/said")"
    rows=$((rows + 1))
}

# counted ARG..: the instructions of a run of the bench
counted() {
    qemu-x86_64 -cpu max,-erms -plugin "$work/insns.so" "$tools/lib/ld-linux-x86-64.so.2" --library-path "$tools/lib" "$work/bench" \
        count "$@" 2>&1 >/dev/null |
        sed -n 's/^insns //p'
}

# call CASE N WHO: instructions of the case's call; the restored state and the bench's own way to a call taken off
call() {
    times_called=$calls
    [ "$3" != second ] || times_called=$second_calls
    with=$(counted "$1" "$2" "$3" $times_called 1)
    without=$(counted "$1" "$2" "$3" $times_called 0)
    [ -n "$with" ] && [ -n "$without" ] || fail "no count for $1 $2 $3"
    echo $(((with - without + times_called / 2) / times_called))
}

ratio() {
    awk "BEGIN { if ($2 > 0) printf \"%.2f\", $1 / $2; else printf \"-\" }"
}

# row TITLE CASE N
row() {
    agreed "$2" "$3"
    a=$(call "$2" "$3" core)
    b=$(call "$2" "$3" rust)
    c=$(call "$2" "$3" c)
    bench time "$2" "$3" core rust c >"$work/times"
    read -r ta tb tc <"$work/times"
    echo "| $1 | $a | $b | $c | $(ratio "$a" "$b") | $(ratio "$a" "$c") | $(ratio "$ta" "$tb") | $ta : $tb : $tc |"
}

counts() {
    echo "| Call | Core | Rust | C | Core/Rust | Core/C | Core/Rust, time ($times) | ns ($times), core : Rust : C |"
    echo '|---|---|---|---|---|---|---|---|'
    row 'tick, idle, 0 waiting' idle 0
    row 'tick, idle, 10 waiting' idle 10
    row 'tick, idle, 64 waiting' idle 64
    row 'tick, 1 on air ends, 1 waiting starts, no other' busy 1
    row 'tick, 1 on air ends, the first of 10 waiting starts' busy 10
    row 'tick, 1 on air ends, the first of 64 waiting starts' busy 64
    row 'tick, a start over an equal one, no follower' equal 0
    row 'tick, a start over an equal one with 19 followers' equal 19
    row 'Splice_Request accepted, 0 waiting' splice 0
    row 'Splice_Request accepted in the middle of 10' splice 10
    row 'Splice_Request accepted in the middle of 63' splice 63
    row 'Splice_Request with separate PIDs, no structure, 0 waiting' pids 0
    row 'Splice_Request with 16 plain structures, 0 waiting' pids 16
    row 'Abort_Request with 1 follower' abort 1
    row 'Abort_Request with 19 followers' abort 19
    row 'close with 20 waiting and 1 on air' close 20
    row 'Init_Request' init 0
    row 'Alive_Request' alive 0
    row 'read of the waiting counts, 0 waiting' read 0
    row 'read of the waiting counts, 64 waiting' read 64
}

# row_of_five TITLE CASE N
row_of_five() {
    agreed "$2" "$3"
    a=$(call "$2" "$3" core)
    b=$(call "$2" "$3" rust)
    c=$(call "$2" "$3" unordered)
    d=$(call "$2" "$3" second)
    e=$(call "$2" "$3" c)
    bench time "$2" "$3" core rust unordered second c >"$work/times"
    read -r ta tb tc td te <"$work/times"
    counts="$a | $b | $c | $d | $e | $(ratio "$a" "$b") | $(ratio "$a" "$c") | $(ratio "$a" "$d") | $(ratio "$a" "$e")"
    echo "| $1 | $counts | $(ratio "$ta" "$tc") | $ta : $tb : $tc : $td : $te |"
}

ticks() {
    counts='Core | Rust, ordered | Rust, unordered | Second | C | Core/ordered | Core/unordered | Core/second | Core/C'
    echo "| Call | $counts | Core/unordered, time ($times) | ns ($times), core : ordered : unordered : second : C |"
    echo '|---|---|---|---|---|---|---|---|---|---|---|---|'
    row_of_five 'tick, idle, nothing on air, 0 waiting' idle 0
    row_of_five 'tick, idle, nothing on air, 10 waiting' idle 10
    row_of_five 'tick, idle, nothing on air, 64 waiting' idle 64
    row_of_five 'tick, idle, 1 on air, 0 waiting' airidle 0
    row_of_five 'tick, idle, 1 on air, 10 waiting' airidle 10
    row_of_five 'tick, idle, 1 on air, 64 waiting' airidle 64
    row_of_five 'tick, a start, 1 waiting' start 1
    row_of_five 'tick, a start, 10 waiting' start 10
    row_of_five 'tick, a start, 64 waiting' start 64
    row_of_five 'tick, an end, 0 waiting' end 0
    row_of_five 'tick, an end, 10 waiting' end 10
    row_of_five 'tick, an end, 64 waiting' end 64
    row_of_five 'tick, an end and a start, 1 waiting' busy 1
    row_of_five 'tick, an end and a start, 10 waiting' busy 10
    row_of_five 'tick, an end and a start, 64 waiting' busy 64
    row_of_five 'tick, a start fails, no follower, 1 waiting' clash 1
    row_of_five 'tick, a start fails, no follower, 10 waiting' clash 10
    row_of_five 'tick, a start fails, no follower, 64 waiting' clash 64
    row_of_five 'tick, a start fails, 19 followers, 20 waiting' fail 19
    row_of_five 'tick, a start fails, 19 followers, 64 waiting' amid 44
    row_of_five 'tick, 10 starts and 10 ends' play 10
    row_of_five 'tick, 64 starts and 64 ends' play 64
    row_of_five 'tick, idle, 10 started, 0 waiting' deepidle 10
    row_of_five 'tick, the one on air of 10 started ends, 0 waiting' deepend 10
    row_of_five 'Splice_Request accepted, 0 waiting' splice 0
    row_of_five 'Splice_Request accepted in front of 10' front 10
    row_of_five 'Splice_Request accepted in the middle of 10' splice 10
    row_of_five 'Splice_Request accepted behind 10' behind 10
    row_of_five 'Splice_Request accepted in front of 63' front 63
    row_of_five 'Splice_Request accepted in the middle of 63' splice 63
    row_of_five 'Splice_Request accepted behind 63' behind 63
    row_of_five 'read of the waiting counts, 0 waiting' read 0
    row_of_five 'read of the waiting counts, 10 waiting' read 10
    row_of_five 'read of the waiting counts, 64 waiting' read 64
}

# deep CALL TITLE CASE N
deep() {
    agreed "$3" "$4"
    bench stack "$3" "$4" >"$work/stack"
    read -r a b c <"$work/stack"
    echo "| $1 | $2 | $a | $b | $c |"
}

stack() {
    echo '| Call | Case | Core | Rust | C |'
    echo '|---|---|---|---|---|'
    deep fresh 'a good name' fresh 0
    deep open 'a closed connection' open 0
    deep close '20 waiting, 1 on air' close 20
    deep close 'full splicer: 64 wait, 10 started' fullclose 10
    deep message Init_Request init 0
    deep message Alive_Request alive 0
    deep message 'Splice_Request accepted, 0 waiting' splice 0
    deep message 'Splice_Request accepted in the middle of 63' splice 63
    deep message 'Splice_Request evicts one with 19 followers' evict 19
    deep message 'the same, full splicer: 63 wait, 10 started' fullevict 9
    deep message 'Abort_Request, 1 follower' abort 1
    deep message 'Abort_Request, 19 followers' abort 19
    deep message 'the same, full splicer' fullabort 10
    deep message 'Abort_Request, on air, 20 followers' air 20
    deep tick 'idle, 64 waiting' idle 64
    deep tick 'an end, then a start, 64 waiting' busy 64
    deep tick '64 sessions start and end' play 64
    deep tick 'a start fails, 19 followers' fail 19
    deep tick 'a start over an equal one with 19 followers' equal 19
    deep tick 'full splicer: 4 chains fail, 10 started end' fulltick 10
    deep waiting '64 waiting' read 64
}

# the frame: pushed registers, the room below them and the return address; what a leaf keeps below its stack pointer (at most 128) is
# not in it
# framed: of a disassembly, a line for each function: name, bytes of code, frame
framed() {
    awk '
    function out() { if (name != "") print name, last - first, frame + 8 }
    /^[0-9a-f]+ <.*>:$/ { out(); name = $2; sub(/^</, "", name); sub(/>:$/, "", name); frame = 0; body = 0; first = -1; next }
    /^ *[0-9a-f]+:/ { at = $1; sub(/:$/, "", at); at = hex(at); if (first < 0) first = at; last = at }
    !body && /push / { frame += 8; next }
    !body && /sub .*,%rsp/ { v = $0; sub(/.*\$0x/, "", v); sub(/,%rsp.*/, "", v); frame += hex(v); body = 1 }
    function hex(s,   i, n) {
        n = 0
        for (i = 1; i <= length(s); i++) n = n * 16 + index("0123456789abcdef", substr(s, i, 1)) - 1
        return n
    }
    END { out() }'
}

frames() {
    echo '| Function of the core | Bytes of code | Frame |'
    echo '|---|---|---|'
    "$objdump" -d --no-show-raw-insn "$core" | framed | awk '{ printf "| %s | %d | %d |\n", $1, $2, $3 }'
}

# way TITLE NAME[*TIMES]..: a row for each function on the way, and their sum; a name that is not there is an error
way() {
    title=$1
    shift
    sum=0
    for step; do
        name=${step%%\**}
        often=1
        [ "$name" = "$step" ] || often=${step##*\*}
        frame=$(awk -v name="$name" '$1 == name { print $2 }' "$work/frames0")
        [ -n "$frame" ] || fail "no function $name in the module"
        sum=$((sum + frame * often))
        echo "| $title | $name | $frame | $often |"
    done
    echo "| $title | together | $sum | |"
}

frames0() {
    quiet sh tools/try-archive.sh
    quiet "$tools/bin/clang" --target=$target -march=x86-64 --no-default-config -no-canonical-prefixes -x ir -c -O0 target/try/door.ll \
        -o "$work/door0.o"
    "$objdump" -d --no-show-raw-insn "$work/door0.o" | framed | awk '{ print $1, $3 }' >"$work/frames0"
    abort="door::splicer_7_message engine::message answers::answer answers::answer_read requests::answer_abort ends::end_started"
    evict="door::splicer_7_message engine::message answers::answer answers::answer_read requests::answer_splice"
    evict="$evict requests::accept requests::make_way"
    below='memory::load places::View::load places::View::row places::read_row'
    echo '| Way, at -O0 | Function | Frame | Times |'
    echo '|---|---|---|---|'
    way 'the due search below run' instants::next_due memory::least_end places::View::least_end places::View::end_at
    # shellcheck disable=SC2086
    way 'an abort with 20 followers' $abort ends::dismiss ends::walk $below
    # shellcheck disable=SC2086
    way 'a Splice_Request evicts one with 19' $evict ends::end_waiting ends::dismiss ends::walk $below
}

# code FILE MEMBER: bytes of machine code in the sections .text of an archive's members whose name has MEMBER in it
code() {
    "$objdump" -h "$1" | awk -v member="$2" '
    / file format / { on = index($1, member) > 0 }
    on && $2 ~ /^\.text/ { sum += hex($3) }
    function hex(s,   i, n) {
        n = 0
        for (i = 1; i <= length(s); i++) n = n * 16 + index("0123456789abcdef", substr(s, i, 1)) - 1
        return n
    }
    END { print sum + 0 }'
}

size() {
    quiet "$tools/bin/clang" --target=$target -march=x86-64 -std=c11 -O3 -fPIC -DSPLICER_NO_STANDARD_HEADERS -Iinclude -x c \
        -c tools/measure/peer.h -o "$work/peer.o"
    bench size >"$work/sizes"
    read -r a b c <"$work/sizes"
    echo '| | Core | Rust | C |'
    echo '|---|---|---|---|'
    echo "| bytes of code | $(code "$core" '') | $(code "$rust" libinplace) | $(code "$work/peer.o" '') |"
    echo "| bytes of state | $a | $b | $c |"
}

agree() {
    for seed in 1 2 3; do
        bench random $seed "${RANDOM_CALLS:-300000}" >"$work/said" || fail "$(cat "$work/said")"
        echo "seed $seed, ${RANDOM_CALLS:-300000} random calls: the five agree. $(tr '\n' ' ' <"$work/said")"
    done
}

# whole PROGRAM.. <IN: the instructions of a whole run
whole() {
    qemu-x86_64 -cpu max,-erms -plugin "$work/insns.so" "$@" 2>&1 >/dev/null | sed -n 's/^insns //p'
}

# streamed PROGRAM..: the instructions of its runs on all streams, an empty run taken off each
streamed() {
    empty=$(whole "$@" </dev/null)
    [ -n "$empty" ] || fail "no count for $1"
    sum=0
    for stream in "$work"/streams/*; do
        one=$(whole "$@" <"$stream")
        [ -n "$one" ] || fail "no count for $1 on $stream"
        sum=$((sum + one - empty))
    done
    echo $sum
}

programs() {
    linker=cc
    [ "$(uname -m)" = x86_64 ] || linker=x86_64-linux-gnu-gcc
    quiet env RUSTC="$rustc" CARGO_TARGET_DIR="$work/model" CARGO_TARGET_X86_64_UNKNOWN_LINUX_GNU_LINKER=$linker \
        cargo build --release --offline --target $target --manifest-path model/Cargo.toml
    quiet program "$work/rt.log" card
    program=$work/model/$target/release/model
    rm -rf "$work/streams"
    mkdir -p "$work/streams"
    quiet qemu-x86_64 "$program" gen --seed 9 --n 20 --out "$work/streams"
    made=$(qemu-x86_64 "$program" fuzz --seed 9 --n 20 --floors off | grep -oE '[0-9,]+ calls' | head -n 1 | tr -d ', a-z')
    [ -n "$made" ] || fail "no count of calls"
    a=$(streamed "$tools/lib/ld-linux-x86-64.so.2" --library-path "$tools/lib" target/bin/card)
    b=$(streamed "$program" card)
    echo '| 20 streams of seed 9 | Instructions | A call |'
    echo '|---|---|---|'
    echo "| card program | $a | $((a / made)) |"
    echo "| second program | $b | $((b / made)) |"
    echo
    echo "$made calls"
}

rustc=$(find_rustc)
objdump=$(binutils objdump)
objcopy=$(binutils objcopy)
build
versions
[ $# -gt 0 ] || set -- counts ticks stack frames size agree programs
for part; do
    echo
    echo "measure: $part" >&2
    $part
done
echo
[ $rows -eq 0 ] || echo "$rows cases, replies, buffers and reads of all five equal in each"

#!/bin/sh
# bench.sh: what is for the bench, each thing as a program and from C over libbench.a beside the card's archive, which both link into one
# program. The checker of recordings (02, CR 14; tools/bench/check.c) on recordings whose finding was worked out by hand
# (examples/recordings: each file's finding stands in `findings`), and at the lengths that end what is read. The referee on the same
# (`verdicts`), on one that the checker does not read and on one that is still being written; both as people run them. The engine that only
# remembers (02, CR 12): a small day through both engines side by side until 13 (tools/bench/recall.c); and the program `remember` on 01's
# whole case, on the calls of the recordings beside the card program, and where its log is full. The last line is 'N passed, M failed'.
set -eu
. "$(dirname "$0")/words.sh"
no_words "$@"
needs rt
find_kit
cd "$(dirname "$0")/.."
work=target/bench
rm -rf "$work"
mkdir -p "$work"
passed=0
failed=0

# built COMMAND..: counts it, and shows what a failed one said
built() {
    if "$@" >"$work/log" 2>&1; then
        passed=$((passed + 1))
    else
        cat "$work/log"
        failed=$((failed + 1))
    fi
}

# same NAME WANTED FILE: both write the line for the recording
same() {
    for by in checker check; do
        program=$work/check
        [ "$by" = check ] || program=target/bin/checker
        sh tools/run-program.sh --plain "$program" <"$3" >"$work/line" 2>"$work/log" || :
        if [ "$(cat "$work/line")" = "$2" ] && [ "$(wc -l <"$work/line")" -eq 1 ]; then
            passed=$((passed + 1))
        else
            echo "bench: $1 by $by: wanted '$2', got '$(cat "$work/line" "$work/log")'"
            failed=$((failed + 1))
        fi
    done
}

# ends STATUS WANTED COMMAND..: checker or referee as people run it (tools/release/judged.sh): its status and its lines; where it says none
# of its own, one on standard error says why
ends() {
    wanted=$1 line=$2 status=0
    shift 2
    "$@" >"$work/line" 2>"$work/why" || status=$?
    lines=0
    [ -n "$line" ] || lines=1
    if [ "$status" -eq "$wanted" ] && [ "$(cat "$work/line")" = "$line" ] && [ "$(wc -l <"$work/why")" -eq "$lines" ]; then
        passed=$((passed + 1))
    else
        echo "bench: $1: wanted $wanted '$line', got $status '$(cat "$work/line" "$work/why")'"
        failed=$((failed + 1))
    fi
}

# checker [WORD..]: on standard input
checker() {
    sh tools/run-program.sh target/bin/checker "$@"
}

# referee [WORD..]: on standard input
referee() {
    sh tools/run-program.sh target/bin/referee "$@"
}

# closed PROGRAM: without a standard input
closed() {
    "$1" <&-
}

# live: the referee tells a wrong call while its input is still open; it ends with it, with 1
live() {
    rm -f "$work/pipe" "$work/line"
    mkfifo "$work/pipe"
    referee <"$work/pipe" >"$work/line" &
    exec 4>"$work/pipe"
    printf 'O\000E\006' >&4
    for second in 1 2 3 4 5 6 7 8 9 10; do
        [ ! -s "$work/line" ] || break
        sleep 1
    done
    told=$(head -n 1 "$work/line")
    exec 4>&-
    status=0
    wait $! || status=$?
    [ "$told $status" = 'call 1 1' ]
}

# breaking: on a recording that cannot be read to its end: its reader, by the name of head, gives 3 bytes and fails
breaking() {
    cat >"$work/head" <<END_OF_HEAD
#!/bin/sh
[ "\$*" = '-c 65536' ] || exec $(command -v head) "\$@"
printf '\\000C\\000'
echo "head: error reading 'standard input': Input/output error" >&2
exit 1
END_OF_HEAD
    chmod +x "$work/head"
    printf O | (PATH=$PWD/$work:$PATH && export PATH && checker)
}

# on_terminal: where standard error is a terminal, as script(1) of Debian's base makes one, it shows how much was read; the day's recording
# with the wrong end has 4,338 bytes
on_terminal() {
    status=0
    script -qec 'sh tools/run-program.sh target/bin/checker <examples/recordings/day-wrong-end.rec' /dev/null </dev/null >"$work/shown" ||
        status=$?
    [ "$status" -eq 1 ] && grep -q 'checker: 4338 bytes read' "$work/shown" && grep -q 'call 45' "$work/shown"
}

# marks N: N bytes of opens of connection 0
marks() {
    awk -v n="$1" 'BEGIN { for (i = 0; i < n; i++) printf "%s", i % 2 ? "0" : "O" }' | tr 0 '\000'
}

# says NAME [WORD]: both engines side by side write the wanted lines of standard input
says() {
    cat >"$work/wanted"
    name=$1
    shift
    sh tools/run-program.sh "$work/recall" "$@" >"$work/lines" 2>&1 || :
    alike "$name" "$work/wanted" "$work/lines"
}

# alike NAME WANTED FILE: the same bytes
alike() {
    if cmp "$2" "$3" >"$work/log" 2>&1; then
        passed=$((passed + 1))
    else
        echo "bench: $1: $(cat "$work/log"); got"
        od -An -tx1 "$3" | head -n 4
        failed=$((failed + 1))
    fi
}

# remembered NAME WANTED: what the program writes for $work/in; one that is not there writes something else
remembered() {
    sh tools/run-program.sh target/bin/remember <"$work/in" >"$work/got" 2>&1 || echo "status $?" >>"$work/got"
    alike "remember, $1" "$2" "$work/got"
}

# of FILE calls|answers: the calls of a recording, or the records and refusals behind them
of() {
    # shellcheck disable=SC2059
    printf "$(od -An -v -tu1 "$1" | awk -v answers="$2" '
        { for (i = 1; i <= NF; i++) byte[n++] = $i }
        END {
            for (at = 0; at < n; at = end) {
                mark = byte[at]
                end = at + (mark == 84 ? 10 : mark == 77 || mark == 82 ? 10 + 256 * byte[at + 4] + byte[at + 5] : 2)
                if ((mark == 82 || mark == 69) == (answers == "answers"))
                    for (i = at; i < end && i < n; i++) printf "\\%03o", byte[i]
            }
        }')"
}

# pairs N: N good calls, an open and a close of connection 0 in turn
pairs() {
    awk -v n="$1" 'BEGIN { for (i = 0; i < n; i++) printf "%s", i % 2 ? "C0" : "O0" }' | tr 0 '\000'
}

# quiet SIZE: a message to connection 0 that gets no answer, of zeros behind its header
quiet() {
    # shellcheck disable=SC2059
    printf "$(printf '\\115\\000\\000\\000\\%03o\\%03o\\377\\377\\377\\377' $(($1 / 256)) $(($1 % 256)))"
    dd if=/dev/zero bs="$1" count=1 2>/dev/null
}

# long LAST: connection 0 is opened and 14 messages of 4,088 fill 2 + 14 * 4,098 bytes of a log, one of LAST 10 + LAST more; then a further
# one of 4,088 and an open
long() {
    printf 'O\000'
    for size in 4088 4088 4088 4088 4088 4088 4088 4088 4088 4088 4088 4088 4088 4088 "$1" 4088; do
        quiet "$size"
    done
    printf 'O\001'
}

# the programs, and from C
checkers() {
    program "$work/proving" checker && archive "$work/archive" bench && archive "$work/archive" door &&
        sh tools/build-driver.sh "$work/check" tools/bench/check.c target/staticlib/libdoor.a target/staticlib/libbench.a -Iinclude
}

recalls() {
    programs "$work/proving" card remember &&
        sh tools/build-driver.sh "$work/recall" tools/bench/recall.c target/staticlib/libdoor.a target/staticlib/libbench.a -Iinclude
}

built checkers
while read -r file wanted; do
    same "$file" "$wanted" "examples/recordings/$file"
done <examples/recordings/findings
for n in 65535 65536; do
    marks $n >"$work/long"
    same "$n bytes of opens" 'call 2' "$work/long"
done
marks 65537 >"$work/long"
same '65,537 bytes' 'refused 15' "$work/long"

# the exit status: by hand 0 for none, 1 for a call, 2 for the rest; what cannot be read is no recording
ends 0 none checker <examples/recordings/day.rec
ends 0 none checker <examples/recordings/cut-record.rec
ends 1 'call 45' checker <examples/recordings/day-wrong-end.rec
ends 2 'refused 14 at 4' checker <examples/recordings/unknown-last.rec
ends 2 'refused 15' checker <"$work/long"
ends 2 'refused 15' checker </dev/zero
ends 2 '' checker <examples/recordings/empty.rec
ends 2 '' checker <examples
ends 2 '' closed checker
ends 2 '' checker --help <examples/recordings/day.rec
ends 2 '' checker examples/recordings/day.rec <examples/recordings/day.rec
ends 2 '' breaking
built on_terminal

# the referee: the same recordings, each in the order of what stands in it, worked by hand
built program "$work/proving" referee
while read -r file wanted; do
    referee <"examples/recordings/$file" >"$work/lines" 2>/dev/null || :
    # nothing read is no recording
    [ "$file" != empty.rec ] || wanted=
    head -n 1 "$work/lines" >"$work/line"
    built test "$(cat "$work/line")" = "$wanted"
done <examples/recordings/verdicts
ends 0 none referee <examples/recordings/day.rec
ends 0 none referee <examples/recordings/cut-record.rec
ends 1 'call 45
wanted 52000009000D0074FFFF000001F50100000000001B7740
found 52000009000D0074FFFF0000232A0100000000001B7740' referee <examples/recordings/day-wrong-end.rec
ends 1 'call 2
wanted 4506
found' referee <examples/recordings/refusal-late.rec
ends 2 'refused 14 at 0' referee <examples/recordings/unknown-first.rec
ends 2 '' referee <examples/recordings/empty.rec
ends 2 '' referee <examples
ends 2 '' closed referee
ends 2 '' referee examples/recordings/day.rec <examples/recordings/day.rec
# 65,538 bytes: longer than the checker reads
marks 65538 >"$work/long"
ends 1 'call 2
wanted 4506
found' referee <"$work/long"
built live

built recalls
says 'both engines' <<END
alike until 13: 256 calls
alike until 13: under 4,098 bytes free
4,098 bytes free: 0 free at the end
4,097 bytes free: 4097 free at the end
13: 0, 65,535 and 65,537 bytes
END
says 'a call that the card was not told of' wrong <<END
call 17: the replies differ
END

# 01's whole case
printf 'O\000M\000\000\005\000\010\377\377\377\377\000\000\000\000\000\000\000\000C\000C\000' >"$work/in"
printf 'R\000\000\000\000\000\000\147\377\377E\007' >"$work/out"
remembered 'the whole case of 01' "$work/out"

# the day as its recording has it, and the calls of each recording as the card program answers them
of examples/recordings/day.rec calls >"$work/in"
of examples/recordings/day.rec answers >"$work/out"
remembered 'the day' "$work/out"
for file in examples/recordings/*.rec; do
    of "$file" calls >"$work/in"
    sh tools/run-program.sh target/bin/card <"$work/in" >"$work/out" 2>&1 || echo 'no card program' >>"$work/out"
    remembered "$(basename "$file")" "$work/out"
done

# the 257th good call gets 13, and so does a call behind it
: >"$work/out"
pairs 256 >"$work/in"
remembered '256 good calls' "$work/out"
printf 'E\015' >"$work/out"
pairs 257 >"$work/in"
remembered '257 good calls' "$work/out"
printf 'E\015E\015' >"$work/out"
pairs 258 >"$work/in"
remembered 'a call behind 13' "$work/out"
# 65,536 - 2 - 14 * 4,098 - 10 - 4,054 = 4,098 bytes are free: the message of 4,088 is kept, the open gets 13; a byte less, and both do
printf 'E\015' >"$work/out"
long 4054 >"$work/in"
remembered '4,098 bytes free' "$work/out"
printf 'E\015E\015' >"$work/out"
long 4055 >"$work/in"
remembered '4,097 bytes free' "$work/out"
echo "$passed passed, $failed failed"
[ "$failed" -eq 0 ]

#!/bin/sh
# splicerd-bars.sh [load | idle | day | kills | hostile]..: the bars of splicerd, on a machine with nothing else to do; without a word all
# of them. load: 70 channels of three connections, the server on one core and the load on another, against the same server with fixed
# answers, five times in turn; of answers a second and of processor time for an answer the median of each counts. idle: 1,024 channels open,
# their memory and processor time. day: 24 hours by the clock that is moved by hand, 10 channels, 20,000 spots, drops at random, recordings
# and as-run lists held to the clients' books. kills: 200 by SIGKILL under load. hostile: 10,000 connections beside a good client. No part
# of the gate. SPLICER_LIB as for splicerd.sh. The last line is 'N passed, M failed'.
set -eu
. "$(dirname "$0")/words.sh"
for word; do
    case $word in
    load | idle | day | kills | hostile) ;;
    *) refuse "load, idle, day, kills or hostile, not '$word'" ;;
    esac
done
[ $# -gt 0 ] || set -- load idle day kills hostile
needs_rust 1.82
needs taskset
cd "$(dirname "$0")/.."
work=$PWD/target/splicerd
mkdir -p "$work"
. tools/ran.sh
SPLICER_LIB=$(cd "${SPLICER_LIB:-target/staticlib}" && pwd -P)
CARGO_TARGET_DIR=$work
export CARGO_TARGET_DIR SPLICER_LIB
echo 'splicerd-bars: building'
(cd splicerd && cargo build --quiet --release --offline)
CARGO_TARGET_DIR=$work/desk cargo build --quiet --release --offline --locked --manifest-path desk/Cargo.toml
DESK=$work/desk/release/desk
export DESK

# bar NAME: a test of tests/bars.rs, optimised
bar() {
    (cd splicerd && cargo test --quiet --release --offline --test bars -- --ignored --exact --nocapture "$1")
}

# spent PID: nanoseconds of processor time of all its threads
spent() {
    cat "/proc/$1"/task/*/schedstat | awk '{ sum += $1 } END { printf "%d\n", sum }'
}

# answers FILE [WORD..]: adds a line of a server with these words, 70 channels, 5 s: what the load says, and nanoseconds for an answer
answers() {
    to=$1
    shift
    taskset -c 0 "$work/release/splicerd" --listen 127.0.0.1:25168 --page 127.0.0.1:28168 --channels "$work/seventy" "$@" 2>/dev/null &
    server=$!
    sleep 1
    before=$(spent "$server")
    taskset -c 1 "$work/release/adserver" --to 127.0.0.1:25168 --channel CH --json load --channels 70 --for 5s >"$work/round.json" || :
    after=$(spent "$server")
    kill "$server"
    wait "$server" || :
    count=$(sed -n 's/.*"answers":\([0-9]*\).*/\1/p' "$work/round.json")
    echo "$(cat "$work/round.json") \"ns\":$(((after - before) / count))," >>"$to"
}

# median FILE KEY: of its lines
median() {
    sed -n "s/.*\"$2\":\([0-9]*\).*/\1/p" "$1" | sort -n | awk '{ row[NR] = $1 } END { print row[int((NR + 1) / 2)] }'
}

# load: the share of the sockets' own limit
load() {
    seq 1 70 | sed 's/^/CH/' >"$work/seventy"
    rm -f "$work/fixed.json" "$work/core.json"
    for round in 1 2 3 4 5; do
        echo "splicerd-bars: load: round $round of 5"
        answers "$work/fixed.json" --fixed-answers
        answers "$work/core.json"
    done
    for key in per_second p99_us ns; do
        echo "splicerd-bars: load: $key: fixed answers $(median "$work/fixed.json" $key), the core $(median "$work/core.json" $key)"
    done
    share=$(($(median "$work/core.json" per_second) * 100 / $(median "$work/fixed.json" per_second)))
    by_time=$(($(median "$work/fixed.json" ns) * 100 / $(median "$work/core.json" ns)))
    echo "splicerd-bars: load: $share hundredths of the sockets' own limit (85 wanted), $by_time by processor time"
    if [ "$share" -ge 85 ]; then echo '1 passed, 0 failed'; else return 1; fi
}

for word; do
    case $word in
    load) ran load load || : ;;
    idle) ran idle bar idle_channels || : ;;
    hostile) ran hostile bar hostile_connections || : ;;
    *) ran "$word" bar "$word" || : ;;
    esac
done
echo "$passed passed, $failed failed"
[ "$failed" -eq 0 ]

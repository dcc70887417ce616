#!/bin/sh
# check-recordings.sh [SEED..]: recordings of generated streams, and of all scenarios, whole, cut and damaged (`model recordings`), through
# the second program's checker, the proved program and `splicer_check` from C over its archive (tools/bench/check.c); with BINDINGS=1
# through the Rust wrapper too. Three seeds if none is given, STREAMS streams for each (40). A comparison for a release; the gate's own is
# in compare.sh and bench.sh. The last line is 'N passed, M failed'.
set -eu
. "$(dirname "$0")/words.sh"
for seed; do
    case $seed in
    *[!0-9]*) refuse "'$seed' is no seed" ;;
    esac
done
[ $# -gt 0 ] || set -- 1401 1402 1403
needs rt
needs_rust 1.81
cd "$(dirname "$0")/.."
work=target/check-recordings
mkdir -p "$work"
. tools/ran.sh
ran bench sh tools/bench.sh || :
CARGO_TARGET_DIR=target/model cargo build --quiet --release --offline --manifest-path model/Cargo.toml
model=target/model/release/model
for seed; do
    rm -rf "$work/out"
    ran "checker, seed $seed" "$model" recordings --seed "$seed" --n "${STREAMS:-40}" \
        --checker 'sh tools/run-program.sh --plain target/bin/checker' --out "$work/out" model/scenarios/*.txt || :
    ran "splicer_check, seed $seed" "$model" recordings --seed "$seed" --n "${STREAMS:-40}" \
        --checker 'sh tools/run-program.sh target/bench/check' || :
    if [ -n "${BINDINGS:-}" ]; then
        SPLICER_RECORDINGS=$PWD/$work/out ran "the Rust wrapper, seed $seed" \
            cargo test --quiet --release --offline --manifest-path bindings/Cargo.toml --features bench --test bench || :
    fi
done
echo "$passed passed, $failed failed"
[ "$failed" -eq 0 ]

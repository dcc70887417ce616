#!/bin/sh
# mutate.sh [--n N] [--seed S] [desk|cue|dissector]..: mutated inputs by a seeded mutator (tools/mutate): recordings, a card program's files
# and captures for the desk's program, words and files for `model cue`, connections for the dissector; N of each, 1,000,000 if it is not
# given. Nothing may panic, and each is read or refused. The gate tries a thousand of each (tools/desk.sh, tools/dissector.sh). The last
# line is 'N passed, M failed'.
set -eu
. "$(dirname "$0")/words.sh"
n=1000000
seed=1
parts=
while [ $# -gt 0 ]; do
    case $1 in
    --n | --seed)
        [ $# -ge 2 ] || refuse "$1 needs a value"
        case $2 in '' | *[!0-9]*) refuse "$1 '$2': no number" ;; esac
        if [ "$1" = --n ]; then n=$2; else seed=$2; fi
        shift 2
        ;;
    desk | cue | dissector)
        parts="$parts $1"
        shift
        ;;
    *) refuse "no part '$1'" ;;
    esac
done
needs cargo
cd "$(dirname "$0")/.."
work=target/mutate
mkdir -p "$work"
. tools/ran.sh

# tests NAME..: those of desk/src/mutated.rs, one after the other, in 4 GiB
tests() {
    (
        ulimit -v 4194304
        CARGO_TARGET_DIR=target/desk MUTATED_N=$n MUTATED_SEED=$seed \
            cargo test --release --quiet --offline --locked --manifest-path desk/Cargo.toml --bin desk -- --nocapture "$@"
    )
}

# built before the limit holds
CARGO_TARGET_DIR=target/desk cargo test --release --quiet --no-run --offline --locked --manifest-path desk/Cargo.toml --bin desk
for part in ${parts:-desk cue dissector}; do
    case $part in
    desk) ran desk tests mutated_recordings mutated_card_files mutated_captures || : ;;
    cue) ran cue tests mutated_cues || : ;;
    dissector) ran dissector sh tools/dissector.sh --mutated "$n" "$seed" || : ;;
    esac
done
echo "$passed passed, $failed failed"
[ "$failed" -eq 0 ]

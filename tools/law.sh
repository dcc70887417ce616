#!/bin/sh
# law.sh [--gate | --streams SEED N | --mutants [WORD..] | --kit]: the definitions run (law/, docs/notes/law.md).
# With --gate: every definition is read; the worked cases are computed; the second program's first streams of seed 280, on which compare.sh
# holds the card program to it, 20,000 calls and more, each output, the state and all reads compared; streams of rolling cards, recordings
# and the second engine's rules; 2,000 cue calls; the functions of the kit that are built in against the prover's computing; and a part of
# the mutants, chosen by the commit.
# --streams: N streams of a seed, 600 calls or so each, a fifth as many of rolling cards, a fiftieth of recordings. --mutants: wrong
# readings, as `law mutate` takes its words. --kit: the kit alone.
# The last line is 'N passed, M failed'.
set -eu
. "$(dirname "$0")/words.sh"
what=${1:-}
case $what in
--gate | --kit) [ $# -eq 1 ] || refuse "$what takes no word" ;;
--streams)
    [ $# -eq 3 ] || refuse 'a seed and a number of streams'
    case $2$3 in
    *[!0-9]*) refuse "'$2' or '$3' is no number" ;;
    esac
    ;;
--mutants) ;;
*) refuse 'one of --gate, --streams SEED N, --mutants, --kit' ;;
esac
needs_rust 1.81
cd "$(dirname "$0")/.."
work=target/law
mkdir -p "$work"
. tools/ran.sh
law=$work/release/law
# of so many parts of the mutants one is tried in the gate
parts=3
model=target/model/release/model
CARGO_TARGET_DIR=$work cargo build --quiet --release --offline --manifest-path law/Cargo.toml

# batch SEED FIRST N: streams of the second program's generator, through the definition `card` and through the second program
batch() {
    rm -rf "$work/streams"
    "$model" gen --seed "$1" --n "$2" --out "$work/streams" >/dev/null
    "$law" runs "$work/streams"/*.in
    "$law" states "$work/streams"/*.in
    same=0 differ=0
    for stream in "$work/streams"/*.in; do
        "$model" card <"$stream" >"$stream.model"
        "$model" states <"$stream" >"$stream.lines"
        if cmp -s "$stream.law" "$stream.model" && cmp -s "$stream.states" "$stream.lines"; then
            same=$((same + 1))
        else
            differ=$((differ + 1))
            echo "law: $(basename "$stream") differs"
        fi
    done
    calls=$(cat "$work/streams"/*.lines | wc -l | tr -d ' ')
    echo "law: $2 streams of seed $1, $calls calls, $differ differ"
    echo "$same passed, $differ failed"
    [ "$differ" -eq 0 ]
}

# rolls SEED N: rolling cards' streams
rolls() {
    "$model" states --rolling --seed "$1" --n "$2" >"$work/rolls"
    "$law" rolls <"$work/rolls" >"$work/rolls.law"
    calls=$(grep -vc '^fresh$' "$work/rolls")
    if cmp "$work/rolls" "$work/rolls.law"; then
        echo "law: $2 rolling streams of seed $1, $calls calls, 0 differ"
        echo "$calls passed, 0 failed"
    else
        echo "0 passed, $calls failed"
        return 1
    fi
}

# recordings SEED N: recordings of N streams, whole, cut and damaged
recordings() {
    rm -rf "$work/recordings"
    "$model" recordings --seed "$1" --n "$2" --out "$work/recordings" --floors off >/dev/null
    "$law" recordings "$work/recordings" >"$work/found"
    n=$(wc -l <"$work/found" | tr -d ' ')
    if cmp "$work/found" "$work/recordings/lines.txt"; then
        echo "law: $n recordings of seed $1, 0 differ"
        echo "$n passed, 0 failed"
    else
        echo "0 passed, $n failed"
        return 1
    fi
}

# recalls N: the second engine's rules on the first N streams that batch wrote
recalls() {
    same=0 differ=0
    for stream in $(find "$work/streams" -name '*.in' | sort | head -n "$1"); do
        "$law" recalls "$stream"
        if cmp -s "$stream.recall" "$stream.model"; then
            same=$((same + 1))
        else
            differ=$((differ + 1))
            echo "law: $(basename "$stream") differs by the second engine's rules"
        fi
    done
    echo "$same passed, $differ failed"
    [ "$differ" -eq 0 ]
}

# streams SEED N: in batches of 50; the seed of each is one higher
streams() {
    seed=$1 left=$2
    while [ "$left" -gt 0 ]; do
        n=$((left < 50 ? left : 50))
        batch "$seed" "$n" || return 1
        recalls 1 || return 1
        rolls "$seed" $(((n + 4) / 5)) || return 1
        recordings "$seed" $(((n + 49) / 50)) || return 1
        seed=$((seed + 1)) left=$((left - n))
    done
}

# cues SEED N: cue calls
cues() {
    "$model" cues --seed "$1" --n "$2" --rows >"$work/rows"
    "$law" cues <"$work/rows" >"$work/rows.law"
    if diff "$work/rows" "$work/rows.law" | head -n 5 | grep .; then
        echo "0 passed, $2 failed"
        return 1
    fi
    echo "$2 passed, 0 failed"
}

# kit: the statements of `law kit`, in a scratch repository
kit() {
    rm -rf "$work/kit"
    mkdir -p "$work/kit/crates/trial/src" "$work/kit/crates/trial/specs"
    echo 'trial:' >"$work/kit/crates.txt"
    echo '// The statements stand in specs/.' >"$work/kit/crates/trial/src/lib.rt"
    echo 'pub mod Kit' >"$work/kit/crates/trial/specs/Lib.antt"
    "$law" kit >"$work/kit/crates/trial/specs/Kit.antt"
    n=$(grep -c '= refl$' "$work/kit/crates/trial/specs/Kit.antt")
    if (cd "$work/kit/crates/trial" && rt check >../../check.log 2>&1); then
        echo "$n passed, 0 failed"
    else
        tail -n 20 "$work/kit/check.log" | cut -c 1-400
        echo "0 passed, $n failed"
        return 1
    fi
}

# halves: all mutants, by two processes; one table of both
halves() {
    "$law" mutate --part 0/2 >"$work/half.0" &
    other=$!
    status=0
    "$law" mutate --part 1/2 >"$work/half.1" || status=1
    wait "$other" || status=1
    grep -hvE '^[|]' "$work/half.0" "$work/half.1"
    awk -F'[|]' '
    /^[|] (File|all) / || /^[|]---/ { next }
    /^[|]/ { for (i = 3; i < 8; i++) { n[$2, i] += $i; sum[i] += $i } if (!seen[$2]++) order[++k] = $2 }
    END {
        print "| File | Mutants | Noticed | Equal | Open | Reached by no case |\n|---|---|---|---|---|---|"
        for (j = 1; j <= k; j++) row(order[j], 1)
        row(" all ", 0)
    }
    function row(name, own,   i, line) {
        line = "|" name "|"
        for (i = 3; i < 8; i++) line = line " " (own ? n[name, i] : sum[i]) + 0 " |"
        print line
    }' "$work/half.0" "$work/half.1"
    return "$status"
}

if [ "$what" != --mutants ] && [ "$what" != --kit ]; then
    CARGO_TARGET_DIR=target/model cargo build --quiet --release --offline --manifest-path model/Cargo.toml
fi
case $what in
--kit) needs rt; ran kit kit || : ;;
--streams) ran streams streams "$2" "$3" || : ;;
--mutants)
    shift
    if [ $# -eq 0 ]; then
        ran mutants halves || :
    else
        ran mutants "$law" mutate "$@" || :
    fi
    ;;
--gate)
    needs rt
    ran read "$law" read || :
    ran cases "$law" cases || :
    ran named "$law" named || :
    ran kit kit || :
    ran streams batch 280 36 || :
    ran recalls recalls 6 || :
    ran rolls rolls 280 20 || :
    ran recordings recordings 280 1 || :
    ran cues cues 280 2000 || :
    # a part of the mutants, by the commit
    part=$((0x$(git rev-parse HEAD 2>/dev/null | cut -c 1-6 | grep . || echo 0) % parts))
    echo "law: part $part of $parts of the mutants"
    ran mutants "$law" mutate --part "$part/$parts" || :
    ;;
esac
echo "$passed passed, $failed failed"
[ "$failed" -eq 0 ]

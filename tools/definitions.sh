#!/bin/sh
# definitions.sh SEED N: holds the definitions themselves against the second program. For N generated streams it states that the
# definition `card` of the input is the second program's output, byte for byte, and has the prover compute it.
# The statements stand in a scratch repository elsewhere, nothing of them is kept. The last line is 'N passed, M failed'.
set -eu
. "$(dirname "$0")/words.sh"
[ $# -le 2 ] || refuse 'a seed and a number of streams'
for word; do
    case $word in
    '' | *[!0-9]*) refuse "'$word' is no number" ;;
    esac
done
needs rt
needs_rust 1.81
cd "$(dirname "$0")/.."
seed=${1:-1}
count=${2:-4}
apart
work=$room
mkdir -p "$work/crates/trial/src" "$work/crates/trial/specs" "$work/streams"
CARGO_TARGET_DIR=target/model cargo build --quiet --release --offline --manifest-path model/Cargo.toml
model=target/model/release/model
"$model" gen --seed "$seed" --n "$count" --out "$work/streams" >/dev/null
mkdir "$work/crates/rules"
cp -R crates/rules/src crates/rules/specs crates/rules/proofs "$work/crates/rules"
printf 'rules:\ntrial: rules\n' >"$work/crates.txt"
echo '// The statements stand in specs/.' >"$work/crates/trial/src/lib.rt"
echo 'pub mod Trial' >"$work/crates/trial/specs/Lib.antt"

# numbers: standard input as the elements of a list
numbers() {
    od -An -v -tu1 | awk '{ for (i = 1; i <= NF; i++) printf "%s ∷ ", $i } END { print "[]" }'
}

# every definition of rules that has to be computed with, by its module's name
modules='Lists Bytes State Recent Hardware Descriptors Streams Request Reading Records Ends Instants Splicing Answers HouseNumbers Calls'
modules="$modules Card"
names=$(for m in $modules; do
    sed -nE "s/^ *unfoldable pub ([^ ]+).*/$m.\\1/p" "crates/rules/specs/$m.antt"
done | tr '\n' ' ')

{
    echo '-- the definition of the card program and the second program, on the same streams'
    echo 'use Rattle.std.specs.Prelude.{◌≡◌, refl, List, [], ◌∷◌, ℕ}'
    for m in $modules; do
        echo "use Rattle.rules.specs.$m"
    done
    i=0
    for stream in "$work"/streams/*; do
        printf '\npub given%s : List ℕ\ngiven%s = ' "$i" "$i"
        numbers <"$stream"
        printf '\npub wanted%s : List ℕ\nwanted%s = ' "$i" "$i"
        "$model" card <"$stream" | numbers
        printf '\npub same%s : Card.card given%s ≡ wanted%s\nunfolding given%s wanted%s %s\nsame%s = refl\n' \
            "$i" "$i" "$i" "$i" "$i" "$names" "$i"
        i=$((i + 1))
    done
} >"$work/crates/trial/specs/Trial.antt"

echo "definitions: the prover computes $count streams of seed $seed"
if (cd "$work/crates/trial" && rt check >../../check.log 2>&1); then
    echo "definitions: $count streams of seed $seed, 0 differ"
    echo "$count passed, 0 failed"
else
    cut -c 1-400 "$work/check.log" | tail -n 20
    echo "0 passed, $count failed"
    exit 1
fi

#!/bin/sh
# cases.sh [--check]: writes the scenarios as tables of the crate cases, where the prover holds the definitions to them. Scenario and
# the tables named in `hand` there are written by hand.
# With --check it changes nothing and says whether the crate has these tables. The last line is then 'N passed, M failed'.
set -eu
. "$(dirname "$0")/words.sh"
case $#${1:-} in
0 | 1--check) ;;
*) refuse "only --check, not '$*'" ;;
esac
needs_rust 1.81
cd "$(dirname "$0")/.."
LC_ALL=C
export LC_ALL
specs=crates/cases/specs
hand='Layouts Rooms Rehearsed Histories Worked Moved Counted Days Mux DueCases DueWitness Lately Sections Cued Extended Config'
hand="$hand Heard LatelyCases KeptCases MomentsCases ToldCases ToldNumbers ToldRequests AlikeCases HeldCases Widths Numbers Places"
hand="$hand RecordsRead Marks Accounts ReadRows Recalled RecalledCalls RecalledLists Sequenced SoundCases"
apart
made=$room/cases
mkdir "$made"
CARGO_TARGET_DIR=target/model cargo build --quiet --release --offline --manifest-path model/Cargo.toml
target/model/release/model scenario --tables "$made" model/scenarios/*.txt

# a field of many bytes goes over several lines
for file in "$made"/Case[0-9A-Z]*.antt; do
    awk '
    {
        while (length($0) > 140 && match($0, /^ *\+\+ "[0-9A-F]+"$/)) { print substr($0, 1, 136) "\""; $0 = "    ++ \"" substr($0, 137) }
        print
    }
    ' "$file" >"$file.new" && mv "$file.new" "$file"
done

# what Scenario hands on, in two lines
first='digit, hex, row, input, output, joined, each_step, each_run'
second='outputs, one_more, calls_in, size, same, Fits, Written'

# the modules of rules that the card program and what is read of cues are written in, those of demand 3 and of CR 13, and their definitions
modules='Lists Bytes State Recent Hardware Descriptors Streams Request Reading Records Ends Instants Splicing Answers Crc Cues'
modules="$modules HouseNumbers Calls Listing Card Follows.ReadBack Follows.Sequences"
# unfolded CRATE MODULE: its definitions that are unfolded, by their names in Computing
unfolded() {
    sed -nE "s/^ *unfoldable pub ([^ ]+).*/${2#Follows.}.\\1/p" "crates/$1/specs/$(echo "$2" | tr . /).antt"
}
names=$({
    for m in $modules; do unfolded rules "$m"; done
    for m in History Airing; do unfolded demands "$m"; done
} | tr '\n' ' ')
{
    echo '-- The definitions that the tables are computed with, made by tools/cases.sh: `unfolding computing` unfolds them all.'
    echo 'use Rattle.std.specs.Prelude.{ℕ}'
    for m in $modules; do [ -z "$(unfolded rules "$m")" ] || echo "use Rattle.rules.specs.$m"; done
    for m in History Airing; do echo "use Rattle.demands.specs.$m"; done
    for words in "$first" "$second"; do echo "use Rattle.cases.specs.Scenario.{$words}"; done
    printf '\nunfoldable pub computing : ℕ\n'
    echo "unfolding $first $second $names" | tr -d ',' | fold -s -w 132 | sed 's/ *$//; 2,$s/^/    /'
    echo 'computing = 0'
} >"$made/Computing.antt"
for file in Scenario $hand; do cp "$specs/$file.antt" "$made/"; done
(cd "$made" && printf 'pub mod %s\n' Scenario Computing $hand && ls | sed -n 's/^\(Case[0-9A-Z].*\)\.antt$/pub mod \1/p') >"$room/list"
mv "$room/list" "$made/Lib.antt"

if [ "${1:-}" = --check ]; then
    if diff -r "$made" "$specs"; then
        echo '1 passed, 0 failed'
    else
        echo '0 passed, 1 failed'
        exit 1
    fi
else
    rm -f "$specs"/Case[0-9A-Z]*.antt
    cp "$made"/*.antt "$specs/"
fi

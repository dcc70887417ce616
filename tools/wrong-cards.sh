#!/bin/sh
# wrong-cards.sh: what no promise of the card program can say (which bytes its reads and writes move: standard_streams, src/stdio.rt) is
# seen by runs, and so is a wrong loop, which its promise refuses. Each edit of crates/card/wrong-runs makes a wrong program of it, built
# here WITHOUT proof, of the module that `rt try` compiles; the run with input in pieces (model pieces) must notice it, and must pass the
# program of the source as it stands, built in the same way.
# Needs target/model/release/model (tools/compare.sh builds it). The last line is 'N passed, M failed'.
set -eu
. "$(dirname "$0")/words.sh"
no_words "$@"
needs rt
find_kit
cd "$(dirname "$0")/.."
target=x86_64-unknown-linux-gnu
model=target/model/release/model
here=$PWD
passed=0
failed=0
[ -x "$model" ] || { echo "wrong-cards.sh: $model is missing: sh tools/compare.sh builds it" >&2; exit 1; }

# a copy of the repository, outside of it
apart
work=$room
mkdir -p "$work/repo/.git"
cp crates.txt "$work/repo/"
for part in crates/*/src crates/*/specs; do
    mkdir -p "$work/repo/$(dirname "$part")"
    cp -R "$part" "$work/repo/$part"
done

# changed EDIT FILE: the text of FILE with the edit made; its old text must stand there once
changed() {
    awk -v edit="$1" '
    BEGIN {
        while ((getline line < edit) > 0) {
            if (line ~ /^old: /) { part = "old"; old = substr(line, 6) }
            else if (line ~ /^new: /) { part = "new"; new = substr(line, 6) }
            else if (line ~ /^(#|file: )/) part = ""
            else if (part == "old") old = old "\n" line
            else if (part == "new") new = new "\n" line
        }
    }
    { text = text $0 "\n" }
    END {
        at = index(text, old)
        if (!at || index(substr(text, at + 1), old)) exit 1
        printf "%s%s%s", substr(text, 1, at - 1), new, substr(text, at + length(old))
    }' "$2"
}

# built [EDIT]: the program $work/card, wrong by the edit if there is one
built() {
    rm -rf "$work/module.bc" "$work/card" "$work/log" "$work/said"
    for part in card standard_streams; do
        rm -rf "$work/repo/crates/$part/src"
        cp -R "crates/$part/src" "$work/repo/crates/$part/"
    done
    if [ $# -gt 0 ]; then
        file=$(sed -n 's/^file: //p' "$1")
        changed "$1" "crates/card/$file" >"$work/repo/crates/card/$file" || return 1
    fi
    # its own run is on nothing, and what it says of that is no matter
    (cd "$work/repo/crates/card" && sh "$here/tools/kept-module.sh" "$work" try --steps 1 </dev/null) >"$work/log" 2>&1 ||
        [ -f "$work/module.bc" ] || return 1
    "$kit/toolchain/bin/clang" --target=$target -march=x86-64 --no-default-config -no-canonical-prefixes -x ir -c -fPIC -O3 \
        "$work/module.bc" -o "$work/card.o" 2>>"$work/log" || return 1
    "$kit/bin/rattle-link" --target $target --toolchain "$kit/toolchain" -o "$work/card" "$work/card.o" "$kit/c/libos_c.a" \
        "$kit/c/liblibc_c.a" >>"$work/log" 2>&1
}

# runs: with input in pieces, as the gate runs the proved program
runs() {
    "$model" pieces --seed 280 --n 2 --card "sh tools/run-program.sh $work/card" >"$work/said" 2>&1
}

# said GOOD TEXT: counts it
said() {
    echo "wrong-cards: $2"
    if "$1"; then passed=$((passed + 1)); else failed=$((failed + 1)); fi
}

echo 'wrong-cards: building and running the source as it stands'
if built && runs; then
    said true 'the source as it stands passes'
else
    cat "$work/log" "$work/said" 2>/dev/null | tail -n 5
    said false 'the source as it stands does NOT pass'
fi
for edit in crates/card/wrong-runs/*.edit; do
    name=$(basename "$edit" .edit)
    echo "wrong-cards: trying $name"
    if ! built "$edit"; then
        tail -n 5 "$work/log" 2>/dev/null || :
        said false "$name was not built"
    elif runs; then
        said false "$name was NOT noticed"
    elif line=$(grep -m 1 ': differs' "$work/said"); then
        said true "$name noticed: $line"
    else
        tail -n 5 "$work/said"
        said false "$name did not run"
    fi
done
echo "$passed passed, $failed failed"
[ "$failed" -eq 0 ]

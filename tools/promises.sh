#!/bin/sh
# promises.sh [--check]: writes docs/PROMISES.md: for each crate, in the order of docs/CRATES.md, what tools/promises says of it by hand,
# each function with its contract, and each edit under the function that it changes; with --check it only compares. An edit whose text is in
# no file of its crate is an error. The last line is 'N passed, M failed'.
set -eu
. "$(dirname "$0")/words.sh"
makes promises "$@"
made=$work/PROMISES.md
: >"$work/errors"

# functions CRATE: its sources and edits as one stream for made.awk
functions() {
    for source in $(git ls-files "crates/$1/src/*.rt"); do
        echo "source ${source#crates/"$1"/}"
        sed 's/^/ /' "$source"
    done
    for edit in $(git ls-files "crates/$1/must-fail/*.edit" "crates/$1/more-edits/*.edit"); do
        echo "edit $(basename "$edit" .edit)"
        sed 's/^/ /' "$edit"
    done
}

cat tools/promises/head.md >"$made"
for crate in $(sed -n 's/^| `\([a-z_]*\)` |.*/\1/p' docs/CRATES.md); do
    printf '\n## `%s`\n' "$crate" >>"$made"
    if [ -f "tools/promises/$crate.md" ]; then
        echo >>"$made"
        cat "tools/promises/$crate.md" >>"$made"
    fi
    functions "$crate" | awk -v crate="$crate" -f tools/wrap.awk -f tools/promises/made.awk >>"$made" 2>>"$work/errors"
done
printf '\n## The bad programs of document 01\n\n' >>"$made"
cat tools/promises/bad.md >>"$made"
printf '\n## Premises\n\n' >>"$made"
cat tools/promises/premises.md >>"$made"
awk -f tools/wrap.awk -f tools/promises/premises.awk tools/premises/table.txt >>"$made"
as_made "$made" docs/PROMISES.md "$work/errors"
echo "$(grep -c '^- `' "$made") passed, $failed failed"
[ "$failed" -eq 0 ]

#!/bin/sh
# lines.sh: for each listed crate the lines of code, definitions, laws and function proofs (blank lines, comments and imports left out),
# its public functions, and its must-fail edits, as a table.
set -eu
. "$(dirname "$0")/words.sh"
no_words "$@"
cd "$(dirname "$0")/.."

# code FILE..: lines that are neither blank, comment nor import
code() {
    if [ $# -eq 0 ]; then
        echo 0
    else
        cat "$@" | grep -cvE '^[[:space:]]*($|//|--|#!\[|use |pub use |ghost use |pub mod |mod )' || true
    fi
}

echo '| Crate | Functions | Code | Definitions | Laws | Function proofs | Edits |'
echo '|---|---|---|---|---|---|---|'
sed -nE 's/^([a-z0-9_]+)( staticlib)?:.*/\1/p' crates.txt | while read -r name; do
    dir=crates/$name
    src=$(find "$dir/src" -name '*.rt')
    specs=$(find "$dir/specs" -name '*.antt' ! -name Lib.antt 2>/dev/null || true)
    laws=$(find "$dir/proofs" -maxdepth 1 -name '*.antt' ! -name Lib.antt 2>/dev/null || true)
    proofs=$(find "$dir/proofs" -mindepth 2 -name '*.antt' 2>/dev/null || true)
    functions=$(cat $src | grep -cE '^[[:space:]]*(pub )?(unsafe )?(extern "C" )?fn ' || true)
    gate=$({
        find "$dir/must-fail" -name '*.edit' || :
        find "$dir/more-edits" -name '*.edit' -exec grep -l '^# gate$' {} +
    } 2>/dev/null | wc -l)
    edits=$(find "$dir/must-fail" "$dir/more-edits" -name '*.edit' 2>/dev/null | wc -l)
    echo "| $name | $functions | $(code $src) | $(code $specs) | $(code $laws) | $(code $proofs) | $gate of $edits |"
done

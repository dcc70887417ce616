#!/bin/sh
# reading.sh [--check]: writes docs/READING.md from tools/reading/sentences.txt (every sentence of documents 01 and 02 in its order, with
# remarks by hand), from the quotes in the comments above the definitions, from the law's run (which worked cases come to which definition)
# and from the wrong readings of crates/cases: under each sentence the definitions that quote it, the remark, the worked cases, the wrong
# readings that are refused and by which table. With --check it only compares. A sentence without definition or remark, a quote of
# crates/rules/specs that is in no sentence, a name by hand that its file of the law has not, and a wrong reading of no definition are
# errors. The last line is 'N passed, M failed'.
set -eu
. "$(dirname "$0")/words.sh"
needs_rust 1.81
makes reading "$@"
CARGO_TARGET_DIR=target/law cargo build --quiet --release --offline --manifest-path law/Cargo.toml
target/law/release/law reach >"$work/reach"

# quotes FILE..: a line for each quote above a definition: file, name, quote; and one for each definition's text: file, name, line
quotes() {
    awk '
    FNR == 1 { said = ""; name = "" }
    /^--/ { line = $0; sub(/^-- ?/, "", line); said = said (said == "" ? "" : " ") line; next }
    /^use / || /^$/ { if ($0 == "") said = ""; next }
    {
        if ($0 !~ /^ /) {
            at = 1
            while ($at ~ /^(abbrev|pub|data|record|unfoldable|opaque)$/) at++
            name = $at
            sub(/:$/, "", name)
            rest = said
            while (match(rest, /"[^"]*"/)) {
                printf "quote\t%s\t%s\t%s\n", FILENAME, name, substr(rest, RSTART + 1, RLENGTH - 2)
                rest = substr(rest, RSTART + RLENGTH)
            }
        }
        said = ""
        printf "text\t%s\t%s\t%s\n", FILENAME, name, $0
    }' "$@"
}

# wrong_readings: a line for each: label, table, file, old text, what its comment quotes
wrong_readings() {
    for edit in crates/cases/readings/*.edit crates/cases/more-readings/*.edit; do
        awk -v label="$(basename "$edit" .edit)" '
        /^# table: / { table = substr($0, 10); next }
        /^# / { while (match($0, /"[^"]*"/)) { said = said "\t" substr($0, RSTART + 1, RLENGTH - 2); $0 = substr($0, RSTART + RLENGTH) } }
        /^file: / && file == "" { file = substr($0, 13); sub(/\.antt$/, "", file) }
        /^old: / && !/^old: use / && old == "" { old = substr($0, 6) }
        END { printf "wrong\t%s\t%s\t%s\t%s%s\n", label, table, file, old, said }' "$edit"
    done
}

# the law first, then what the demands say, then the others
quotes $(git ls-files 'crates/rules/specs/*.antt' 'crates/demands/specs/*.antt') \
    $(git ls-files 'crates/*/specs/*.antt' | grep -vE '^crates/(cases|rules|demands)/') >"$work/quotes"
wrong_readings >"$work/wrong"
awk -f tools/wrap.awk -f tools/reading/made.awk "$work/quotes" "$work/wrong" "$work/reach" tools/reading/sentences.txt \
    >"$work/READING.md" 2>"$work/errors" || true
as_made "$work/READING.md" docs/READING.md "$work/errors"
passed=$(grep -c '^- [^*`]' "$work/READING.md" || true)
echo "$passed passed, $failed failed"
[ "$failed" -eq 0 ]

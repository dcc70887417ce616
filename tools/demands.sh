#!/bin/sh
# demands.sh [--check]: writes docs/DEMANDS.md: what stands in tools/demands by hand, and between it the theorems about what C sees, from
# Demands, Due and Sessions of crates/demands_door/proofs, and those that the rolling card has beside them, each by its comment; with
# --check it only compares. A theorem without a comment stands with the one before it. The last line is 'N passed, M failed'.
set -eu
. "$(dirname "$0")/words.sh"
makes demands "$@"
door='Demands Due Sessions'

# theorems FILE [WITHOUT]: a line for each heading and theorem of a file: kind, name, words; those that WITHOUT lists by name are left out
theorems() {
    awk -v without="${2:-}" '
    BEGIN { while (without != "" && (getline one <without) > 0) known[one] = 1 }
    { match($0, /^ */); line = substr($0, RLENGTH + 1) }
    line ~ /^-- ## / { print "heading\t" substr(line, 7); said = ""; next }
    line ~ /^--/ { sub(/^-- ?/, "", line); said = said (said == "" ? "" : " ") line; next }
    line ~ /^pub [a-z0-9_-]+ :/ {
        name = line
        sub(/^pub /, "", name)
        sub(/ :.*/, "", name)
        if (!(name in known)) print (said == "" ? "with" : "theorem") "\t" name "\t" said
        said = ""
        next
    }
    line ~ /^module / { said = ""; next }
    { said = "" }' "$1"
}

# list [flat=1]: those lines as Markdown
list() {
    awk -f tools/wrap.awk -f tools/demands/list.awk "$@" -
}

# of CRATE [WITHOUT]: the theorems of its three files
of() {
    crate=$1
    shift
    for file in $door; do
        [ "$file" != Due ] || printf 'heading\t%s\n' 'What is due'
        [ "$file" != Sessions ] || printf 'heading\t%s\n' 'Sessions held'
        theorems "crates/$crate/proofs/$file.antt" "$@"
    done
}

of demands_door | cut -f 2 >"$work/names"
{
    cat tools/demands/head.md
    of demands_door | list
    printf '\n## The card with a rolling counter\n\n'
    cat tools/demands/rolling.md
    of demands_rolling "$work/names" | list flat=1
    echo
    cat tools/demands/below.md
} >"$work/DEMANDS.md"
: >"$work/errors"
as_made "$work/DEMANDS.md" docs/DEMANDS.md "$work/errors"
echo "$(grep -cE '^- (\*\*[^*]*\*\* )?`' "$work/DEMANDS.md") passed, $failed failed"
[ "$failed" -eq 0 ]

#!/bin/sh
# tour.sh [--check]: writes docs/CRATES.md, the tables that belong to docs/TOUR.md: the crates, from crates.txt and the first line of each,
# in wings, and the files of the law, from the first line of each; with --check it only compares. A crate that is in no wing or in two, that
# crates.txt does not list, or whose first line is no comment of 113 columns at most is an error; so is an import of crates.txt that its
# crate does not use. The last line is 'N passed, M failed'.
set -eu
. "$(dirname "$0")/words.sh"
makes tour "$@"
: >"$work/errors"

# the wings, in the order in which a reader walks through them; a line that begins with a space goes on
sed -e :a -e '$!N; s/\n  */ /; ta' -e 'P; D' >"$work/wings" <<'END'
The law: rules cases
The core, from the bottom up: units reply writing reading places memory ends instants checks requests answers cues relay engine
    streams rows feed
Doors, for C: door door_rolling door_bench door_c door_rolling_c door_bench_c
Programs: standard_streams card checker referee remember
The rolling card: rolling
The second engine: recall_rules recall_rows recall_ends recall_instants recall_requests recall_answers recall_log recall_pass recall
The bench: recording judge follow
The statements: demands demands_engine demands_door demands_rolling demands_recall demands_referee
END

# wrong WORD..: one line
wrong() {
    echo "$*" >>"$work/errors"
}

# source NAME: the file that a crate begins with
source() {
    if [ -f "crates/$1/src/lib.rt" ]; then echo "crates/$1/src/lib.rt"; else echo "crates/$1/src/main.rt"; fi
}

# row NAME: its row of the table
row() {
    first=$(head -n 1 "$(source "$1")")
    case $first in
    '// '*) ;;
    *) wrong "$1 begins with no comment" ;;
    esac
    [ ${#first} -le 113 ] || wrong "the first line of $1 has ${#first} columns"
    echo "| \`$1\` | ${first#// } |"
}

# table: all rows, a head for each wing
table() {
    while IFS= read -r line; do
        printf '\n%s:\n\n| Crate | Holds |\n|---|---|\n' "${line%%:*}"
        for name in ${line#*:}; do row "$name"; done
    done <"$work/wings"
    echo
}

# law: the files of the law in the order in which they are read, and what follows from it, each with its first line
law() {
    printf '\n| File | Holds |\n|---|---|\n'
    for name in $(cd crates/rules/specs && sed -n 's/^pub mod //p' Lib.antt && sed -n 's/^pub mod /Follows\//p' Follows.antt); do
        first=$(head -n 1 "crates/rules/specs/$name.antt")
        case $first in
        '-- '*) ;;
        *) wrong "crates/rules/specs/$name.antt begins with no comment" ;;
        esac
        [ $((${#first} + ${#name})) -le 128 ] || wrong "the first line of crates/rules/specs/$name.antt is too long for a table"
        echo "| $name | ${first#-- } |"
    done
}

# imports: each word of crates.txt that its crate has no use for
imports() {
    sed 's/#.*//' crates.txt | while IFS=: read -r name rest; do
        name=${name%% *}
        for import in $rest; do
            word="Rattle\\.$import\\.|(^|[^a-z_:])$import::"
            found=$(find "crates/$name" \( -name '*.rt' -o -name '*.antt' \) -exec grep -lE "$word" {} +) || :
            [ -n "$found" ] || wrong "$name does not use $import"
        done
    done
}

sed 's/#.*//; s/[ :].*//; /^ *$/d' crates.txt | sort >"$work/listed"
sed 's/.*://' "$work/wings" | tr -s ' ' '\n' | sed '/^$/d' | sort >"$work/walked"
diff "$work/listed" "$work/walked" |
    sed -n 's/^< \(.*\)/\1 stands in no wing/p; s/^> \(.*\)/\1 stands in two wings, or is no crate/p' >>"$work/errors"
imports
{
    echo '# The crates, and the files of the law'
    echo
    echo 'For [TOUR.md](TOUR.md): made by `sh tools/tour.sh` from `crates.txt` and the first lines of the files.'
    echo
    echo '## Crates'
    table
    echo '## The law'
    echo
    echo 'In the order in which it is read, in `crates/rules/specs`.'
    law
} >"$work/page"
as_made "$work/page" docs/CRATES.md "$work/errors"
[ "$failed" -gt 0 ] && passed=0 || passed=$(($(wc -l <"$work/listed")))
echo "$passed passed, $failed failed"
[ "$failed" -eq 0 ]

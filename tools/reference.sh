#!/bin/sh
# reference.sh [--check]: writes the table of functions of docs/INTEGRATION.md, between its two marks, from the comments of the headers;
# with --check it only compares. A function of a header that a driver calls and whose comment does not say what it refuses, costs and what
# other threads may do meanwhile is an error. The last line is 'N passed, M failed'.
set -eu
. "$(dirname "$0")/words.sh"
makes reference "$@"
page=docs/INTEGRATION.md

# functions HEADER: a row for each inline function
functions() {
    awk '
    /^\/\*/ { said = "" }
    { said = said " " $0 }
    /^static inline / {
        name = $0
        sub(/\(.*/, "", name)
        sub(/.*[ *]/, "", name)
        if (said !~ /Refused: .*Cost: .*Threads: /) { print "no Refused, Cost and Threads: " name >"/dev/stderr"; next }
        refused = cost = threads = said
        sub(/.*Refused: /, "", refused); sub(/\. *(\*)? *Cost: .*/, "", refused)
        sub(/.*Cost: /, "", cost); sub(/\. *(\*)? *Threads: .*/, "", cost)
        sub(/.*Threads: /, "", threads); sub(/\. *\*\/.*/, "", threads)
        gsub(/ \* /, " ", refused); gsub(/ \* /, " ", cost); gsub(/ \* /, " ", threads)
        # what the header says at length stands there
        if (length(name refused cost threads) > 120) sub(/;.*/, ", ..", cost)
        add("`" name "`", " | " refused " | " cost " | " threads " |")
        said = ""
    }
    # those of which all is the same stand in one row, as far as it goes
    function add(name, rest,    i) {
        for (i = rows; i > 0 && of[i] != rest; i--);
        if (i > 0 && length("| " names[i] ", " name rest) <= 140) { names[i] = names[i] ", " name; return }
        rows++
        names[rows] = name
        of[rows] = rest
    }
    END { for (i = 1; i <= rows; i++) print "| " names[i] of[i] }' "$1"
}

# table: all of them
table() {
    printf '\n| Function | Refused | Cost, instructions | Threads |\n|---|---|---|---|\n'
    for header in splicer.h splicer_text.h splicer_record.h splicer_bench.h; do
        echo "| **$header** | | | |"
        functions "include/$header"
    done
    echo
}

table >"$work/table" 2>"$work/errors"
awk -v table="$work/table" '
/^<!-- made by tools\/reference.sh -->$/ { print; while ((getline line <table) > 0) print line; skip = 1; next }
/^<!-- made so far -->$/ { skip = 0 }
!skip' "$page" >"$work/page"
as_made "$work/page" "$page" "$work/errors"
echo "$(grep -o '`[^`]*`' "$work/table" | grep -c .) passed, $failed failed"
[ "$failed" -eq 0 ]

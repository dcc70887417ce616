#!/bin/sh
# shape.sh [--check]: the shape of the house in numbers: parameters of functions, columns of lines and of contracts, paths into the facts of
# a proof, imports before a file's first statement. Prints a table; with --check it also holds the numbers to the bounds below, and its
# last line is 'N passed, M failed'.
set -eu
. "$(dirname "$0")/words.sh"
case $#${1:-} in
0 | 1--check) ;;
*) refuse "only --check, not '$*'" ;;
esac
cd "$(dirname "$0")/.."
sources=$(git ls-files 'crates/*.rt')
proofs=$(git ls-files 'crates/*.antt')
# columns are characters: in the C locale every awk has bytes, of which those that continue a character are not counted
LC_ALL=C
export LC_ALL

# parameters: those of every `fn`, in one line or in several
parameters() {
    # shellcheck disable=SC2086
    awk '
    FNR == 1 { on = 0 }
    /^[ \t]*(#\[.*\] *)?(pub )?(unsafe )?(extern "C" )?fn / { on = 1; text = "" }
    on { text = text " " $0; if (index(text, ")")) { on = 0; count(text) } }
    function count(s,    n, c) {
        c = s ~ /(extern "C" fn|fn splicer_)/
        sub(/^[^(]*\(/, "", s)
        sub(/\).*/, "", s)
        n = gsub(/[a-z_0-9]: |self/, "&", s)
        functions++
        sum += n
        if (n > 6) many++
        if (n > 6 && !c) own++
        if (n > most) most = n
    }
    END { printf "%d %d %d %d %d\n", functions, sum, many, most, own }' $sources
}

# contracts: characters of `requires` and `ensures` lines, and of the lines that follow one up to its closing brace
contracts() {
    # shellcheck disable=SC2086
    awk '
    function columns(s) { gsub(/[\200-\277]/, "", s); return length(s) }
    /^[ \t]*(requires|ensures)/ { on = 1 }
    on { n = columns($0); sum += n; if (n > 140) wide++; if (n > most) most = n; if (/\}[ \t]*$/) on = 0 }
    END { printf "%d %d %d\n", sum, wide, most }' $sources
}

# lines: all, those above 140 columns, and the longest
lines() {
    # shellcheck disable=SC2086
    awk '
    function columns(s) { gsub(/[\200-\277]/, "", s); return length(s) }
    { n = columns($0); if (n > 140) wide++; if (n > most) most = n }
    END { printf "%d %d %d\n", NR, wide, most }' $sources $proofs
}

# paths: runs of `.before`, in proofs that walk a function by hand; answers name each step
paths() {
    # shellcheck disable=SC2086
    awk '
    {
        line = $0
        while (match(line, /(\.before ?)+/)) {
            s = substr(line, RSTART, RLENGTH)
            n = gsub(/\.before/, "", s)
            all++
            sum += n
            if (n >= 10) long++
            if (n > most) most = n
            line = substr(line, RSTART + RLENGTH)
        }
    }
    END { printf "%d %d %d %.1f\n", all, long, most, all ? sum / all : 0 }' $proofs
}

# imports: of the files with the customer's statements, the most lines that bring names in: a file below each hands them on (Words)
imports() {
    statements=$(echo "$proofs" | tr ' ' '\n' | grep -E '/proofs/Demands.antt$|^crates/demands_recall/proofs/(Alike|InC).antt$')
    # shellcheck disable=SC2086
    awk '
    FNR == 1 { n = 0 }
    /^((unfoldable )?pub )?(use|mod) / { n++; if (n > most) most = n }
    END { print most + 0 }' $statements
}

# row WHAT VALUE [MOST]: a row of the table, and whether the value is within its bound
row() {
    if [ $# -eq 2 ]; then
        echo "| $1 | $2 | |"
    elif [ "$2" -le "$3" ]; then
        echo "| $1 | $2 | at most $3 |"
        passed=$((passed + 1))
    else
        echo "| $1 | $2 | at most $3: FAILED |"
        failed=$((failed + 1))
    fi
}

passed=0
failed=0
# shellcheck disable=SC2046
set -- "${1:-}" $(parameters) $(contracts) $(lines) $(paths) $(imports)
echo '| What | | Bound |'
echo '|---|---|---|'
row 'functions' "$2"
row 'parameters of all' "$3"
row 'functions with more than 6 parameters' "$4"
row 'of these not for C' "$6" 2
row 'the most parameters of one' "$5" 8
row 'characters of contracts' "$7"
row 'contract lines above 140 columns' "$8" 0
row 'lines of .rt and .antt' "${10}"
row 'lines above 140 columns' "${11}" 0
row 'the longest line' "${12}" 140
row 'paths (runs of .before)' "${13}"
row 'paths of ten or more' "${14}" 0
row 'the longest path' "${15}" 9
row 'mean path' "${16}"
row 'import lines of a statement file, the most' "${17}" 10
[ "$1" = --check ] || exit 0
echo "$passed passed, $failed failed"
[ "$failed" -eq 0 ]

#!/bin/sh
# alone.sh: the law alone: every definition of crates/rules/specs is reached from what is asked of a splicer (fresh, the calls, the reads,
# the card program, the rolling card, lists of streams), but for those of specs/Follows, of which none is. A line for each that is in the
# wrong place, and for a file above 200 lines. The last line is 'N passed, M failed'.
set -eu
. "$(dirname "$0")/words.sh"
no_words "$@"
cd "$(dirname "$0")/.."
LC_ALL=C
export LC_ALL
# what is asked, and what the contracts say of an answer: bytes consumed, the buffer after it
roots='fresh call after card roll consumed_by buffer_after waits air_mux section_of recent separate_in separate_bytes'
roots="$roots air_row due_row step_row held_rows held_number row_width"
# shellcheck disable=SC2046
awk -v roots="$roots" '
FNR == 1 {
    file = FILENAME
    sub(/^crates\/rules\/specs\//, "", file)
    sub(/\.antt$/, "", file)
    gsub(/\//, ".", file)
    if (file != "Lib" && file != "Follows") names[++files] = file
    here = ""
}
{ lines[file]++ }
/^--/ || /^$/ { next }
/^(pub )?use / {
    if (match($0, /^(pub )?use Rattle\.rules\.specs\.[A-Za-z.]*\.\{/) && $0 !~ /declared/) {
        from = substr($0, RSTART, RLENGTH - 2)
        sub(/.*rules\.specs\./, "", from)
        list = substr($0, RSTART + RLENGTH)
        sub(/\}.*/, "", list)
        n = split(list, each, /, */)
        for (i = 1; i <= n; i++) origin[file, each[i]] = from
    }
    next
}
{
    code = $0
    sub(/--.*/, "", code)
    if (code !~ /^ /) {
        n = split(code, w, " ")
        kind = ""
        for (i = 1; i <= n && w[i] ~ /^(abbrev|pub|data|record|unfoldable|opaque|mod)$/; i++) if (w[i] != "pub") kind = w[i]
        sub(/:$/, "", w[i])
        if (kind != "mod") {
            if (!((file, w[i]) in known)) { known[file, w[i]] = 1; all[++defs] = file SUBSEP w[i]; kinds[file, w[i]] = kind }
            here = file SUBSEP w[i]
        }
    } else if (kinds[here] == "data") {
        one = code
        sub(/^ +(pub )?/, "", one)
        sub(/[ :].*/, "", one)
        if (one != "") made[file, one] = here
    }
    text[here] = text[here] " " code
}
END {
    n = split(roots, r, " ")
    for (i = 1; i <= n; i++) {
        got = 0
        for (k = 1; k <= defs; k++) { split(all[k], p, SUBSEP); if (p[2] == r[i]) { reach(all[k]); got = 1 } }
        if (!got) { print "alone: no definition " r[i] ": FAILED"; failed++ }
    }
    for (k = 1; k <= defs; k++) {
        split(all[k], p, SUBSEP)
        beside = p[1] ~ /^Follows\./
        if (beside && all[k] in seen) { print "alone: " p[1] "." p[2] " is reached, and stands in Follows: FAILED"; failed++ }
        else if (!beside && !(all[k] in seen) && !helper(p[1])) { print "alone: nothing reaches " p[1] "." p[2] ": FAILED"; failed++ }
        else passed++
    }
    for (i = 1; i <= files; i++)
        if (lines[names[i]] > 200) { print "alone: " names[i] " has " lines[names[i]] " lines: FAILED"; failed++ } else passed++
    printf "%d passed, %d failed\n", passed, failed
    exit failed > 0
}
# the few functions on lists are the words that the law is written with
function helper(f) { return f == "Lists" }
function reach(d,    p, n, w, i, from) {
    if (d in seen) return
    seen[d] = 1
    split(d, p, SUBSEP)
    n = split(text[d], w, /[][ \t(){},;]+/)
    for (i = 1; i <= n; i++) {
        sub(/:$/, "", w[i])
        # of a projection, as `t.written`, what it is of; behind a bracket, as `(f x).queue`, it is of that
        sub(/\..*/, "", w[i])
        if (w[i] == "") continue
        from = (p[1], w[i]) in origin ? origin[p[1], w[i]] : p[1]
        if ((from, w[i]) in known) reach(from SUBSEP w[i])
        if ((from, w[i]) in made) reach(made[from, w[i]])
    }
}' $(git ls-files 'crates/rules/specs/*.antt')

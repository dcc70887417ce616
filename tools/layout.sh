#!/bin/sh
# layout.sh: where what stands in a splicer's words and bytes is known by crate `memory` alone: the sizes and places that the header names,
# and those of the bindings, are the ones that its constants give. The last line is 'N passed, M failed'.
set -eu
. "$(dirname "$0")/words.sh"
no_words "$@"
cd "$(dirname "$0")/.."
memory=crates/memory/src/lib.rt
header=include/splicer.h
bindings=bindings/src/lib.rs

# values: a line NAME VALUE for each constant of places and memory, a sum of products of names and numbers; these of places first
values() {
    sed -n 's/^\(pub \)\{0,1\}const \([A-Z_]*\): usize = \(.*\);$/\2 \3/p' crates/places/src/lib.rt "$memory" | awk '
    function term(s,    n, i, f, v) { n = split(s, f, / \* /); v = 1; for (i = 1; i <= n; i++) v *= factor(f[i]); return v }
    function factor(s) {
        if (s ~ /^[0-9]+$/) return s + 0
        if (!(s in value)) { print "layout.sh: no value for " s >"/dev/stderr"; exit 1 }
        return value[s]
    }
    {
        name = $1
        sub(/^[^ ]+ /, "")
        n = split($0, t, / [+-] /)
        rest = $0
        sum = term(t[1])
        for (i = 2; i <= n; i++) {
            rest = substr(rest, length(t[i - 1]) + 1)
            sum += (substr(rest, 2, 1) == "-" ? -1 : 1) * term(t[i])
            rest = substr(rest, 4)
        }
        value[name] = sum
        print name, sum
    }'
}

mkdir -p target
values >target/layout
passed=0 failed=0
# same WHAT CONST FOUND: what another file says is what memory's constant gives
same() {
    should=$(awk -v name="$2" '$1 == name { v = $2 } END { print v }' target/layout)
    if [ -n "$should" ] && [ "$should" = "$3" ]; then
        passed=$((passed + 1))
    else
        failed=$((failed + 1))
        echo "layout: $1 is '$3', $2 of memory '$should'"
    fi
}
in_header() {
    sed -n "s/^ *SPLICER_$1 = \([0-9]*\).*/\1/p" "$header"
}
in_bindings() {
    sed -n "s/^pub const $1: usize = \([0-9]*\);/\1/p" "$bindings"
}
for pair in WORDS:WORDS BYTES:BYTES CONNECTIONS:CONNECTIONS ROWS:PAST_PLACES ENDED:PASTS ENDED_WORDS:PAST_WORDS; do
    name=${pair%:*} const=${pair#*:}
    same "SPLICER_$name of $header" "$const" "$(in_header "$name")"
    same "$name of $bindings" "$const" "$(in_bindings "$name")"
done
echo "$passed passed, $failed failed"
[ "$failed" -eq 0 ]

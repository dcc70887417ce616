#!/bin/sh
# twice.sh [--check]: runs of eight or more lines that stand in two places of the .rt and .antt files, longest first: `N lines  A:from
# B:from`. Blank lines, comments, imports and the scaffold of a proof (its needs, the places of its facts, the list at its end) do not
# count; white space is folded. Nor do pairs within the answers to one function's goals: each answer stands by itself, and says again
# which facts it rests on. The crates door_c, door_rolling_c and door_bench_c are left out: they say again what they export. A pair is a
# place to look at, no fault: what the second engine says again on purpose is named in the heads of its crates. With --check the number of
# such lines is held to the bound below, and the last line is 'N passed, M failed'.
set -eu
. "$(dirname "$0")/words.sh"
case $#${1:-} in
0 | 1--check) ;;
*) refuse "only --check, not '$*'" ;;
esac
cd "$(dirname "$0")/.."
bound=209
work=target/twice
mkdir -p "$work"
git ls-files 'crates/*.rt' 'crates/*.antt' | grep -v -e '^crates/cases/specs/Case[0-9A-Z]' -e '^crates/door[a-z_]*_c/' >"$work/files"

# every line that counts, as: file, line number, text
while IFS= read -r file; do
    awk -v file="$file" '
    /^[ \t]*(--|\/\/|use |ghost use |pub use |mod |pub mod |unfolding |pub module|module )/ { next }
    /goal\.|search rules|\.before|^[ \t]*[a-z0-9_-]+( c =|\))?$|^[ \t]*let [a-z0-9_-]+ = c\.[^ ]* in$|^[ \t]*[][(){}]*$/ { next }
    {
        text = $0
        gsub(/[ \t]+/, " ", text)
        gsub(/^ | $/, "", text)
        if (text != "") print file "\t" FNR "\t" text
    }' "$file"
done <"$work/files" >"$work/lines"

awk -F '\t' -v window=8 '
{ file[NR] = $1; at[NR] = $2; text[NR] = $3 }
END {
    for (i = 1; i + window - 1 <= NR; i++) {
        if (file[i] != file[i + window - 1]) continue
        key = ""
        for (j = 0; j < window; j++) key = key text[i + j] "\n"
        if (key in seen) {
            k = seen[key]
            # one run further of the pair before, or a new pair
            if (i == last + 1 && k == partner + 1) long++
            else { put(); first = i; other = k; long = window }
            last = i
            partner = k
        } else seen[key] = i
    }
    put()
}
function put() {
    own = file[other] == file[first] && file[other] ~ /\/proofs\/.*\/(Answers|Invariants|Proof)\.antt$/
    if (long && !own) print long "\t" file[other] ":" at[other] "\t" file[first] ":" at[first]
    long = 0
}' "$work/lines" | sort -rn >"$work/pairs"
awk -F '\t' '{ printf "%d lines  %s  %s\n", $1, $2, $3 }' "$work/pairs"
sum=$(awk -F '\t' '{ n += $1 } END { print n + 0 }' "$work/pairs")
echo "twice: $(($(wc -l <"$work/pairs"))) pairs, $sum lines"
[ "${1:-}" = --check ] || exit 0
if [ "$sum" -le "$bound" ]; then
    echo '1 passed, 0 failed'
else
    echo "twice: more than $bound lines stand twice: FAILED"
    echo '0 passed, 1 failed'
    exit 1
fi

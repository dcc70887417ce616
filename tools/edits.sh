#!/bin/sh
# edits.sh [--gate] [NAME | NAME/LABEL ..]: tries the further must-fail edits of the named crates, or the named ones, or all, which stand in
# crates/NAME/more-edits so that the gate does not get too long. `rt ci` tries them, in a copy of the repository in which they stand in
# must-fail/ in the place of those there: each over what a check of its crate as it stands proved, so that this alone refuses nothing, and
# from nothing what is still proved there. What `rt ci` passed on this machine is not proved again, and where crates or edits are named only
# those crates and the ones below them are. RT_JOBS at a time, if it is set.
# With --gate every edit of the repository is first made in its text (tools/applies.sh); then those of the named that have a line '# gate'
# are tried, and of the others every tenth, from the one on that the commit's hash says. They are counted in the order of crates, so each
# tenth has a tenth of each crate's, the slow ones' too, and takes about as long as any other; the hash lets nobody choose.
# The last line is 'N passed, M failed'.
set -eu
. "$(dirname "$0")/words.sh"
cd "$(dirname "$0")/.."
work=target/edits
gate=
if [ "${1:-}" = --gate ]; then
    gate=yes
    shift
fi
named=yes
[ -z "$gate" ] && [ $# -gt 0 ] || named=
[ $# -gt 0 ] || set -- $(ls -d crates/*/more-edits | cut -d / -f 2)
for name; do
    case $name in
    */*) [ -f "crates/${name%%/*}/more-edits/${name#*/}.edit" ] || refuse "no further edit '$name'" ;;
    *) [ -d "crates/$name/more-edits" ] || refuse "no further edits of '$name'" ;;
    esac
done
needs rt
rm -rf "$work"
mkdir -p "$work"
for name; do
    case $name in
    */*) echo "crates/${name%%/*}/more-edits/${name#*/}.edit" ;;
    *) find "crates/$name/more-edits" -name '*.edit' ;;
    esac
done | LC_ALL=C sort -u >"$work/list"

# tenth: of the further edits that the gate does not always try, those that it tries now: a line says by what, the list gets them
tenth() {
    if commit=$(git rev-parse HEAD 2>/dev/null); then
        first=$((0x$(printf %s "$commit" | cut -c 1-7) % 10 + 1)) by="by commit $commit"
    else
        first=1 by='as no commit is known here'
    fi
    mv "$work/list" "$work/all"
    xargs grep -l '^# gate$' <"$work/all" >"$work/marked" || :
    grep -vxFf "$work/marked" "$work/all" >"$work/others" || :
    awk -v first="$first" 'NR % 10 == first % 10' "$work/others" >"$work/chosen"
    sort "$work/marked" "$work/chosen" >"$work/list"
    echo "edits: $(wc -l <"$work/marked") that say '# gate', and of $(wc -l <"$work/others") others every tenth from number $first on, $by:"
    sed 's|^crates/||; s|/more-edits/|/|; s|\.edit$||' "$work/chosen" | fold_words
}

# fold_words: words in lines of some length
fold_words() { tr '\n' ' ' | fold -s -w 130 | sed 's/^/  /; s/ *$//'; echo; }

stale=0
if [ -n "$gate" ]; then
    sh tools/applies.sh >"$work/applies" 2>&1 || stale=$(sed -n 's/^0 passed, \([0-9]*\) failed$/\1/p' "$work/applies")
    sed '$d' "$work/applies"
    tenth
fi
edits=$(wc -l <"$work/list")

# summed REFUSED: the last line, and its status
summed() {
    passed=$1 failed=$((edits - $1 + stale))
    [ -z "$gate" ] || [ "$stale" -gt 0 ] || passed=$((passed + 1))
    echo "$passed passed, $failed failed"
    [ "$failed" -eq 0 ]
}

if [ "$edits" -eq 0 ]; then
    echo 'edits: none of the named is to be tried'
    summed 0 && exit
    exit 1
fi

# the sources as they stand, whatever is saved meanwhile, with these edits and no others. For rt it is the top of a repository
apart
mkdir "$room/.git" "$room/crates"
cp crates.txt "$room/"
[ ! -f HANDLES ] || cp HANDLES "$room/"
for part in crates/*/*; do
    case $part in
    */out | */*edits | */must-fail | */*readings) continue ;;
    esac
    mkdir -p "$room/${part%/*}"
    cp -R "$part" "$room/$part"
done
while read -r edit; do
    mkdir -p "$room/${edit%/more-edits/*}/must-fail"
    cp "$edit" "$room/${edit%/more-edits/*}/must-fail/"
done <"$work/list"

# trial CRATE..: those of the listed crates
trial() { (cd "$room" && rt ci "$@"); }
set --
[ -z "$named" ] || set -- $(cut -d / -f 2 "$work/list" | uniq)
echo "edits: trying $edits (some minutes, many where nothing is proved yet)"
watched "$work/log" "$edits" 'rt: must-fail *' trial "$@" || :
# a refusal of names says little: answers name goals and steps after what the edit took away, so that the goal is open whether it holds or
# not. Such an edit is named; at most one in ten of the tried may be one, and none that stands in must-fail/ is
names='refused, as it must be (only because a proof file names'
grep -F "$names" "$work/log" >"$work/misnamed" || :
sed 's/^rt: must-fail \([^:]*\): .*/edits: \1: refused only for a name that a proof file has/' "$work/misnamed"
grep '^rt: must-fail .*: refused, as it must be' "$work/log" >"$work/refused" || :
if [ $(($(wc -l <"$work/misnamed") * 10)) -gt "$edits" ] && [ "$edits" -ge 10 ]; then
    echo "edits: $(wc -l <"$work/misnamed") of $edits are refused only for a name: FAILED"
    grep -vF "$names" "$work/log" | grep '^rt: must-fail .*: refused, as it must be' >"$work/refused" || :
fi
[ "$(wc -l <"$work/refused")" -eq "$edits" ] ||
    grep -E '^rt: (note: |FAILED|.*NOT PROVED|.*disk)' "$work/log" | tail -n 12
summed "$(wc -l <"$work/refused")"

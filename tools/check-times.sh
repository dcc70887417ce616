#!/bin/sh
# check-times.sh [--write | COMMIT..]: how long a check takes, by commit: the processor seconds (user and system) of `rt all verdict`, which
# checks all listed crates from nothing, in a clone outside of this folder; nothing else should run meanwhile, though processor seconds
# hardly change if it does. The figures of commits in an older Rattle are of its own kit, `rt check`. Of the named commits, or of all that
# tools/check-times/requests.txt names, oldest first. A commit that docs/notes/README.md or an earlier run has a figure of is not checked
# again. With --write nothing is checked: the figures that are there go to the tables of docs/notes/README.md and to the notes of the
# requests. No part of the gate.
set -eu
. "$(dirname "$0")/words.sh"
case ${1:-} in
--write) [ $# -eq 1 ] || refuse "--write alone, not '$*'" ;;
-*) refuse "only --write or commits, not '$1'" ;;
esac
cd "$(dirname "$0")/.."
work=target/check-times
page=docs/notes/README.md
mkdir -p "$work"

# known: of every commit with a figure a line: name, crates, seconds; of the page and of earlier runs
known() {
    sed -nE 's/^\| ([0-9a-f]{7}) \| ([0-9]+) \| ([0-9,]+) \|$/\1 \2 \3/p' "$page" | tr -d ','
    for file in "$work"/*.crates; do
        one=${file%.crates}
        [ ! -f "$one" ] || echo "$(basename "$one") $(cat "$file") $(cat "$one")"
    done
}

# named: the commits of the requests, each once, in order of time
named() {
    sed '/^#/d' tools/check-times/requests.txt | awk -F ' *[|] *' '{ for (i = 2; i <= 4; i++) if (!seen[$i]++) print $i }' >"$work/named"
    git log --reverse --topo-order --format=%H | awk -v names="$work/named" '
    BEGIN { while ((getline one <names) > 0) wanted[one] = 1 }
    substr($0, 1, 7) in wanted { print substr($0, 1, 7) }'
}

# measure NAME: a commit in a clone. Its figures go to files of its name; what does not check goes to NAME.failed
measure() {
    rm -rf "$room/clone"
    git clone -q --no-checkout . "$room/clone"
    git -C "$room/clone" checkout -q "$1"
    if (cd "$room/clone" && rt all verdict --jobs 1 >"$here/$work/log" 2>&1 && times >"$here/$work/times"); then
        # `times` of the shell: the last line is what its children took
        tail -n 1 "$work/times" | awk '
        { for (i = 1; i <= NF; i++) { split($i, t, /[ms]/); s += t[1] * 60 + t[2] } printf "%.0f\n", s }' >"$work/$1.part"
        grep -cE '^[a-z_]+[ a-z]*:' "$room/clone/crates.txt" >"$work/$1.crates"
        mv "$work/$1.part" "$work/$1"
    else
        tail -n 20 "$work/log" >"$work/$1.failed"
        echo "check-times: $1 does not check:" >&2
        tail -n 3 "$work/log" >&2
    fi
    rm -rf "$room/clone"
}

# tables: those of the page, as they can be filled
tables() {
    known >"$work/known"
    named >"$work/order"
    awk -v known="$work/known" -v order="$work/order" -F ' *[|] *' '
    BEGIN {
        while ((getline line <known) > 0) { split(line, k, " "); crates[k[1]] = k[2]; seconds[k[1]] = grouped(k[3]) }
        print ""
        print "| Request | Before | s | Its own series up to | s | Its last | s | What else is in that |"
        print "|---|---|---|---|---|---|---|---|"
    }
    /^#/ { next }
    { printf "| %s | %s | %s | %s | %s | %s | %s | %s |\n", $1, $2, took($2), $3, took($3), $4, took($4), $5 == "" ? "–" : $5 }
    END {
        print ""
        print "| Commit | Crates | Processor seconds |"
        print "|---|---|---|"
        while ((getline one <order) > 0) printf "| %s | %s | %s |\n", one, one in crates ? crates[one] : "–", took(one)
        print ""
    }
    function took(one) { return one in seconds ? seconds[one] : "not measured" }
    function grouped(n) { return n >= 1000 ? int(n / 1000) "," sprintf("%03d", n % 1000) : n }' tools/check-times/requests.txt
}

# noted: the line of each note of a request; the table's text says what before and after are
noted() {
    sed -nE 's/^\| CR ([0-9]+) \| [0-9a-f]+ \| ([^|]*) \| [0-9a-f]+ \| ([^|]*) \| [0-9a-f]+ \| ([^|]*) \|.*/\1|\2|\3|\4/p' "$work/tables" |
        while IFS='|' read -r n before own last; do
            note=docs/notes/cr-$n.md
            sed '/^Check of all crates from nothing, in processor seconds/,$d' "$note" | sed -e :a -e '/^\n*$/{$d;N;ba' -e '}' >"$work/note"
            {
                echo
                echo "Check of all crates from nothing, in processor seconds ([README.md](README.md)): before $before, after its own series"
                echo "$own, after its last commit $last."
            } >>"$work/note"
            cp "$work/note" "$note"
        done
}

if [ "${1:-}" = --write ]; then
    tables >"$work/tables"
    awk -v tables="$work/tables" '
    /^<!-- made by tools\/check-times.sh -->$/ { print; while ((getline line <tables) > 0) print line; skip = 1; next }
    /^<!-- made so far -->$/ { skip = 0 }
    !skip' "$page" >"$work/page"
    cp "$work/page" "$page"
    noted
    exit 0
fi
needs rt git
here=$PWD
apart
# shellcheck disable=SC2046
[ $# -gt 0 ] || set -- $(named)
for commit; do
    git rev-parse --verify --quiet "$commit^{commit}" >/dev/null || refuse "no commit '$commit'"
done
printf '| Commit | Crates | Processor seconds |\n|---|---|---|\n'
for commit; do
    name=$(git rev-parse --short=7 "$commit")
    known >"$work/known"
    grep -q "^$name " "$work/known" || [ -f "$work/$name.failed" ] || measure "$name"
    known | sed -nE "s/^$name ([0-9]+) ([0-9]+)\$/| $name | \\1 | \\2 |/p" | tail -n 1
done

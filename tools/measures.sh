#!/bin/sh
# measures.sh: writes docs/MEASURES.md anew: what stands in tools/measures by hand, and the tables of tools/measure.sh, measure-cues.sh,
# measure-check.sh, measure-recall.sh and lines.sh over the proved archives, with kit and commit. Takes some minutes on x86-64; needs
# what `sh tools/setup.sh x86` installs, and valgrind. No part of the gate, which only holds the page's lines, links and names (docs.sh).
set -eu
. "$(dirname "$0")/words.sh"
no_words "$@"
needs rt gcc qemu-x86_64 valgrind
cd "$(dirname "$0")/.."
work=target/measures
mkdir -p "$work"
page=$work/MEASURES.md

# part TITLE WORDS COMMAND..: a heading, the command that gives it, and its tables
part() {
    title=$1 words=$2
    shift 2
    echo "measures.sh: $*" >&2
    "$@" >"$work/part" 2>"$work/said" || { cat "$work/said" "$work/part" >&2; exit 1; }
    printf '\n## %s\n\n`%s`. %s\n\n' "$title" "$*" "$words" >>"$page"
    sed -n '/^|/p; /^$/p' "$work/part" | cat -s | timeless >>"$page"
}

# timeless: tables without the columns of times, which depend on the machine
timeless() {
    awk -F ' *[|] *' '
    /^\|/ {
        if (!on) { on = 1; for (i = 2; i < NF; i++) drop[i] = $i ~ /\(real\)/ }
        line = "|"
        for (i = 2; i < NF; i++) if (!drop[i]) line = line " " $i " |"
        print line
        next
    }
    { on = 0; print }'
}

cat tools/measures/head.md >"$page"
printf '\nOf commit %s, %s, %s, %s.\n\n' "$(git rev-parse --short=7 HEAD)" "$(rt version | cut -d ' ' -f 1)" \
    "$(rustc --version | cut -d ' ' -f 1,2)" "$(qemu-x86_64 --version | sed -n '1s/ (.*//p')" >>"$page"
cat tools/measures/gate.md >>"$page"
part 'Calls' "x86-64 instructions of one call; Rust and C: engines of the same rules (tools/measure)." \
    sh tools/measure.sh counts
part 'Ticks' 'With 0, 10 and 64 waiting.' sh tools/measure.sh ticks
part 'Reads' "Instructions, called from C with their arguments." sh tools/measure-reads.sh
part 'Stack' "Bytes below the caller's stack pointer." sh tools/measure.sh stack
part 'Size' 'No writable data, no bss; memset is all that the archive needs.' sh tools/measure.sh size
part 'Cues' 'The cue call beside a plain one in C.' sh tools/measure-cues.sh
part 'The checker' 'On recordings of 65,536 bytes.' sh tools/measure-check.sh
part 'The engine that only remembers' 'On full logs.' sh tools/measure-recall.sh
part 'Crates: lines' 'Blank lines, comments and imports left out.' sh tools/lines.sh
cat -s "$page" >docs/MEASURES.md
echo "measures.sh: docs/MEASURES.md"

#!/bin/sh
# example.sh: the example day of model/scenarios. First, within seconds, the second program runs it and its calls are printed with their
# decoded answers, the as-run list at the end. Then the card program is proved and built, a line for each crate, and run on the same day: at
# the end it says whether both gave the same bytes; and the checker is run on the day's recording, and on one with a wrong end. Needs cargo
# and rustc (sh tools/setup.sh installs Debian's) and, for the second part, the Rattle kit, `rt`: without it, it says what that would add.
set -eu
. "$(dirname "$0")/words.sh"
no_words "$@"
cd "$(dirname "$0")/.."
work=target/example
mkdir -p "$work"
if ! command -v cargo >/dev/null 2>&1; then
    echo 'example: cargo is missing: sh tools/setup.sh installs it'
    sh tools/setup.sh >"$work/setup.log" 2>&1 || { tail -n 1 "$work/setup.log" >&2; needs cargo; }
fi
needs_rust 1.81
echo 'example: building the second program, as far as the day needs it (some seconds)'
rustc --edition 2021 -C debuginfo=0 --crate-type rlib --crate-name rules -o "$work/librules.rlib" model/rules/src/lib.rs
rustc --edition 2021 -C debuginfo=0 --extern "rules=$work/librules.rlib" -o "$work/day" model/src/day.rs
"$work/day" model/scenarios/example-day.txt "$work/in" "$work/second"
echo
echo 'example: so far the second program, in Rust'
if ! command -v rt >/dev/null 2>&1; then
    echo 'example: with the Rattle kit (rt in PATH) the card program would now be proved, run on the same day and compared byte by byte,'
    echo 'example: and its proved checker run on the recording of that day and on a wrong one'
    exit 0
fi
echo 'example: now the proved card program'
programs "$work/log" card checker
echo 'example: running the card program on the same day'
sh tools/run-program.sh target/bin/card <"$work/in" >"$work/out"
if cmp "$work/second" "$work/out"; then
    echo "example: both programs gave the same $(wc -c <"$work/out" | tr -d ' ') bytes"
else
    echo 'example: the two programs DIFFER' >&2
    exit 1
fi
echo 'example: the day as a recording, held to the rules by the proved checker'
sh tools/run-program.sh target/bin/checker <examples/recordings/day.rec
echo 'example: the same with an end under another SessionID, as in the incident of the minutes: the close that wrote it is named'
# status 1: it names a call
sh tools/run-program.sh target/bin/checker <examples/recordings/day-wrong-end.rec || [ $? -eq 1 ]

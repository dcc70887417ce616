#!/bin/sh
# desk.sh [install FOLDER]: builds the desk's program (desk/) and runs its tests; with `install FOLDER` it builds it and puts the program
# and its man page into FOLDER/bin and FOLDER/share/man/man1. Where Debian's sqlite3 is, two days are joined with it. It needs cargo and
# rustc, as Debian's cargo-web and rustc-web (sh tools/setup.sh), and nothing from a network. The last line of the tests is 'N passed, M
# failed'.
set -eu
. "$(dirname "$0")/words.sh"
case $#${1:-} in
0 | 2install) ;;
*) refuse "only 'install FOLDER', not '$*'" ;;
esac
needs_rust 1.81
if [ $# -eq 2 ]; then
    mkdir -p "$2"
    folder=$(cd "$2" && pwd -P)
fi
cd "$(dirname "$0")/.."
work=target/desk
mkdir -p "$work"
. tools/ran.sh

CARGO_TARGET_DIR=$work
export CARGO_TARGET_DIR
if [ $# -eq 2 ]; then
    echo 'desk: building (some seconds)'
    cargo build --quiet --release --offline --locked --manifest-path desk/Cargo.toml
    mkdir -p "$folder/bin" "$folder/share/man/man1"
    cp "$work/release/desk" "$folder/bin/"
    cp desk/desk.1 "$folder/share/man/man1/"
    echo "desk: $folder/bin/desk, $("$folder/bin/desk" --version)"
    exit 0
fi
# days: two days in one database, by the real sqlite3: 38 requests of the example day and 3 of the incident, one of them 55 of event 4002;
# 7 and 2 were on air for 30 s or more
days() {
    rm -f "$work/days.db"
    for day in example-day incident; do
        "$work/debug/desk" asrun --sqlite "$work/days.db" "desk/recordings/$day.rec" || [ $? -eq 1 ]
    done
    found=$(sqlite3 "$work/days.db" 'SELECT count(*), sum(session = 55 AND event = 4002), sum(on_air_s > 29) FROM asrun')
    if [ "$found" = '41|1|9' ]; then echo '1 passed, 0 failed'; else echo "days.db: $found"; return 1; fi
}

ran tests cargo test --offline --locked --manifest-path desk/Cargo.toml || :
if command -v sqlite3 >/dev/null 2>&1; then
    ran days days || :
else
    echo 'desk: sqlite3 is not here: asrun --sqlite was tried with a stand-in only'
fi
echo "$passed passed, $failed failed"
[ "$failed" -eq 0 ]

#!/bin/sh
# compare.sh: the second program's own tests, the scenarios, and random streams, whole and in pieces; against the card program once it
# is linked.
# The last line is 'N passed, M failed'.
set -eu
. "$(dirname "$0")/words.sh"
no_words "$@"
needs rt
needs_rust 1.81
cd "$(dirname "$0")/.."
work=target/compare
mkdir -p "$work"
. tools/ran.sh

CARGO_TARGET_DIR=target/model
export CARGO_TARGET_DIR
ran build cargo build --release --offline --manifest-path model/Cargo.toml || :
ran tests cargo test --release --offline --manifest-path model/Cargo.toml || :
model=$CARGO_TARGET_DIR/release/model

set -- model/scenarios/*.txt
if [ -x target/bin/card ]; then
    card="sh tools/run-program.sh target/bin/card"
    ran scenarios "$model" scenario --card "$card" "$@" || :
    ran fuzz "$model" fuzz --seed 280 --n 200 --card "$card" || :
    ran pieces "$model" pieces --seed 280 --n 12 --card "$card" || :
else
    ran scenarios "$model" scenario "$@" || :
    ran fuzz "$model" fuzz --seed 280 --n 200 || :
fi

# recordings whole, cut and damaged (02, CR 14): the second program's checker, and the checker program once it is linked
if [ -x target/bin/checker ]; then
    ran recordings "$model" recordings --seed 280 --n 20 --checker "sh tools/run-program.sh --plain target/bin/checker" "$@" || :
else
    ran recordings "$model" recordings --seed 280 --n 20 "$@" || :
fi
ran mistakes "$model" recordings --seed 280 --n 10 --faults || :

# the engine that only remembers (02, CR 12): the second program's, and the program once it is linked; both beside the card program
if [ -x target/bin/remember ] && [ -x target/bin/card ]; then
    ran recalls "$model" recalls --seed 280 --n 36 --remember "sh tools/run-program.sh target/bin/remember" --card "$card" "$@" || :
else
    ran recalls "$model" recalls --seed 280 --n 36 "$@" || :
fi
ran lapses "$model" recalls --seed 280 --n 9 --faults || :

# a rolling card's calls (02, CR 9) have no marks: the second program by itself; beside.sh holds the archive to it
ran rolls "$model" rolls --seed 280 --n 200 || :
ran slips "$model" rolls --seed 280 --n 60 --faults || :

# nor have cue calls (02, CR 7)
ran cues "$model" cues --seed 280 --n 200 || :
ran miscues "$model" cues --seed 280 --n 30 --faults || :

# the definitions themselves, on three streams
ran definitions sh tools/definitions.sh 280 3 || :

echo "$passed passed, $failed failed"
[ "$failed" -eq 0 ]

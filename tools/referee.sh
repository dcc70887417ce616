#!/bin/sh
# referee.sh [--plain] [--seed S] [--n N] [--entries E]: the second program's own judgement of recordings of any length (model/referee) and
# the archive's referee, by its C header, held to one another in one process (model/beside_referee): the recordings worked by hand, the
# damaged recordings of N streams (400) in one piece and in drawn pieces, every cut of ten, one stream of E entries (200,000), and each
# mistake of a referee; before that the second program held to what the damage says. --plain: by CR 14's marks alone. SPLICER_LIB names
# the folder of another libbench.a and SPLICER_INCLUDE that of its header. The last line is 'N passed, M failed'. For a release: --n 6000
# --entries 10000000.
set -eu
. "$(dirname "$0")/words.sh"
plain= wants= words=
for word; do
    case $wants$word in
    --plain) plain=--plain ;;
    --seed | --n | --entries) wants=$word ;;
    --seed* | --n* | --entries*)
        case $word in
        '' | *[!0-9]*) refuse "$wants '$word': no number" ;;
        esac
        words="$words $wants $word" wants=
        ;;
    *) refuse "'$word' is none of --plain, --seed S, --n N, --entries E" ;;
    esac
done
[ -z "$wants" ] || refuse "$wants needs a value"
needs_rust 1.82
needs cc ar
cd "$(dirname "$0")/.."
work=target/referee
mkdir -p "$work"
. tools/ran.sh

# made: the archive for this machine
made() {
    if [ "$(uname -m)" = x86_64 ]; then
        archive "$work/rt.log" bench
    else
        sh tools/archive-for.sh "$(uname -m)-unknown-linux-gnu" target/native/libbench.a bench
    fi
}

# judged COMMAND..: it counts as one
judged() {
    "$@" && echo '1 passed, 0 failed'
}

# program FOLDER PACKAGE [WORD..]: runs it, built in the folder
program() {
    folder=$1 package=$2
    shift 2
    CARGO_TARGET_DIR=$folder cargo run --quiet --release --offline --manifest-path "$package/Cargo.toml" -- "$@"
}

if [ -z "${SPLICER_LIB:-}" ]; then
    needs rt
    ran archive made || { echo "$passed passed, $failed failed"; exit 1; }
    [ "$(uname -m)" = x86_64 ] || export "SPLICER_LIB=$PWD/target/native"
fi
# shellcheck disable=SC2086
ran streams judged program target/model model refereed --seed 42 --n 60 $plain || :
ran mistakes judged program target/model model refereed --seed 42 --n 60 --faults || :
# shellcheck disable=SC2086
ran compared program "$work" model/beside_referee $plain $words || :
echo "$passed passed, $failed failed"
[ "$failed" -eq 0 ]

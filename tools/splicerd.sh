#!/bin/sh
# splicerd.sh [install FOLDER]: builds splicerd and adserver (splicerd/) over the proved archives and runs their tests, over real sockets:
# the scenarios that sockets can make byte for byte, drops, slow readers, kills, the page. With `install FOLDER` it builds them optimised
# and puts programs, man pages and systemd unit into FOLDER/bin, FOLDER/share/man/man1 and FOLDER/lib/systemd/system. The libraries are
# Debian's packages (sh tools/setup.sh installs them); nothing comes from a network. SPLICER_LIB names a folder with archives that are
# there already, else they are proved here (rt). The last line of the tests is 'N passed, M failed'.
set -eu
. "$(dirname "$0")/words.sh"
case $#${1:-} in
0 | 2install) ;;
*) refuse "only 'install FOLDER', not '$*'" ;;
esac
needs_rust 1.82
if [ $# -eq 2 ]; then
    mkdir -p "$2"
    folder=$(cd "$2" && pwd -P)
fi
cd "$(dirname "$0")/.."
sh tools/setup.sh libraries >/dev/null || exit 2
work=$PWD/target/splicerd
mkdir -p "$work"
. tools/ran.sh

# archives: the folder of the archive that is linked
archives() {
    if [ "$(uname -m)" = x86_64 ]; then
        for name in door rolldoor bench; do archive "$work/$name.log" "$name" || return 1; done
        SPLICER_LIB=$PWD/target/staticlib
    else
        SPLICER_LIB=$PWD/target/native
        mkdir -p "$SPLICER_LIB"
        for name in door rolldoor bench; do
            sh tools/archive-for.sh "$(uname -m)-unknown-linux-gnu" "$SPLICER_LIB/lib$name.a" "$name" || return 1
        done
    fi
}

if [ -z "${SPLICER_LIB:-}" ]; then archives; else SPLICER_LIB=$(cd "$SPLICER_LIB" && pwd -P); fi
CARGO_TARGET_DIR=$work
export CARGO_TARGET_DIR SPLICER_LIB

if [ $# -eq 2 ]; then
    echo 'splicerd: building (some minutes)'
    (cd splicerd && cargo build --quiet --release --offline)
    mkdir -p "$folder/bin" "$folder/share/man/man1" "$folder/lib/systemd/system"
    cp "$work/release/splicerd" "$work/release/adserver" "$folder/bin/"
    cp splicerd/splicerd.1 splicerd/adserver.1 "$folder/share/man/man1/"
    cp splicerd/splicerd.service "$folder/lib/systemd/system/"
    echo "splicerd: $folder/bin/splicerd, $("$folder/bin/splicerd" --version)"
    exit 0
fi

# formed: the sources as rustfmt has them, where it is
formed() {
    if cargo fmt --version >/dev/null 2>&1; then (cd splicerd && cargo fmt --check) && echo '1 passed, 0 failed'; fi
}

# safe: no unsafe block of its own: the compiler refuses one, in the library and in both programs
safe() {
    for file in lib bin/splicerd bin/adserver; do
        grep -q '^#!\[forbid(unsafe_code)\]$' "splicerd/src/$file.rs" || { echo "splicerd/src/$file.rs: no forbid"; return 1; }
    done
    echo '1 passed, 0 failed'
}

# tests: every warning is an error
tests() {
    (cd splicerd && RUSTFLAGS='-D warnings' cargo test --offline)
}

ran formed formed || :
ran safe safe || :
ran tests tests || :
echo "$passed passed, $failed failed"
[ "$failed" -eq 0 ]

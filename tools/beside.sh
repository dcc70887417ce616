#!/bin/sh
# beside.sh [ARG..]: the second program and the proved core called side by side in one process over the archives (model/beside, ARGs as it
# takes them), and the tests of the Rust wrapper (bindings), built for this machine and run by it: on x86-64 over the archives of
# tools/archives.sh, on another machine over the same proved crates compiled for it (tools/archive-for.sh). Where that cannot be done it
# fails. By request alone: on another machine ROUTE=x86 takes the x86-64 archives, by a Rust for x86-64 and Debian's emulator (sh
# tools/setup.sh x86), and ROUTE=card holds more streams through the card program to the second program instead, which has no cue, no
# rolling call, no count and no `moved` and so says nothing of these.
# The last line is 'N passed, M failed'.
set -eu
. "$(dirname "$0")/words.sh"
wants=
for word; do
    case $wants$word in
    --seed | --n | --first | --threads | --recordings | --rolling | --cues | --recalls | --cue-records | --fault) wants=$word ;;
    --fault* | --cue-records*) wants= ;;
    --seed* | --n* | --first* | --threads* | --recordings* | --rolling* | --cues* | --recalls*)
        case $word in
        '' | *[!0-9]*) refuse "$wants '$word': no number" ;;
        esac
        wants=
        ;;
    *)
        refuse "'$word' is none of --seed S, --n N, --first I, --threads T, --recordings R, --rolling R, --cues R, --recalls R," \
            '--cue-records FILE, --fault NAME'
        ;;
    esac
done
[ -z "$wants" ] || refuse "$wants needs a value"
route=${ROUTE:-archive}
case $route in
archive | x86 | card) ;;
*) refuse "no route '$route': archive, x86 or card" ;;
esac
needs rt
needs_rust 1.82
cd "$(dirname "$0")/.."
work=target/beside
mkdir -p "$work"
. tools/ran.sh

# for this machine, or for x86-64 on another one; native: the folder of archives that are not for x86-64
machine=$(uname -m) linker=cc runner= native=
if [ "$route" = x86 ] && [ "$machine" != x86_64 ]; then
    # with erms the emulator runs each long memcpy byte by byte
    machine=x86_64 linker=x86_64-linux-gnu-gcc runner='qemu-x86_64 -cpu max,-erms'
elif [ "$machine" != x86_64 ]; then
    native=target/native
fi
target=$machine-unknown-linux-gnu

# compiler: sets rustc to one that has the standard library for the target
compiler() {
    for rustc in "${RUSTC:-rustc}" rustc /usr/bin/rustc; do
        command -v "$rustc" >/dev/null 2>&1 || continue
        if [ -d "$("$rustc" --print sysroot)/lib/rustlib/$target/lib" ]; then
            return 0
        fi
    done
    echo "no rustc has the library for $target"
    return 1
}

# ready: whether programs in Rust over the archives can be built and run here
ready() {
    for tool in cargo "$linker" ${runner%% *}; do
        command -v "$tool" >/dev/null 2>&1 || { echo "$tool is missing"; return 1; }
    done
    compiler || return 1
    # names alone do not say that a program of it runs: the loader may be missing
    echo 'fn main() {}' | "$rustc" --target "$target" -C linker="$linker" -o "$work/try" - && $runner "$work/try"
}

# made NAME: its archive for the target
made() {
    if [ -n "$native" ]; then
        sh tools/archive-for.sh "$target" "$native/lib$1.a" "$1"
    else
        archive "$work/rt.log" "$1"
    fi
}

# cargoed VERB PACKAGE [WORD..]: cargo for the target
cargoed() {
    verb=$1 package=$2
    shift 2
    cargo "$verb" --release --offline --target "$target" --manifest-path "$package/Cargo.toml" "$@"
}

# over_archives [ARG..]: the wrapper's tests and the comparison
over_archives() {
    RUSTC=$rustc CARGO_TARGET_DIR=$work
    export RUSTC CARGO_TARGET_DIR
    # the documentation's examples are built by the same one
    case $rustc in
    */*) export "RUSTDOC=$(dirname "$rustc")/rustdoc" ;;
    esac
    [ -z "$native" ] || export "SPLICER_LIB=$PWD/$native"
    name=$(echo "$target" | tr a-z- A-Z_)
    export "CARGO_TARGET_${name}_LINKER=$linker"
    [ -z "$runner" ] || export "CARGO_TARGET_${name}_RUNNER=$runner"
    ran archive made door || return 0
    ran rolldoor made rolldoor || return 0
    ran bindings cargoed test bindings --tests || :
    ran archive-of-the-bench made bench || return 0
    ran bindings-with-bench cargoed test bindings --features bench --test bench || :
    ran examples-of-the-documentation cargoed test bindings --features bench --doc || :
    ran compared cargoed run model/beside -- "$@" || :
}

# over_card: the second program against the card program, and the program that only remembers if it is there, on other and more streams
# than compare.sh
over_card() {
    CARGO_TARGET_DIR=target/model
    export CARGO_TARGET_DIR
    ran build cargo build --release --offline --manifest-path model/Cargo.toml || return 0
    ran card program "$work/rt.log" card || return 0
    if ran fuzz target/model/release/model fuzz --seed 281 --n 900 --card 'sh tools/run-program.sh target/bin/card'; then
        passed=$((passed + 1))
    fi
    [ -x target/bin/remember ] || return 0
    if ran recalls target/model/release/model recalls --seed 281 --n 72 --remember 'sh tools/run-program.sh target/bin/remember' \
        --card 'sh tools/run-program.sh target/bin/card'; then
        passed=$((passed + 1))
    fi
}

if [ "$route" = card ]; then
    echo 'beside: by way of the card program (ROUTE=card)'
    over_card
elif ready >"$work/try.log" 2>&1; then
    echo "beside: over the archives for $machine${runner:+ by ${runner%% *}}, $("$rustc" --version)"
    over_archives "$@"
else
    cat "$work/try.log"
    echo "beside: programs in Rust for $target cannot be built and run here: sh tools/setup.sh${runner:+ x86} installs what they need"
    failed=1
fi
echo "$passed passed, $failed failed"
[ "$failed" -eq 0 ]

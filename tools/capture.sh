#!/bin/sh
# capture.sh [OUT.pcapng]: captures of loopback while adserver talks to splicerd: spots on two connections, one that covers the other,
# refusals, a drop; and cues. The dissector in tshark and `desk` read them without a fault and alike (dissector.sh --capture), and the
# first has the messages of splicerd's own recording; OUT.pcapng gets it. In a network of its own, so that nothing else is in it: as root,
# or where users may make namespaces. Takes half a minute, by the real clock. Installs tshark where there is none (as root). SPLICER_LIB as
# for splicerd.sh. No part of the gate. The last line is 'N passed, M failed'.
set -eu
. "$(dirname "$0")/words.sh"
case $#${1:-} in
0) ;;
1*.pcapng) kept=$(cd "$(dirname "$1")" && pwd -P)/$(basename "$1") ;;
*) refuse "only OUT.pcapng, not '$*'" ;;
esac
needs_rust 1.82
needs unshare ip
cd "$(dirname "$0")/.."
if ! command -v dumpcap >/dev/null 2>&1; then
    needs apt-get
    [ "$(id -u)" -eq 0 ] || { echo 'capture.sh: not root: as root, apt-get install tshark' >&2; exit 2; }
    DEBIAN_FRONTEND=noninteractive apt-get install -y --no-install-recommends --no-remove tshark
fi
work=$PWD/target/capture
bin=$PWD/target/splicerd/release
rm -rf "$work"
mkdir -p "$work/recordings"
. tools/ran.sh
SPLICER_LIB=$(cd "${SPLICER_LIB:-target/staticlib}" && pwd -P)
export SPLICER_LIB work bin
echo 'capture: building'
(cd splicerd && CARGO_TARGET_DIR=../target/splicerd cargo build --quiet --release --offline)
CARGO_TARGET_DIR=target/desk cargo build --quiet --offline --locked --manifest-path desk/Cargo.toml

# talk.sh spots | cues: inside the network of its own
cat >"$work/talk.sh" <<'TALK'
set -eu

spots() {
    "$bin/adserver" init
    "$bin/adserver" config
    "$bin/adserver" splice --in 4s --duration 6s --event 11 --session 11 --access 3 &
    long=$!
    sleep 1
    "$bin/adserver" splice --in 5s --duration 2s --event 12 --session 12 --access 7 --override &
    short=$!
    sleep 1
    "$bin/adserver" abort 999 || [ $? -eq 1 ]
    "$bin/adserver" extended 999 || [ $? -eq 1 ]
    "$bin/adserver" splice --in 1s --duration 2s --session 13 || [ $? -eq 1 ]
    wait "$short" && wait "$long"
    "$bin/adserver" alive
    "$bin/adserver" splice --in 60s --duration 2s --session 14 &
    dropped=$!
    sleep 1
    kill "$dropped"
}

cues() {
    "$bin/adserver" cues --count 2
}

ip link set lo up
dumpcap -q -i lo -f 'tcp port 5168' -w "$work/$1.pcapng" 2>"$work/dumpcap.log" &
heard=$!
until [ -s "$work/$1.pcapng" ]; do sleep 0.1; done
sleep 1
# the cue is an empty one of the standard's examples
now=$(date +%s)
for in in 4 5; do echo "$((now + in)) CH1 /DARAAAAAAAAAP/wAAAAAHpPv/8= 0"; done >"$work/cue.txt"
case $1 in
spots) "$bin/splicerd" --record "$work/recordings" 2>"$work/$1.log" & ;;
cues) "$bin/splicerd" --cues "$work/cue.txt" 2>"$work/$1.log" & ;;
esac
server=$!
until grep -q 'for the page' "$work/$1.log"; do sleep 0.1; done
"$1"
sleep 1
kill "$server"
wait "$server"
sleep 1
kill -INT "$heard"
wait "$heard"
TALK

# talked WORD: a talk, as root or as a user who may have a network of their own
talked() {
    as=
    [ "$(id -u)" -eq 0 ] || as=--map-root-user
    # shellcheck disable=SC2086
    unshare --net $as sh "$work/talk.sh" "$1" && echo '1 passed, 0 failed'
}

# messages RECORDING: those of a recording, whatever their order among connections
messages() {
    { target/desk/debug/desk list --json --raw "$1" || [ $? -eq 1 ]; } | grep -oE '"message": "[A-Z].*' | sort
}

# alike: the messages of the capture are those of the recording
alike() {
    messages target/dissector-capture/back.rec >"$work/back"
    messages "$(echo "$work"/recordings/CH1-*.rec)" >"$work/own"
    [ -s "$work/own" ] && diff "$work/own" "$work/back" && echo '1 passed, 0 failed'
}

ran cues talked cues || :
ran read-cues sh tools/dissector.sh --capture "$work/cues.pcapng" || :
ran spots talked spots || :
ran read-spots sh tools/dissector.sh --capture "$work/spots.pcapng" || :
ran alike alike || :
[ -z "${kept:-}" ] || cp "$work/spots.pcapng" "$kept"
echo "$passed passed, $failed failed"
[ "$failed" -eq 0 ]

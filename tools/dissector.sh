#!/bin/sh
# dissector.sh [--mutated N [SEED] | --capture FILE [NAME]]: wireshark/j280.lua in Debian's tshark against the decoder of desk/: captures of
# the example day, the incident, the driver's recording and of every other message (wireshark/messages.txt), in whole segments and in pieces
# of 7 bytes; each field of each message must be the one of `desk list`; requests are tied to their responses; and the way back from a
# capture. Then an exchange worked by hand (wireshark/exchange.txt), by Debian's text2pcap: every pair of messages in one segment, cut at
# every byte, on another port, and what expert information is for; and a thousand connections with mutated messages, over which it must not
# err. With --mutated only so many of these; with --capture this capture of a channel of that name (CH1) alone: the dissector finds no
# fault, each field is that of `desk list`, and the rules are kept. Installs tshark where there is none (as root). The last line is 'N
# passed, M failed'.
set -eu
. "$(dirname "$0")/words.sh"
mutated=
given=
case $#${1:-} in
0) ;;
2--mutated | 3--mutated)
    mutated=$2
    case $2${3:-} in *[!0-9]*) refuse "--mutated '$*': no number" ;; esac
    ;;
2--capture | 3--capture)
    [ -f "$2" ] || refuse "no capture $2"
    given=$(cd "$(dirname "$2")" && pwd -P)/$(basename "$2")
    ;;
*) refuse "only --mutated N [SEED] or --capture FILE [NAME], not '$*'" ;;
esac
seed=${3:-1}
channel=${3:-CH1}
needs_rust 1.81
cd "$(dirname "$0")/.."
work=$PWD/target/dissector${mutated:+-mutated}${given:+-capture}
rm -rf "$work"
mkdir -p "$work"
passed=0
failed=0

# held NAME TEST..: counts it
held() {
    what=$1
    shift
    if "$@" >"$work/held" 2>&1; then
        passed=$((passed + 1))
    else
        head -n 10 "$work/held"
        echo "dissector: $what: FAILED"
        failed=$((failed + 1))
    fi
}

# shark CAPTURE WORD..: tshark with the dissector
shark() {
    capture=$1
    shift
    tshark -X lua_script:wireshark/j280.lua -r "$capture" -Y j280 "$@" 2>"$work/tshark.log"
}

# by_tshark CAPTURE: a line for each message: MessageID, Result and the fields in their order
by_tshark() {
    shark "$1" -T json | awk '
    /"j280": \{/ { say(); on = 1 }
    on && /"j280\.[A-Za-z_]+": "/ {
        name = $1
        gsub(/[":]|j280\./, "", name)
        value = $0
        sub(/^[^:]*: "/, "", value)
        sub(/",?$/, "", value)
        if (name == "MessageID") id = value
        else if (name == "Result") result = value
        else if (name == "Seconds") seconds = value
        else if (name == "MicroSeconds") put("time", seconds value == "42949672954294967295" ? "none" : sprintf("%s.%06d", seconds, value))
        else if (name == "PID") pids = pids (pids == "" ? "" : ", ") value
        else if (name == "StreamType") kinds = kinds (kinds == "" ? "" : ", ") value
        else if (name ~ /^(MessageSize|Result_Extension|time|stream_Length|...Bitrate|.Resolution|response_in|request_in)$/) next
        else if (name ~ /^(unreadable|oversize|unknown|refused|unasked)$/) next
        else {
            if (pids != "") { put("PID", "[" pids "]"); put("StreamType", "[" kinds "]"); pids = kinds = "" }
            if (name ~ /^(descriptors|Hardware_Config|Logical_Multiplex|TS_program|splice_info|data)/) gsub(/:/, "", value)
            put(name, value)
        }
    }
    function put(name, value) { line = line " " name "=" value }
    function say() { if (on) print id " " result line; line = "" }
    END { say() }'
}

# by_desk RECORDING WORD..: the same of `desk list`, without the calls that are no messages and what a close logs
by_desk() {
    { "$desk" list --json --raw "$@" 2>/dev/null || [ $? -eq 1 ]; } | awk '
    BEGIN {
        n = split("General_Response Init_Request Init_Response ExtendedData_Request ExtendedData_Response Alive_Request Alive_Response " \
            "Splice_Request Splice_Response SpliceComplete_Response GetConfig_Request GetConfig_Response Cue_Request Cue_Response " \
            "Abort_Request Abort_Response TearDownFeed_Request TearDownFeed_Response", names, " ")
        for (i = 1; i <= n; i++) ids[names[i]] = sprintf("0x%04x", i - 1)
    }
    function field(name,    at) {
        at = index($0, "\"" name "\": ")
        if (!at) return ""
        text = substr($0, at + length(name) + 4)
        sub(/,? "[a-z]+": .*/, "", text)
        gsub(/"/, "", text)
        sub(/,$/, "", text)
        return text
    }
    /"kind"/ {
        message = field("message")
        call = field("call")
        if (message == "close") closed = call
        if (message ~ /^(open|close|tick|refused)$/ || call == closed || /"due and missing"/) next
        result = field("result")
        id = message in ids ? ids[message] : tolower(substr(message, 9))
        fields = $0
        sub(/.*"fields": \{/, "", fields)
        sub(/\}\},?$/, "", fields)
        gsub(/\[/, "<", fields)
        while (match(fields, /<[^\]]*, /)) fields = substr(fields, 1, RSTART + RLENGTH - 3) ";" substr(fields, RSTART + RLENGTH)
        gsub(/, "/, " \"", fields)
        gsub(/": /, "=", fields)
        gsub(/"/, "", fields)
        gsub(/</, "[", fields)
        gsub(/;/, ", ", fields)
        print id " " (result == "null" ? 65535 : result) (fields == "" ? "" : " " fields)
    }'
}

# tried NAME RECORDING WORD..: a recording both ways
tried() {
    name=$1 recording=$2
    shift 2
    echo "dissector: $name"
    for pieces in 1460 7; do
        "$desk" pcap --pieces $pieces "$@" "$recording" >"$work/$name.pcap" 2>"$work/desk.log" || [ $? -eq 1 ]
        "$desk" pcap --back "$work/$name.pcap" "$@" >"$work/$name.rec" 2>"$work/back.log" || [ $? -eq 1 ]
        by_tshark "$work/$name.pcap" >"$work/$name.tshark"
        by_desk "$work/$name.rec" "$@" >"$work/$name.desk"
        held "$name in pieces of $pieces: some messages" test -s "$work/$name.desk"
        held "$name in pieces of $pieces: each field" diff "$work/$name.desk" "$work/$name.tshark"
    done
}

# counted NUMBER FIELD: how many frames of the example day have it; in two passes, as Wireshark does
counted() {
    [ "$(shark "$work/example-day.pcap" -2 -T fields -e "j280.$2" | grep -c '[0-9]')" -eq "$1" ]
}

# exchanged WHAT: frames of the exchange; what is shown of each must be what is due
exchanged() {
    echo "dissector: exchange, $1"
    awk -v what="$1" -v due="$work/$1.due" -f wireshark/exchange.awk wireshark/exchange.txt >"$work/$1.hex"
    text2pcap -q -l 101 "$work/$1.hex" "$work/$1.pcapng" 2>"$work/text2pcap.log"
    shark "$work/$1.pcapng" -2 -T fields -e frame.number -e _ws.col.Info -e j280.response_in -e j280.request_in >"$work/$1.shown"
    [ "$1" = odd ] || held "exchange, $1: shown and tied, frame by frame" diff "$work/$1.due" "$work/$1.shown"
}

# experts NAME FRAMES: the frames of the odd exchange that have this expert information
experts() {
    [ "$(shark "$work/odd.pcapng" -2 -Y "j280.$1" -T fields -e frame.number | xargs)" = "$2" ]
}

# ties FRAME FIELD FRAMES: of the odd exchange
ties() {
    [ "$(shark "$work/odd.pcapng" -2 -Y "frame.number == $1" -T fields -e "j280.$2" | xargs)" = "$3" ]
}

# unharmed FIRST N: over so many connections with mutated messages the dissector does not err, and shows some as messages
unharmed() {
    MUTATED_CAPTURE=$work/mutated.pcap MUTATED_FIRST=$1 MUTATED_N=$2 MUTATED_SEED=$seed CARGO_TARGET_DIR=target/desk \
        cargo test --quiet --offline --locked --manifest-path desk/Cargo.toml --bin desk -- --ignored a_capture_for_the_dissector \
        >"$work/mutated.log" 2>&1 || return 1
    shark "$work/mutated.pcap" -Y '_ws.lua.error || j280' -T fields -e frame.number -e j280.MessageID -e _ws.lua.error \
        >"$work/mutated.shown" || return 1
    [ "$(wc -l <"$work/mutated.shown")" -gt "$2" ] && ! awk -F '\t' '$3 != ""' "$work/mutated.shown" | grep .
}

# all_unharmed N: in captures of ten thousand
all_unharmed() {
    first=0
    while [ "$first" -lt "$1" ]; do
        many=$(($1 - first < 10000 ? $1 - first : 10000))
        held "mutated connections $first to $((first + many - 1)), seed $seed" unharmed "$first" "$many"
        first=$((first + many))
        [ "$1" -le 10000 ] || echo "dissector: $first of $1 mutated connections"
    done
}

# faultless CAPTURE: nothing that the dissector says is wrong with it, but refusals, which are answers as others
faultless() {
    shark "$1" -2 -Y '_ws.lua.error || _ws.malformed || j280.oversize || j280.unknown || j280.unreadable || j280.unasked' \
        -T fields -e frame.number -e _ws.col.Info >"$work/faults" && ! grep . "$work/faults"
}

# back CAPTURE NAME: as a recording
back() {
    "$desk" pcap --back "$1" --name "$2" >"$work/back.rec"
}

# captured CAPTURE NAME: one that was made elsewhere
captured() {
    echo "dissector: $(basename "$1"), channel $2"
    held 'the desk reads it' back "$1" "$2"
    held 'the rules, of what the desk made of it' "$desk" check --name "$2" "$work/back.rec"
    by_tshark "$1" >"$work/captured.tshark"
    by_desk "$work/back.rec" --name "$2" >"$work/captured.desk"
    held 'some messages' test -s "$work/captured.desk"
    held 'each field' diff "$work/captured.desk" "$work/captured.tshark"
    held 'the dissector finds no fault' faultless "$1"
}

if ! command -v tshark >/dev/null 2>&1 && command -v apt-get >/dev/null 2>&1; then
    echo 'dissector: installing tshark'
    {
        apt-get update -o Acquire::http::Timeout=20 -o Acquire::Retries=1 -o DPkg::Lock::Timeout=120 || :
        DEBIAN_FRONTEND=noninteractive apt-get install -y --no-install-recommends --no-remove -o DPkg::Lock::Timeout=120 tshark || :
    } >"$work/setup.log" 2>&1
fi
needs tshark text2pcap
CARGO_TARGET_DIR=target/desk cargo build --quiet --offline --locked --manifest-path desk/Cargo.toml
desk=target/desk/debug/desk
if [ -n "$mutated" ]; then
    all_unharmed "$mutated"
    echo "$passed passed, $failed failed"
    [ "$failed" -eq 0 ]
    exit
fi
if [ -n "$given" ]; then
    captured "$given" "$channel"
    echo "dissector: $(wc -l <"$work/captured.desk") messages, $(tshark --version 2>/dev/null | head -n 1)"
    echo "$passed passed, $failed failed"
    [ "$failed" -eq 0 ]
    exit
fi
"$desk" join --text wireshark/messages.txt >"$work/messages" || [ $? -eq 1 ]
tried messages "$work/messages"
tried incident desk/recordings/incident.rec
tried driver desk/recordings/sport.rec --name SPORT
tried example-day desk/recordings/example-day.rec
held 'the way back keeps the rules' "$desk" check "$work/example-day.rec"
requests=$(grep -cE '^0x000(1|3|5|7|a|e) ' "$work/example-day.desk")
held 'requests tied to their responses' counted "$requests" response_in
held 'responses tied to their requests' counted "$requests" request_in
exchanged pairs
exchanged cuts
exchanged ports
exchanged odd
held 'odd: MessageSize above 4088, and what is behind it' experts oversize '1 2'
held 'odd: an answer that nobody asked for' experts unasked 7
held 'odd: refused, and no end among the answers' experts refused 11
held 'odd: the first request is tied to the first answer' ties 8 response_in 9
held 'odd: an end is no answer' ties 11 request_in ''
held 'odd: the second request is tied to the answer behind the end' ties 10 response_in 12
held 'odd: what is sent again is no second message' ties 3 response_in 5
held 'unknown IDs' test "$(shark "$work/ports.pcapng" -Y j280.unknown -T fields -e j280.MessageID)" = 0x8001
echo 'dissector: mutated connections'
all_unharmed 1000
echo "dissector: $(cat "$work"/*.desk "$work"/*.due | wc -l) messages, $(tshark --version 2>/dev/null | head -n 1)"
echo "$passed passed, $failed failed"
[ "$failed" -eq 0 ]

#!/bin/sh
# cue-peer.sh [RECORDS..]: sections made by the second program, and those of the Cue_Requests in recorded outputs (`tools/beside.sh
# --cue-records FILE` writes the core's), through other programs: Debian's tshark reads a transport stream of them field by field against
# `model cue`, and Debian's python3-crcmod (crc-32-mpeg) computes each CRC_32, of right and of damaged sections. Installs both where they
# are missing (as root). By hand, no part of the gate. Left out, as tshark 4.0 cannot: it does not verify CRC_32, shows other bytes than the
# last four as CRC_32 behind stuffing, leaves splice_command_length 0xFFF undissected, and gives up at descriptors whose content it cannot
# walk (drawn ones are avail_descriptors).
# The last line is 'N passed, M failed'.
set -eu
. "$(dirname "$0")/words.sh"
for word; do
    [ -r "$word" ] || refuse "'$word' cannot be read"
done
needs awk
needs_rust 1.81
files=
for word; do
    files="$files $(readlink -f "$word")"
done
cd "$(dirname "$0")/.."
work=$PWD/target/cue-peer
rm -rf "$work"
mkdir -p "$work"
passed=0
failed=0

# held NAME COMMAND..: counts it
held() {
    what=$1
    shift
    if "$@" >"$work/held" 2>&1; then
        passed=$((passed + 1))
    else
        head -n 10 "$work/held"
        echo "cue-peer: $what: FAILED"
        failed=$((failed + 1))
    fi
}

# python: the one that has crcmod
find_python() {
    for python in /usr/bin/python3 python3; do
        if "$python" -c 'import crcmod.predefined' >/dev/null 2>&1; then
            return 0
        fi
    done
    return 1
}

if ! command -v tshark >/dev/null 2>&1 || ! find_python; then
    echo 'cue-peer: installing tshark and python3-crcmod'
    apt-get install -y --no-install-recommends --no-remove tshark python3-crcmod >"$work/setup.log" 2>&1 || :
    needs tshark
    find_python || { echo 'cue-peer.sh: python3-crcmod is missing' >&2; exit 2; }
fi
CARGO_TARGET_DIR=target/model cargo build --quiet --release --offline --manifest-path model/Cargo.toml
model=target/model/release/model

# Each line: the second program's name of a field, and tshark's, several where a field stands in several commands.
cat >"$work/names" <<'END'
table_id scte35.tid
section_syntax_indicator scte35.syntax_indicator
private_indicator scte35.private
reserved scte35.reserved
section_length scte35.len
protocol_version scte35.protocol_version
encrypted_packet scte35.encrypted_packet
encryption_algorithm scte35.encryption_algorithm
pts_adjustment scte35.pts_adjustment
cw_index scte35.cw_index
tier scte35.tier
splice_command_length scte35.splice_command_length
splice_command_type scte35.splice_command_type
splice_event_id scte35_si.event_id
splice_event_cancel_indicator scte35_si.cancelled
out_of_network_indicator scte35_si.out_of_net
program_splice_flag scte35_si.psf
duration_flag scte35_si.duration_flag
splice_immediate_flag scte35_si.splice_immediate
time_specified_flag scte35_si.splice_time.time_specified scte35_si.component.time_specified scte35_time.splice.time_specified
pts_time scte35_si.splice_time.pts scte35_si.component.pts scte35_time.splice.pts
component_count scte35_si.component_count
component_tag scte35_si.component.tag
auto_return scte35_si.break.auto_return
duration scte35_si.break.duration
unique_program_id scte35_si.upid
avail_num scte35_si.avail
avails_expected scte35_si.avails_expected
descriptor_loop_length scte35.desc_len
splice_descriptor_tag scte35.splice_descriptor.tag
descriptor_length scte35.splice_descriptor.length
identifier scte35.splice_descriptor.identifier
CRC_32 scte35.crc
END
# named FILE: its fields are those that are compared
named() {
    ours=$(awk '{ printf "%s%s", (NR > 1 ? "," : ""), $1 }' "$1")
    theirs=$(awk '{ for (i = 2; i <= NF; i++) printf " -e %s", $i }' "$1")
    columns=$(awk '{ printf " %d", NF - 1 }' "$1")
}
named "$work/names"

# by_tshark STREAM: the same columns as the second program's, in decimal digits
by_tshark() {
    # shellcheck disable=SC2086
    tshark -r "$1" -Y scte35 -T fields $theirs 2>"$work/tshark.log" | awk -F '\t' -v columns="$columns" '
    function decimal(text,    i, value) {
        if (text == "True") return 1
        if (text == "False") return 0
        if (substr(text, 1, 2) != "0x") return text
        value = 0
        for (i = 3; i <= length(text); i++) value = 16 * value + index("0123456789abcdef", substr(text, i, 1)) - 1
        return sprintf("%.0f", value)
    }
    function each(text,    n, i, parts, line) {
        n = split(text, parts, ",")
        for (i = 1; i <= n; i++) line = line (i > 1 ? "," : "") decimal(parts[i])
        return line
    }
    BEGIN { many = split(columns, widths, " ") }
    {
        at = 0
        line = ""
        for (c = 1; c <= many; c++) {
            found = ""
            for (w = 1; w <= widths[c]; w++) if ($(++at) != "") found = found (found == "" ? "" : ",") $at
            line = line (c > 1 ? "\t" : "") each(found)
        }
        print line
    }'
}

# compared NAME FILE: sections as digits, a line each, through tshark
compared() {
    name=$1
    # shellcheck disable=SC2046
    "$model" cue --fields splice_command_length,alignment_stuffing,descriptors,not_read,splice_descriptor_tag $(cat "$2") \
        >"$work/$name.which"
    paste "$work/$name.which" "$2" | awk -F '\t' -v kept="$work/$name.kept" '
    $1 == 4095 { given++; next }
    $2 != "" { stuffed++; next }
    $3 != "" || $4 != "" || $5 ~ /[1-9]/ { other++; next }
    { print $6 >kept }
    END {
        print "cue-peer: '"$name"': left out " given + 0 " with splice_command_length 0xFFF, " stuffed + 0 " with stuffing, " \
            other + 0 " with other descriptors than avail_descriptor"
    }'
    # shellcheck disable=SC2046
    "$model" cue --out "$work/$name.ts" $(cat "$work/$name.kept") >"$work/$name.out"
    "$model" cue --ts "$work/$name.ts" --hex >"$work/$name.back"
    held "$name: the stream gives its sections back" cmp "$work/$name.kept" "$work/$name.back"
    "$model" cue --ts "$work/$name.ts" --fields "$ours" >"$work/$name.ours"
    by_tshark "$work/$name.ts" >"$work/$name.tshark"
    held "$name: some sections" test -s "$work/$name.ours"
    held "$name: each field" diff "$work/$name.ours" "$work/$name.tshark"
    awk -F '\t' -v name="$name" '
    { for (i = 1; i <= NF; i++) if ($i != "") values += split($i, parts, ",") }
    END { print "cue-peer: " name ": " NR " sections, " values " values" }' "$work/$name.ours"
}

# segmented: segmentation_descriptors field by field. tshark 4.0 knows no sub-segments
segmented() {
    cat >"$work/segments" <<'END'
segmentation_event_id scte35.splice_descriptor.event_id
segmentation_event_cancel_indicator scte35.splice_descriptor.cancel_indicator
program_segmentation_flag scte35.splice_descriptor.psf
segmentation_duration_flag scte35.splice_descriptor.sdf
delivery_not_restricted_flag scte35.splice_descriptor.dnr
web_delivery_allowed_flag scte35.splice_descriptor.web_delivery_allowed
no_regional_blackout_flag scte35.splice_descriptor.no_regional_blackout
archive_allowed_flag scte35.splice_descriptor.archive_allowed
device_restrictions scte35.splice_descriptor.device_restrictions
segmentation_component_count scte35.splice_descriptor.component_count
segmentation_component_tag scte35.splice_descriptor.component.tag
pts_offset scte35.splice_descriptor.component.pts_offset
segmentation_duration scte35.splice_descriptor.segmentation_duration
segmentation_upid_type scte35.splice_descriptor.upid_type
segmentation_upid_length scte35.splice_descriptor.upid_length
segmentation_type_id scte35.splice_descriptor.segmentation_type_id
segment_num scte35.splice_descriptor.segment_num
segments_expected scte35.splice_descriptor.segments_expected
CRC_32 scte35.crc
END
    named "$work/segments"
    # SCTE 35's example; no duration; unrestricted; cancelled; components; two in one section
    for desc in 021C435545494800008E7FCF0001A599B00808000000002CA0A18A340200 \
        021243554549000000017F9F0303414243100102 021743554549FFFFFFFF7FFFFF000000010F03412F42220000 \
        0209435545490000000AFF 021C435545490000000B7F1F0201FE00000000FFFF0000005A0000350304 \
        020F435545490000000C7FBF0000300101020F435545490000000D7FBF0000310101; do
        "$model" cue --make time_signal pts=1 "desc=$desc" --hex
    done >"$work/segmented"
    # shellcheck disable=SC2046
    "$model" cue --out "$work/segmented.ts" $(cat "$work/segmented") >"$work/segmented.out"
    "$model" cue --ts "$work/segmented.ts" --fields "$ours" >"$work/segmented.ours"
    by_tshark "$work/segmented.ts" >"$work/segmented.tshark"
    held 'segmented: each field' diff "$work/segmented.ours" "$work/segmented.tshark"
    named "$work/names"
}

# crcs NAME FILE: crcmod of each; behind the digits stands what came of it, if it is not known to be right
crcs() {
    held "$1: each CRC_32 as crcmod has it" "$python" -c '
import sys, crcmod.predefined
crc = crcmod.predefined.mkPredefinedCrcFun("crc-32-mpeg")
right = wrong = 0
for line in open(sys.argv[1]):
    digits, *comes = line.split()
    if comes and comes[0] == "refused":
        continue
    good = crc(bytes.fromhex(digits)) == 0
    if not good and (not comes or comes[0] != "bad"):
        sys.exit("not 0: " + line)
    right += good
    wrong += not good
print("cue-peer: " + sys.argv[2] + ": %d right and %d wrong CRCs as crcmod has them" % (right, wrong))
open(sys.argv[3], "w").write("%d %d\n" % (right, wrong))
' "$2" "$1" "$work/$1.crcs"
    cat "$work/held"
}

"$model" cue --make insert id=0x28CE8 pts=0xD58923BF program=0x5566 --hex >"$work/made"
"$model" cue --make time_signal pts=0x123456789 adjustment=0x100000010 --hex >>"$work/made"
"$model" cue --drawn 600 --seed 280 --hex >>"$work/made"
# 49 avail_descriptors: a section over three packets
long=$(awk 'BEGIN { for (i = 0; i < 49; i++) printf "00084355454900000%03d", i }')
"$model" cue --make time_signal pts=1 "desc=$long" --hex >>"$work/made"
compared made "$work/made"
segmented
crcs made "$work/made"
number=0
for file in $files; do
    number=$((number + 1))
    "$model" cue --records "$file" --hex | awk 'NR <= 1500' >"$work/records-$number.all"
    compared "records-$number" "$work/records-$number.all"
    crcs "records-$number" "$work/records-$number.all"
done
# damaged ones too: what is not bad has a right CRC_32, and crcmod finds wrong ones among the bad
"$model" cues --seed 280 --n 4000 --rows | awk 'NF > 4 { print $1, $5 }' >"$work/damaged"
crcs damaged "$work/damaged"
held 'damaged: some wrong ones' awk '$2 < 100 { exit 1 }' "$work/damaged.crcs"
echo "cue-peer: $(tshark --version 2>/dev/null | head -n 1)"
echo "$passed passed, $failed failed"
[ "$failed" -eq 0 ]

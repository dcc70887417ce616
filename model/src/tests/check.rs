//! The checker (02, CR 14), small recordings by hand.

use crate::people::check::{check, told, Finding};
use crate::people::make_recording::{entries, is_call, of_steps, recorded};
use crate::people::record_lines::Line;
use crate::people::scenario::parse;

fn hex(text: &str) -> Vec<u8> {
    let parts = text.split_whitespace();
    parts.map(|p| u8::from_str_radix(p, 16).unwrap()).collect()
}

fn says(text: &str) -> String {
    check(&hex(text)).line()
}

/// General_Response 103 to connection 0, and an Alive_Request that it answers.
const DENIED: &str = "52 00 00 00 00 00 00 67 FF FF";
const ALIVE: &str = "4D 00 00 05 00 08 FF FF FF FF 00 00 00 00 00 00 00 00";

#[test]
fn small_ones_by_hand() {
    let cases = [
        ("", "none"),
        ("4F 00", "none"),
        ("4F 00 45 06", "call 1"),
        ("4F 04", "call 1"),
        ("4F 04 45 01", "none"),
        ("4F 00 4F 00 45 06", "none"),
        ("4F 00 4F 00", "call 2"),
        ("4F 00 4F 00 45 07", "call 2"),
        ("4F 00 4F 00 45 06 45 06", "call 2"),
        // a refused call is a call like others, and goes on
        ("43 00 45 07 4F 00 43 00 43 00 45 07", "none"),
        ("43 00 4F 00", "call 1"),
        // records before any call
        ("45 07", "call 0"),
        ("52 00 00 00 00 00 00 67 FF FF", "call 0"),
        ("45 07 4F 04", "call 0"),
        // a tick's second byte is not read; to the present time it writes nothing
        ("54 FF 00 00 00 00 00 00 00 00", "none"),
        ("54 00 00 00 00 00 00 0F 42 40 45 08", "none"),
        ("54 00 00 00 00 00 00 0F 42 40", "call 1"),
    ];
    for (text, line) in cases {
        assert_eq!(says(text), line, "{text}");
    }
}

#[test]
fn records_are_compared_whole() {
    assert_eq!(says(&format!("4F 00 {ALIVE} {DENIED}")), "none");
    assert_eq!(says(&format!("4F 00 {ALIVE} {DENIED} 4F 01")), "none");
    assert_eq!(says(&format!("4F 00 {ALIVE}")), "call 2");
    assert_eq!(says(&format!("4F 00 {ALIVE} {DENIED} {DENIED}")), "call 2");
    assert_eq!(says(&format!("4F 00 {DENIED} {ALIVE}")), "call 1");
    assert_eq!(says(&format!("4F 00 {ALIVE} 45 07")), "call 2");
    for place in 1..10 {
        let mut bytes = hex(&format!("4F 00 {ALIVE} {DENIED}"));
        let at = bytes.len() - 10 + place;
        bytes[at] ^= 1;
        // MessageSize 256 or 1 makes the entry longer than the recording: cut, and dropped
        let line = if matches!(place, 4 | 5) { "none" } else { "call 2" };
        assert_eq!(check(&bytes).line(), line, "byte {place}");
    }
}

#[test]
fn a_cut_last_entry_lets_off_the_last_call() {
    let whole = hex(&format!("4F 00 {ALIVE} {DENIED}"));
    for to in 0..=whole.len() {
        // behind the call and before its record nothing is cut
        let line = if to == 20 { "call 2" } else { "none" };
        assert_eq!(check(&whole[..to]).line(), line, "{to} bytes");
    }
    // whatever was cut, of a call or a record, and whatever its bytes
    assert_eq!(says(&format!("4F 00 {ALIVE} 4F")), "none");
    assert_eq!(says(&format!("4F 00 {ALIVE} 45")), "none");
    assert_eq!(says(&format!("4F 00 {ALIVE} 52 03 FF FF")), "none");
    assert_eq!(says(&format!("4F 00 {ALIVE} 54 00 00 00 00")), "none");
    // nothing else is let off: an earlier call, a wrong record, one too many
    assert_eq!(says(&format!("4F 00 {ALIVE} 4F 01 4F")), "call 2");
    assert_eq!(says(&format!("4F 00 {ALIVE} 45 07 52")), "call 2");
    assert_eq!(says(&format!("4F 00 {ALIVE} {DENIED} 45 07 52")), "call 2");
    // call 0 too
    assert_eq!(says("45"), "none");
    assert_eq!(says("45 01 45"), "call 0");
}

#[test]
fn unknown_marks_come_before_findings() {
    assert_eq!(says("00"), "refused 14 at 0");
    assert_eq!(says("4F 00 00"), "refused 14 at 2");
    assert_eq!(says("4F 04 00 4F"), "refused 14 at 2");
    assert_eq!(says("45 01 53 45"), "refused 14 at 2");
    assert_eq!(says(&format!("{ALIVE} 44 00 00")), "refused 14 at 18");
    // inside an entry any byte may stand
    assert_eq!(says("4F 44 45 01"), "none");
    // behind a cut entry nothing begins
    assert_eq!(says("4F 00 54 00 00"), "none");
}

#[test]
fn oversize_headers_end_their_entries() {
    let call = "4D 00 00 07 0F F9 FF FF FF FF";
    assert_eq!(says(&format!("{call} 45 07")), "none");
    assert_eq!(says(&format!("4F 00 {call} 45 04")), "none");
    assert_eq!(says("4D 09 00 07 FF FF FF FF FF FF 45 01"), "none");
    assert_eq!(says(&format!("4F 00 {call} 45 07")), "call 2");
    // the checker goes on behind it
    assert_eq!(says(&format!("4F 00 {call} 45 04 4F 00 45 06")), "none");
    assert_eq!(says(&format!("4F 00 {call} 45 04 4F 00")), "call 3");
    // a record's header too: what stands behind it begins an entry
    let record = "52 00 00 00 0F F9 00 64 FF FF";
    assert_eq!(says(&format!("4F 00 {record}")), "call 1");
    assert_eq!(says(&format!("4F 00 {record} 00")), "refused 14 at 12");
    assert_eq!(says(&format!("4F 00 {record} 4F")), "call 1");
}

#[test]
fn up_to_65536_bytes_are_read() {
    let mut bytes = hex("4F 09 45 01").repeat(16_384);
    assert_eq!(check(&bytes), Finding::None);
    bytes.push(0x4F);
    assert_eq!(check(&bytes), Finding::Longer);
    bytes[0] = 0;
    assert_eq!(check(&bytes), Finding::Longer);
    bytes.truncate(65_536);
    assert_eq!(check(&bytes), Finding::Unknown(0));
    bytes[0] = 0x4F;
    bytes[65_535] = 2;
    assert_eq!(check(&bytes), Finding::Call(16_384));
    assert_eq!(check(&bytes[..65_535]), Finding::None);
    let opens = hex("4F 00").repeat(32_768);
    assert_eq!(check(&opens), Finding::Call(2));
}

const DAY: &str = "> open 0\n> init 0\n< 0 Init_Response 100\n> tick 1000\n
     > splice 0 id=1 at=1003 duration=90000\n< 0 Splice_Response 100 id=1\n
     > splice 0 id=2 prior=1 duration=90000\n< 0 Splice_Response 100 id=2\n
     > tick 1003\n< 0 SpliceComplete_Response 100 id=1 flag=0 played=0\n
     > tick 1004\n< 0 SpliceComplete_Response 100 id=1 flag=1 played=90000\n
     < 0 SpliceComplete_Response 100 id=2 flag=0 played=0\n
     > close 0\n< 0 SpliceComplete_Response 116 id=2 flag=1 played=0\n";

#[test]
fn an_end_under_another_session_id_is_named() {
    let good = of_steps(&parse(DAY).unwrap());
    assert_eq!(check(&good), Finding::None);
    let wrong = DAY.replace("100 id=1 flag=1", "100 id=2 flag=1");
    let (text, none) = told(&of_steps(&parse(&wrong).unwrap()));
    assert!(!none);
    let lines: Vec<&str> = text.lines().collect();
    assert_eq!(lines[0], "call 7");
    assert_eq!(lines[1], "  call 7 at byte 289, clock 1003.000000: tick Seconds=1004 MicroSeconds=0");
    assert!(lines[2].trim().starts_with("due"), "{text}");
    assert!(lines[2].ends_with("found"), "{text}");
    let due = "0 SpliceComplete_Response 100 (Successful Response) id=1 flag=1 bitrate=0 played=90000";
    let row = format!("  {due}  |  {}", due.replace("id=1", "id=2"));
    assert_eq!(lines[3], row);
    assert!(lines[4].contains("  =  "), "{text}");
}

#[test]
fn what_was_found_never_changes_the_splicer() {
    // the other splicer refuses the close, and later calls go on as if it had not
    let text = DAY.replace("< 0 SpliceComplete_Response 116 id=2 flag=1 played=0", "");
    let text = text + "< refused 7\n> close 0\n< refused 7\n";
    assert_eq!(check(&of_steps(&parse(&text).unwrap())), Finding::Call(8));
    let behind = text.replace("< refused 7\n> close 0\n", "< 0 SpliceComplete_Response 116 id=2 flag=1 played=0\n> close 0\n");
    assert_eq!(check(&of_steps(&parse(&behind).unwrap())), Finding::None);
}

/// "Every recording of that length that our own card program could have made passes."
#[test]
fn our_own_recordings_pass_cut_or_not() {
    let input = crate::people::scenario::input_of(&parse(DAY).unwrap());
    let own = recorded(&input);
    assert_eq!(own, of_steps(&parse(DAY).unwrap()));
    let (list, _) = entries(&own);
    for to in 0..=own.len() {
        let between = list.iter().any(|entry| entry.at == to && to > 0);
        let due = between && !is_call(own[to]);
        assert_eq!(check(&own[..to]) == Finding::None, !due, "{to} bytes");
    }
}

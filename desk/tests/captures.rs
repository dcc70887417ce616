//! Captures of a live exchange, by tcpdump on a loopback: two servers and the card program behind a
//! driver that ticks 25 times a second before each message (`live.pcap`), and one that ticks once a second
//! and before none (`live-slow.pcapng`, made pcapng by editcap). Two cues and a bad one are among it.

mod common;

use common::{desk, recording, scratch, Ran};

fn back(name: &str) -> Ran {
    desk(&["pcap", "--back", name], b"")
}

#[test]
fn a_right_splicer_s_live_capture_is_good() {
    for name in ["live.pcap", "live-slow.pcapng"] {
        let ran = back(&recording(name));
        assert_eq!(ran.status, 0, "{name}: {}", ran.said);
        let list = desk(&["list"], &ran.out);
        assert_eq!((list.status, &list.said[..]), (0, ""), "{name}");
        let text = list.text();
        // two to each of two connections, and a bad one
        assert_eq!(text.matches(" < 0 Cue_Request time=").count(), 2, "{name}");
        assert_eq!(text.matches(" < 1 Cue_Request time=").count(), 2, "{name}");
        assert_eq!(text.matches("General_Response 117").count(), 2, "{name}");
        assert!(!text.contains("65535") && !text.contains("no result code"));
        let asrun = desk(&["asrun", "--csv"], &ran.out).text();
        let ends = [
            "\"refused, 112: Splice_Request Was Too Late\"",
            "did not start: collision",
            "aborted while waiting",
        ];
        for end in ends {
            assert!(asrun.contains(end), "{name}: {end}\n{asrun}");
        }
        assert_eq!(asrun.matches(",100,played to its end").count(), 2, "{name}");
    }
}

#[test]
fn what_a_capture_cannot_tell_is_said() {
    let said = back(&recording("live-slow.pcapng")).said;
    assert!(
        said.contains("a capture has no ticks and no cue calls"),
        "{said}"
    );
    assert!(
        said.contains("s from their packets' times, which is not judged"),
        "{said}"
    );
}

/// The clock of the machine that captures is an hour and a half late, or ahead: nothing changes but the
/// packets' times.
#[test]
fn another_clock_of_the_capture() {
    for shift in [5_400u32, 0u32.wrapping_sub(5_400)] {
        let mut bytes = std::fs::read(recording("live.pcap")).unwrap();
        let mut at = 24;
        while at < bytes.len() {
            let word = |at: usize| u32::from_le_bytes(bytes[at..at + 4].try_into().unwrap());
            let (seconds, size) = (word(at), word(at + 8) as usize);
            bytes[at..at + 4].copy_from_slice(&seconds.wrapping_add(shift).to_le_bytes());
            at += 16 + size;
        }
        let ran = back(&scratch("shifted.pcap", &bytes));
        assert_eq!(ran.status, 0, "{}", ran.said);
    }
}

/// 1.5 s on air are 135,000 ticks (0x20F58); one more was never played.
#[test]
fn a_wrong_played_duration_is_found() {
    let mut bytes = std::fs::read(recording("live.pcap")).unwrap();
    let end = [0, 0, 0, 1, 1, 0, 0, 0, 0, 0, 2, 0x0F, 0x58];
    let at = bytes.windows(end.len()).position(|w| w == end).unwrap();
    bytes[at + 12] += 1;
    let ran = back(&scratch("wrong.pcap", &bytes));
    assert_eq!(ran.status, 1, "{}", ran.said);
    let check = desk(&["check"], &ran.out).text();
    let end = "0 SpliceComplete_Response 100 (Successful Response) SessionID=1 SpliceTypeFlag=1";
    assert!(
        check.contains(&format!(
            "DUE, MISSING:  {end} Bitrate=0 PlayedDuration=135000"
        )),
        "{check}"
    );
    assert!(
        check.contains(&format!(
            "FOUND, NOT DUE: {end} Bitrate=0 PlayedDuration=135001"
        )),
        "{check}"
    );
    assert!(check.contains("1 call breaks the rules"), "{check}");
}

/// Without the packets in which the connections begin.
fn from_the_middle(packets: usize) -> String {
    let bytes = std::fs::read(recording("live.pcap")).unwrap();
    let mut at = 24;
    for _ in 0..packets {
        let size = u32::from_le_bytes(bytes[at + 8..at + 12].try_into().unwrap());
        at += 16 + size as usize;
    }
    scratch("middle.pcap", &[&bytes[..24], &bytes[at..]].concat())
}

#[test]
fn a_capture_from_the_middle_is_shown_with_what_can_be_known() {
    let ran = back(&from_the_middle(29));
    assert_eq!(ran.status, 0, "{}", ran.said);
    assert!(
        ran.said
            .contains("a connection was there before the capture"),
        "{}",
        ran.said
    );
    let asrun = desk(&["asrun", "--middle"], &ran.out);
    assert_eq!(asrun.status, 0);
    let text = asrun.text();
    assert!(
        text.contains("played to its end; asked for before the recording"),
        "{text}"
    );
    assert!(
        text.contains("what waited and was on air is not known"),
        "{text}"
    );
    let fresh = desk(&["check"], &ran.out);
    assert_eq!(fresh.status, 1);
    assert!(
        fresh
            .said
            .contains("--middle shows a recording that begins in the middle of a day"),
        "{}",
        fresh.said
    );
}

/// A byte of a segment is missing: nothing behind it is read, and it is said.
#[test]
fn a_gap_is_said() {
    let bytes = std::fs::read(recording("live.pcap")).unwrap();
    let (mut at, mut out, mut cut) = (24, bytes[..24].to_vec(), 0);
    while at < bytes.len() {
        let size = u32::from_le_bytes(bytes[at + 8..at + 12].try_into().unwrap()) as usize;
        let packet = &bytes[at..at + 16 + size];
        at += 16 + size;
        // a loopback's frame: 14 of Ethernet, 20 of IP, 32 of TCP, then data
        cut += usize::from(size > 66);
        if cut != 9 || size <= 66 {
            out.extend_from_slice(packet);
        }
    }
    let ran = back(&scratch("gap.pcap", &out));
    assert_eq!(ran.status, 0, "{}", ran.said);
    assert!(
        ran.said
            .contains("bytes stand behind a gap and are not read"),
        "{}",
        ran.said
    );
}

//! The engine that only remembers (02, CR 12).

use crate::people::card::{Call as Kept, Stop};
use crate::people::recall::{call, list, run, Asked, Reply, LOG};
use crate::people::record_lines::hex;
use crate::people::scenario;
use rules::state::{Maps, ROOM};

fn bytes(text: &str) -> Vec<u8> {
    let parts = text.split_whitespace();
    parts.map(|p| u8::from_str_radix(p, 16).unwrap()).collect()
}

/// A message of this MessageID and as many bytes of data, each 0xAB.
fn sized(id: u16, size: usize) -> Vec<u8> {
    scenario::message(id, vec![0xAB; size])
}

/// What a call gives, held to this house number; a good one's reply.
fn told(log: &mut [u8], asked: &Asked, number: u8) -> Reply {
    let before = log.to_vec();
    let reply = call(log, asked, &mut [0; ROOM]);
    assert_eq!(reply.refused, number, "{asked:?}");
    if number != 0 {
        assert_eq!(reply, Reply::refusal(number));
        assert!(log == before, "{asked:?} changed the log");
    }
    reply
}

fn message(log: &mut [u8], conn: u32, read: &[u8], maps: Maps, out: &mut [u8]) -> Reply {
    call(log, &Asked::Message(conn, read, maps), out)
}

fn said(log: &mut [u8], conn: u32, read: &[u8], number: u8) -> Reply {
    told(log, &Asked::Message(conn, read, Maps::EMPTY), number)
}

/// Every call; the rules refuse most of them, whatever was called before.
fn every_call() -> Vec<Asked<'static>> {
    let long = Maps { primary: &[0; 1_025], insertion: &[] };
    let message = |read, maps| Asked::Message(0, read, maps);
    vec![
        Asked::Open(0),
        Asked::Open(4),
        Asked::Open(256),
        Asked::Close(0),
        Asked::Close(1),
        Asked::Close(4),
        Asked::Tick(0, 1_000_000),
        Asked::Tick(0, 0),
        Asked::Tick(u32::MAX, 999_999),
        message(&[], Maps::EMPTY),
        message(&[0, 0, 0xFF, 0xFF, 0, 0, 0, 0], Maps::EMPTY),
        message(&[0, 0, 0, 0, 0, 0, 0, 0], Maps::EMPTY),
        message(&[0, 0, 0, 0, 0, 0, 0, 0], long),
    ]
}

/// 13 for every call, with a short buffer too; the log stays.
fn all_full(log: &mut [u8]) {
    for asked in every_call() {
        told(log, &asked, 13);
        let before = log.to_vec();
        assert_eq!(call(log, &asked, &mut [0; 9]), Reply::refusal(13));
        assert!(log == before);
    }
}

#[test]
fn the_whole_case() {
    let input = "4F 00 4D 00 00 05 00 08 FF FF FF FF 00 00 00 00 00 00 00 00 43 00 43 00";
    let run = run(&bytes(input));
    assert_eq!(hex(&run.output()), "52 00 00 00 00 00 00 67 FF FF 45 07");
    // the second close is not kept
    let kept = bytes(input)[..22].to_vec();
    assert_eq!(run.log[..22], kept);
    assert!(run.log[22..].iter().all(|b| *b == 0));
    assert_eq!((run.log.len(), run.stop), (65_536, Stop::End));
}

#[test]
fn the_256th_is_answered_and_the_257th_gets_13() {
    let mut log = vec![0; LOG];
    told(&mut log, &Asked::Open(0), 0);
    for _ in 0..254 {
        // refused ones do not count
        told(&mut log, &Asked::Open(0), 6);
        told(&mut log, &Asked::Tick(7, 0), 0);
        told(&mut log, &Asked::Tick(6, 999_999), 3);
    }
    // 255 kept
    assert_eq!(list(&log).calls.len(), 255);
    told(&mut log, &Asked::Open(4), 1);
    told(&mut log, &Asked::Open(1), 0);
    // 2 + 254 x 10 + 2 bytes
    assert_eq!(list(&log).used, 2_544);
    assert_eq!(log[2_532..2_545], bytes("54 00 00 00 00 07 00 00 00 00 4F 01 00"));
    all_full(&mut log);
}

/// A log with connection 0 open and this many bytes free.
fn with_free(free: usize) -> Vec<u8> {
    let mut log = vec![0; LOG];
    told(&mut log, &Asked::Open(0), 0);
    for _ in 0..14 {
        // 10 + 4,088 bytes each
        said(&mut log, 0, &sized(0x000D, 4_088), 0);
    }
    let used = 2 + 14 * 4_098;
    said(&mut log, 0, &sized(0x000D, LOG - used - free - 10), 0);
    assert_eq!(list(&log).used, LOG - free);
    assert_eq!(list(&log).calls.len(), 16);
    log
}

#[test]
fn with_4098_free_the_largest_message_fills_the_log() {
    let mut log = with_free(4_098);
    said(&mut log, 0, &sized(0x000D, 4_089), 4);
    said(&mut log, 1, &sized(0x000D, 4_088), 7);
    let reply = said(&mut log, 0, &sized(0x000D, 4_088), 0);
    assert_eq!((reply.consumed, reply.written), (4_096, 10));
    // to its last byte, and no zero behind
    assert_eq!(log[LOG - 4_098..LOG - 4_088], bytes("4D 00 00 0D 0F F8 FF FF FF FF"));
    assert!(log[LOG - 4_088..].iter().all(|b| *b == 0xAB));
    all_full(&mut log);
}

#[test]
fn with_4097_free_there_is_13_and_with_4099_a_zero_behind() {
    all_full(&mut with_free(4_097));
    let mut log = with_free(4_099);
    log[LOG - 1] = 0x4F;
    said(&mut log, 0, &sized(0x000D, 4_088), 0);
    assert_eq!(log[LOG - 2..], [0xAB, 0]);
    all_full(&mut log);
    // with 4,098 free the shortest record leaves 4,096
    let mut log = with_free(4_098);
    told(&mut log, &Asked::Close(0), 0);
    all_full(&mut log);
    // and with 4,100 free 4,098
    let mut log = with_free(4_100);
    told(&mut log, &Asked::Open(1), 0);
    said(&mut log, 1, &sized(0x000D, 4_088), 0);
    all_full(&mut log);
}

#[test]
fn other_lengths_get_13_before_all() {
    for length in [0, 1, 4_098, 65_535, 65_537, 131_072] {
        let mut log = vec![0; length];
        told(&mut log, &Asked::Fresh, 13);
        all_full(&mut log);
        let mut log = vec![0x4F; length];
        told(&mut log, &Asked::Fresh, 13);
        all_full(&mut log);
    }
}

#[test]
fn fresh_looks_at_the_length_alone() {
    let full = [with_free(4_097), [0x4F, 0].repeat(LOG / 2), vec![0xFF; LOG]];
    for mut log in full {
        told(&mut log, &Asked::Fresh, 0);
        assert!(log == vec![0; LOG]);
    }
}

#[test]
fn any_bytes_are_a_list() {
    // no call: refused ones leave the byte, a good one puts a zero behind itself
    let mut log = vec![0xFF; LOG];
    told(&mut log, &Asked::Close(2), 7);
    told(&mut log, &Asked::Open(2), 0);
    assert_eq!(log[..4], [0x4F, 2, 0, 0xFF]);
    told(&mut log, &Asked::Tick(1, 2), 0);
    assert_eq!(log[..14], bytes("4F 02 54 00 00 00 00 01 00 00 00 02 00 FF"));
    assert!(log[14..].iter().all(|b| *b == 0xFF));
    // what the rules refuse counts and changes nothing
    let mut log = vec![0; LOG];
    log[..510].copy_from_slice(&[0x4F, 9].repeat(255));
    told(&mut log, &Asked::Open(0), 0);
    assert_eq!(list(&log).calls.len(), 256);
    all_full(&mut log);
    // 32,768 calls
    all_full(&mut [0x4F, 0].repeat(LOG / 2));
}

#[test]
fn what_ends_the_list() {
    let oversize = "4F 00 4D 00 00 01 0F F9 FF FF FF FF 4F 01";
    let other = "4F 00 52 00 4F 01";
    let zero = "4F 00 00 4F 01";
    for text in [oversize, other, zero] {
        let mut log = vec![0; LOG];
        log[..bytes(text).len()].copy_from_slice(&bytes(text));
        assert_eq!(list(&log).calls, [Kept::Open(0)], "{text}");
        told(&mut log, &Asked::Close(1), 7);
        told(&mut log, &Asked::Close(0), 0);
        assert_eq!(log[..5], [0x4F, 0, 0x43, 0, 0], "{text}");
        assert_eq!(log[5..13], bytes(&format!("{text} {}", "00 ".repeat(16)))[5..13]);
    }
    // a cut record: fewer than 4,098 bytes are free behind what is whole
    let mut log = with_free(4_097);
    log[LOG - 4_097..][..10].copy_from_slice(&bytes("4D 00 00 0D 0F F8 FF FF FF FF"));
    assert_eq!(list(&log).used, LOG - 4_097);
    all_full(&mut log);
}

/// The data of an Init_Request for "CH1" with this Hardware_Config.
fn init(hardware: &[u8]) -> Vec<u8> {
    let mut data = vec![0; 66];
    data[1] = 2;
    data[2..5].copy_from_slice(b"CH1");
    data.extend(hardware);
    scenario::message(0x0001, data)
}

#[test]
fn one_message_is_kept_and_no_section() {
    let mut log = vec![0; LOG];
    told(&mut log, &Asked::Open(3), 0);
    let good = init(&[0, 1, 9]);
    said(&mut log, 3, &[&good[..], &[0, 5, 0, 8]].concat(), 0);
    let asks = scenario::message(0x000A, Vec::new());
    let maps = Maps { primary: &[0x4F; 1_024], insertion: &[0x43; 5] };
    let mut out = [0xEE; ROOM + 3];
    let reply = message(&mut log, 3, &[&asks[..], &[1]].concat(), maps, &mut out);
    assert_eq!((reply.refused, reply.consumed), (0, 8));
    // mark 2, header 8, name 32, Hardware_Config 3, the primary's section
    assert_eq!(reply.written, 2 + 8 + 32 + 3 + 1_024);
    assert!(out[reply.written..].iter().all(|b| *b == 0xEE));
    let kept = [&[0x4F, 3, 0x4D, 3], &good[..], &[0x4D, 3], &asks, &[0; 9]].concat();
    assert_eq!(log[..kept.len()], kept);
    // 10 behind 7 and before 5
    let long = Maps { primary: &[], insertion: &[0; 1_025] };
    told(&mut log, &Asked::Message(2, &[], long), 7);
    told(&mut log, &Asked::Message(3, &[], long), 10);
}

#[test]
fn the_latest_init_that_got_100() {
    let mut log = vec![0; LOG];
    told(&mut log, &Asked::Open(0), 0);
    let mut shown = |read: &[u8]| {
        let mut out = [0; ROOM];
        let maps = Maps::EMPTY;
        assert_eq!(message(&mut log, 0, read, maps, &mut out).refused, 0);
        let asks = scenario::message(0x000A, Vec::new());
        let reply = message(&mut log, 0, &asks, maps, &mut out);
        out[42..reply.written].to_vec()
    };
    assert_eq!(shown(&init(&[0, 1, 9])), [0, 1, 9]);
    assert_eq!(shown(&init(&[0, 2, 8, 7])), [0, 2, 8, 7]);
    let mut other = init(&[0, 1, 6]);
    other[9] = 3;
    assert_eq!(shown(&other), [0, 2, 8, 7]);
    assert_eq!(shown(&init(&[0, 1])), [0, 2, 8, 7]);
}

#[test]
fn moved_is_the_present_acceptance_s() {
    let mut log = vec![0; LOG];
    told(&mut log, &Asked::Open(0), 0);
    said(&mut log, 0, &init(&[0, 0]), 0);
    let splice = |id: u8, at: u8| {
        let mut data = vec![0; 33];
        data[3] = id;
        data[4..8].fill(0xFF);
        data[11] = at;
        data[20] = 1;
        scenario::message(0x0007, data)
    };
    for (id, at, moved) in [(1, 9, 0), (2, 8, 1), (3, 7, 2), (4, 10, 0)] {
        assert_eq!(said(&mut log, 0, &splice(id, at), 0).moved, moved);
    }
    // 121: not accepted
    assert_eq!(said(&mut log, 0, &splice(1, 6), 0).moved, 0);
}

#[test]
fn the_program_goes_on_behind_13_and_stops_at_an_oversize_header() {
    let mut input = [0x4F, 0, 0x43, 0].repeat(128);
    input.extend(bytes("4F 09 4F 01 4D 09 00 01 0F F9 FF FF FF FF 4F 00"));
    let run = run(&input);
    assert_eq!(run.output(), [0x45, 13].repeat(3));
    assert_eq!((run.first_13(), run.stop), (Some(256), Stop::TooLarge));
    assert_eq!(run.log[..513], [&input[..512], &[0]].concat());
}

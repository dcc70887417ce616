//! Recordings, saved states, records by their fields and words for numbers.

use splicer::recorder::{record_cue, record_name, record_section, Feed, Recorder};
use splicer::{
    message_id, name, records, texts, Maps, NotSaved, Refusal, Says, Splicer, OUT, SAVED,
};
use splicer::{RollingSplicer, CUE_SECTION, MAP_SECTION};

/// A request of this MessageID.
fn request(id: u16, data: &[u8]) -> Vec<u8> {
    let size = u16::try_from(data.len()).unwrap();
    [&id.to_be_bytes()[..], &size.to_be_bytes(), &[0xFF; 4], data].concat()
}

fn init(channel: &[u8]) -> Vec<u8> {
    let data = [&[0, 2], &name(channel)[..], &name(b"SERVER"), &[0, 0]].concat();
    request(message_id::INIT_REQUEST, &data)
}

fn fresh() -> Splicer {
    Splicer::fresh(&name(b"SPORT")).0
}

#[test]
fn a_call_stands_in_its_mark_and_its_answer_behind_it() {
    let (mut channel, mut out, mut kept) = (fresh(), [0; OUT], Vec::new());
    let mut recorder = Recorder::new(|bytes: &[u8]| kept.extend_from_slice(bytes));
    recorder.open(&mut channel, 0).unwrap();
    recorder.open(&mut channel, 9_999).unwrap_err();
    let alive = request(message_id::ALIVE_REQUEST, &[0; 8]);
    let read = [&alive[..], &alive].concat();
    let handled = recorder.message(&mut channel, 0, &read, &mut out);
    assert_eq!(handled.unwrap().consumed, 16);
    recorder.tick(&mut channel, 1_000, 5, &mut out).unwrap();
    recorder.tick(&mut channel, 999, 0, &mut out).unwrap_err();
    recorder.close(&mut channel, 0, &mut out).unwrap();
    recorder.close(&mut channel, 0, &mut out).unwrap_err();
    let general = [0x52, 0, 0, 0, 0, 0, 0, 103, 0xFF, 0xFF];
    let expected = [
        &[0x4F, 0, 0x4F, 255, 0x45, 1, 0x4D, 0][..],
        &alive,
        &general,
        &[0x54, 0, 0, 0, 3, 0xE8, 0, 0, 0, 5],
        &[0x54, 0, 0, 0, 3, 0xE7, 0, 0, 0, 0, 0x45, 3],
        &[0x43, 0, 0x43, 0, 0x45, 7],
    ];
    assert_eq!(kept, expected.concat());
}

#[test]
fn what_the_marks_cannot_hold_is_left_out() {
    let (mut channel, mut out, mut kept) = (fresh(), [0; OUT], Vec::new());
    let mut recorder = Recorder::new(|bytes: &[u8]| kept.extend_from_slice(bytes));
    recorder.open(&mut channel, 0).unwrap();
    let alive = request(message_id::ALIVE_REQUEST, &[0; 8]);
    let refusals = [
        (0, &alive[..15], OUT, Refusal::Short),
        (0, &[], OUT, Refusal::Short),
        (1, &alive[..15], OUT, Refusal::NotOpen),
        (0, &alive, OUT - 1, Refusal::NoRoom),
    ];
    for (connection, read, room, refusal) in refusals {
        let reply = recorder.message(&mut channel, connection, read, &mut out[..room]);
        assert_eq!(reply.unwrap_err(), refusal);
    }
    let short = &mut out[..OUT - 1];
    recorder.tick(&mut channel, 1, 0, short).unwrap_err();
    recorder.close(&mut channel, 0, short).unwrap_err();
    // Of a MessageSize above 4,088 the header is kept.
    let huge = [0, 5, 0x0F, 0xF9, 0, 0, 0, 0, 1, 2, 3];
    let reply = recorder.message(&mut channel, 0, &huge, &mut out);
    assert_eq!(reply.unwrap_err(), Refusal::Oversize);
    let expected = [&[0x4F, 0, 0x4D, 0][..], &huge[..8], &[0x45, 4]];
    assert_eq!(kept, expected.concat());
}

/// docs/SCTE35.md's time_signal.
const SIGNAL: [u8; 25] = [
    0xFC, 0x30, 0x16, 0x00, 0x01, 0x00, 0x00, 0x00, 0x10, 0x00, 0xFF, 0xF0, 0x05, 0x06, 0xFF, 0x23,
    0x45, 0x67, 0x89, 0x00, 0x00, 0x71, 0x3B, 0x22, 0xBD,
];

/// The answers, worked by hand: Init_Response 100; GetConfig_Response with a section of three bytes;
/// the cue's time is 100,001 ticks behind 1,000 s.
#[test]
fn names_sections_and_cues_stand_in_their_marks() {
    let (mut channel, mut out, mut kept) = (fresh(), [0; OUT], Vec::new());
    let mut recorder = Recorder::new(|bytes: &[u8]| kept.extend_from_slice(bytes));
    recorder.name(&name(b"SPORT"));
    recorder.open(&mut channel, 0).unwrap();
    let hello = init(b"SPORT");
    recorder.message(&mut channel, 0, &hello, &mut out).unwrap();
    let maps = Maps {
        primary: &[1, 2, 3],
        insertion: &[],
    };
    recorder.section(Feed::Primary, maps.primary);
    recorder.section(Feed::Insertion, maps.insertion);
    let config = request(message_id::GET_CONFIG_REQUEST, &[]);
    let handled = recorder.message_with(&mut channel, 0, &config, maps, &mut out);
    assert_eq!(handled.unwrap().written.len(), 10 + 32 + 2 + 3);
    let given = (591_651_064, 1_000, 0);
    recorder.cue(&channel, &SIGNAL, given, &mut out).unwrap();
    let late = (0, 1_000, 1_000_000);
    recorder.cue(&channel, &SIGNAL, late, &mut out).unwrap_err();
    let short = &mut out[..OUT - 1];
    recorder.cue(&channel, &SIGNAL, late, short).unwrap_err();
    let sport = name(b"SPORT");
    let expected = [
        &[0x4E, 0][..],
        &sport,
        &[0x4F, 0, 0x4D, 0],
        &hello,
        &[0x52, 0, 0, 2, 0, 34, 0, 100, 0xFF, 0xFF, 0, 2],
        &sport,
        &[0x4C, 0, 0, 3, 1, 2, 3, 0x4C, 1, 0, 0, 0x4D, 0],
        &config,
        &[0x52, 0, 0, 0x0B, 0, 37, 0, 100, 0xFF, 0xFF],
        &sport,
        &[0, 0, 1, 2, 3],
        &[0x51, 0, 0, 25],
        &SIGNAL,
        &[
            0, 0, 0, 0, 0x23, 0x43, 0xE0, 0xF8, 0, 0, 3, 0xE8, 0, 0, 0, 0,
        ],
        &[
            0x52, 0, 0, 0x0C, 0, 33, 0xFF, 0xFF, 0xFF, 0xFF, 0, 0, 3, 0xE9, 0, 1, 0xB2, 0x12,
        ],
        &SIGNAL,
        &[0x51, 0, 0, 25],
        &SIGNAL,
        &[
            0, 0, 0, 0, 0, 0, 0, 0, 0, 0, 3, 0xE8, 0, 0x0F, 0x42, 0x40, 0x45, 8,
        ],
    ];
    assert_eq!(kept, expected.concat());
}

#[test]
fn a_rolling_card_is_recorded_too() {
    let (mut card, mut out, mut kept) = (RollingSplicer::fresh(&name(b"CH1")).0, [0; OUT], vec![]);
    let mut recorder = Recorder::new(|bytes: &[u8]| kept.extend_from_slice(bytes));
    recorder.open(&mut card, 3).unwrap();
    recorder.reading(&mut card, 7, &mut out).unwrap_err();
    recorder
        .instant(&mut card, 1_000, 5, u32::MAX, &mut out)
        .unwrap();
    recorder.reading(&mut card, 89, &mut out).unwrap();
    recorder
        .instant(&mut card, 1_000, 5, 0, &mut out)
        .unwrap_err();
    recorder.close(&mut card, 3, &mut out).unwrap();
    let short = &mut out[..OUT - 1];
    recorder.reading(&mut card, 90, short).unwrap_err();
    recorder.instant(&mut card, 1, 2, 3, short).unwrap_err();
    let expected = [
        &[0x4F, 3, 0x57, 0, 0, 0, 0, 7, 0x45, 12][..],
        &[0x49, 0, 0, 0, 3, 0xE8, 0, 0, 0, 5, 0xFF, 0xFF, 0xFF, 0xFF],
        &[0x57, 0, 0, 0, 0, 89],
        &[0x49, 0, 0, 0, 3, 0xE8, 0, 0, 0, 5, 0, 0, 0, 0, 0x45, 12],
        &[0x43, 3],
    ];
    assert_eq!(kept, expected.concat());
}

/// Of a longer section the first 1,025, or 513, bytes; no piece is empty.
#[test]
fn what_a_mark_cannot_hold_is_cut() {
    let long: Vec<u8> = (0..2_000).map(|at| at as u8).collect();
    for length in [0, 1, 512, 513, 514, 1_024, 1_025, 1_026, 2_000] {
        let mut kept = Vec::new();
        let mut sink = |bytes: &[u8]| {
            assert!(!bytes.is_empty());
            kept.extend_from_slice(bytes);
        };
        record_name(&mut sink, &name(b"A"));
        record_section(&mut sink, Feed::Insertion, &long[..length]);
        record_cue(&mut sink, &long[..length], 1 << 32, 5, 6);
        let (map, cue) = (length.min(MAP_SECTION + 1), length.min(CUE_SECTION + 1));
        let expected = [
            &[0x4E, 0][..],
            &name(b"A"),
            &[0x4C, 1, (map >> 8) as u8, map as u8],
            &long[..map],
            &[0x51, 0, (cue >> 8) as u8, cue as u8],
            &long[..cue],
            &[0, 0, 0, 1, 0, 0, 0, 0, 0, 0, 0, 5, 0, 0, 0, 6],
        ];
        assert_eq!(kept, expected.concat(), "{length}");
    }
}

#[test]
fn a_saved_state_goes_on_where_it_was() {
    let (mut channel, mut out) = (fresh(), [0; OUT]);
    channel.open(2).unwrap();
    channel.message(2, &init(b"SPORT"), &mut out).unwrap();
    channel.tick(77, 5, &mut out).unwrap();
    let mut bytes = channel.saved();
    assert_eq!(bytes.len(), SAVED);
    // SAFETY: what `saved` gave, or bytes that are refused.
    let restored = |bytes: &[u8]| unsafe { Splicer::restored(bytes) };
    assert_eq!(restored(&bytes), Ok(channel));
    assert_eq!(restored(&bytes[1..]), Err(NotSaved::Foreign));
    assert_eq!(restored(&bytes[..SAVED - 1]), Err(NotSaved::Foreign));
    assert_eq!(restored(&[]), Err(NotSaved::Foreign));
    for place in [8, 4_000, SAVED - 1] {
        bytes[place] ^= 4;
        assert_eq!(restored(&bytes), Err(NotSaved::Damaged));
        bytes[place] ^= 4;
    }
    bytes[4] = 2;
    assert_eq!(restored(&bytes), Err(NotSaved::Version(2)));
    let said = "saved by version 2, and this is";
    assert!(NotSaved::Version(2).to_string().starts_with(said));
}

#[test]
fn records_by_their_fields() {
    let (mut channel, mut out) = (fresh(), [0; OUT]);
    channel.open(0).unwrap();
    let said = |written: &[u8]| records(written).next().and_then(|r| r.says()).is_some();
    let handled = channel.message(0, &init(b"SPORT"), &mut out).unwrap();
    let record = records(handled.written).next().unwrap();
    let (revision, own) = (2, name(b"SPORT"));
    let name = &own;
    assert_eq!(record.says(), Some(Says::Init { revision, name }));
    channel.tick(1_000, 7, &mut out).unwrap();
    let alive = request(message_id::ALIVE_REQUEST, &[0; 8]);
    let handled = channel.message(0, &alive, &mut out).unwrap();
    let expected = Says::Alive {
        state: 1,
        session: u32::MAX,
        seconds: 1_000,
        micros: 7,
    };
    assert_eq!(
        records(handled.written).next().unwrap().says(),
        Some(expected)
    );
    let complete = "52 01 00 09 00 0D 00 7D FF FF 00 00 00 07 01 00 00 00 02 00 0D BB A0";
    let bytes: Vec<u8> = complete
        .split(' ')
        .map(|b| u8::from_str_radix(b, 16).unwrap())
        .collect();
    let expected = Says::Complete {
        session: 7,
        flag: 1,
        bitrate: 2,
        played: 900_000,
    };
    assert_eq!(records(&bytes).next().unwrap().says(), Some(expected));
    assert!(said(&[0x52, 0, 0, 15, 0, 4, 0, 121, 255, 255, 0, 0, 0, 9]));
    assert!(!said(&[0x52, 0, 0, 15, 0, 3, 0, 121, 255, 255, 0, 0, 9]));
    assert!(!said(&[0x52, 0, 0, 7, 0, 0, 0, 121, 255, 255]));
}

/// The words of a function of `include/splicer_text.h`, in order.
fn of_header(function: &str) -> Vec<&'static str> {
    let text = include_str!("../../include/splicer_text.h");
    let (_, body) = text.split_once(function).expect(function);
    let (_, body) = body.split_once("words[] = {").expect("words");
    let (body, _) = body.split_once("};").expect("their end");
    body.split('"').skip(1).step_by(2).collect()
}

#[test]
fn the_words_are_those_of_the_header() {
    type Told = fn(u32) -> &'static str;
    let functions: [(&str, Told, u32, usize); 4] = [
        ("splicer_refusal_text", texts::refusal, 0, 17),
        ("splicer_result_text", |n| texts::result(n as u16), 100, 36),
        ("splicer_message_text", |n| texts::message(n as u16), 0, 18),
        ("splicer_state_text", texts::state, 0, 3),
    ];
    for (function, told, first, count) in functions {
        let words = of_header(function);
        assert_eq!(words.len(), count, "{function}");
        for (number, words) in (first..).zip(words) {
            assert_eq!(told(number), words, "{function} {number}");
        }
        assert!(told(first.wrapping_sub(1)).starts_with("no "), "{function}");
        assert!(told(first + count as u32).starts_with("no "), "{function}");
    }
    assert_eq!(texts::result(112), "Splice_Request Was Too Late");
    assert_eq!(Refusal::AlreadyOpen.text(), "already open");
}

//! The cue call (02, CR 7), by the worked sections of docs/SCTE35.md.

use crate::people::cue_call::{crc, judged, time_of, Comes, Given, WRAP};
use crate::people::record_lines::{all_bytes, hex};
use crate::people::section_bytes::{closed, remade, Command, Insert, Section};
use rules::state::{Splicer, ROOM};
use rules::times::NONE;

fn bytes(text: &str) -> Vec<u8> {
    let parts = text.split_whitespace();
    parts.map(|p| u8::from_str_radix(p, 16).unwrap()).collect()
}

/// The page's worked sections.
const FIRST: &str = "FC 30 20 00 00 00 00 00 00 00 FF F0 0F 05 00 02 8C E8 7F CF FE D5 89 23 BF \
                     55 66 00 00 00 00 1D 80 D8 5D";
const SECOND: &str = "FC 30 16 00 01 00 00 00 10 00 FF F0 05 06 FF 23 45 67 89 00 00 71 3B 22 BD";

fn given(section: Vec<u8>, pts: u64, seconds: u32, micros: u32) -> Given {
    Given { section, pts, seconds, micros }
}

fn comes(section: &[u8]) -> Comes {
    judged(section).0
}

#[test]
fn the_pages_crcs() {
    assert_eq!(crc(b"123456789"), 0x0376_E6E7);
    let first = bytes(FIRST);
    let registers = [
        (1, 0xF2BC_D9D9),
        (2, 0xE8D1_72F7),
        (3, 0xAAF0_8A21),
        (30, 0x2FBD_ECD3),
        (31, 0x1D80_D85D),
        (32, 0x80D8_5D00),
        (33, 0xD85D_0000),
        (34, 0x5D00_0000),
        (35, 0),
    ];
    for (count, register) in registers {
        assert_eq!(crc(&first[..count]), register, "{count}");
    }
    assert_eq!(crc(&bytes(SECOND)), 0);
}

#[test]
fn the_pages_times() {
    assert_eq!(comes(&bytes(FIRST)), Comes::At(3_582_534_591));
    let second = bytes(SECOND);
    assert_eq!(comes(&second), Comes::At(591_751_065));
    let written = |pts| time_of(comes(&second), &given(second.clone(), pts, 1_000, 0));
    assert_eq!(written(591_651_064), (0x3E9, 0x1_B212));
    assert_eq!(written(591_751_066), (96_443, 717_677));
    assert_eq!(written(591_751_065), (1_000, 0));
    // the caller's PTS is taken modulo 2^33
    assert_eq!(written(591_751_065 + 3 * WRAP), (1_000, 0));
}

#[test]
fn the_end_of_the_range() {
    let at = |cue, seconds, micros| time_of(Comes::At(cue), &given(Vec::new(), 0, seconds, micros));
    assert_eq!(at(0, NONE, 999_999), (NONE, 999_999));
    // one tick: 11 microseconds and a ninth
    assert_eq!(at(1, NONE, 999_988), (NONE, 999_999));
    assert_eq!(at(1, NONE, 999_989), (NONE, NONE));
    // 9 ticks: 100 microseconds exactly
    assert_eq!(at(9, NONE, 999_899), (NONE, 999_999));
    assert_eq!(at(9, NONE, 999_900), (NONE, NONE));
    assert_eq!(at(WRAP - 1, 0, 0), (95_443, 717_677));
}

#[test]
fn refusals_in_their_order() {
    let good = bytes(SECOND);
    let number = |section: &[u8], micros: u32, room: usize| {
        Splicer::fresh(&[0; 32]).0.cue_refused(&given(section.to_vec(), 0, 0, micros), room)
    };
    assert_eq!(number(&good, 999_999, 4_096), None);
    assert_eq!(number(&good, 999_999, 4_095), Some(2));
    assert_eq!(number(&good[1..], 1_000_000, 4_095), Some(2));
    assert_eq!(number(&good[1..], 1_000_000, 4_096), Some(8));
    assert_eq!(number(&good[..24], 0, 4_096), Some(11));
    assert_eq!(number(&[&good[..], &[0]].concat(), 0, 4_096), Some(11));
    for count in [0, 1, 2, 3, 19, 513, 514, 4_098] {
        assert_eq!(number(&remade(vec![0xFC; count]), 0, 4_096), Some(11));
    }
    for count in [20, 511, 512] {
        assert_eq!(number(&remade(vec![0xFC; count]), 0, 4_096), None);
    }
}

#[test]
fn the_first_that_applies() {
    let spoiled = |mut section: Vec<u8>| {
        *section.last_mut().unwrap() ^= 1;
        section
    };
    let null = Section::new(Command::Null);
    assert_eq!(comes(&null.bytes()), Comes::Timeless);
    assert_eq!(null.bytes().len(), 20);
    assert_eq!(comes(&spoiled(null.bytes())), Comes::Bad);
    let mut other = null.clone();
    other.table = 0xFD;
    assert_eq!(comes(&other.bytes()), Comes::Nothing);
    assert_eq!(comes(&spoiled(other.bytes())), Comes::Bad);
    let mut encrypted = null.clone();
    encrypted.encrypted = true;
    encrypted.length = Some(7);
    assert_eq!(comes(&encrypted.bytes()), Comes::Nothing);
    assert_eq!(comes(&spoiled(encrypted.bytes())), Comes::Bad);
    let schedule = Section::new(Command::Other(0x04, vec![0]));
    assert_eq!(comes(&schedule.bytes()), Comes::Nothing);
    let mut wrong = null.clone();
    wrong.length = Some(1);
    assert_eq!(comes(&wrong.bytes()), Comes::Bad);
    wrong.length = Some(0xFFF);
    assert_eq!(comes(&wrong.bytes()), Comes::Timeless);
}

#[test]
fn component_mode_is_silent_before_its_lengths() {
    let mut insert = Insert::new(7);
    insert.components = Some(vec![(1, Some(5))]);
    let mut section = Section::new(Command::Insert(insert));
    assert_eq!(comes(&section.bytes()), Comes::Nothing);
    for length in [0, 5, 6, 0xFFE, 0xFFF] {
        section.length = Some(length);
        assert_eq!(comes(&section.bytes()), Comes::Nothing);
    }
    section.loop_length = Some(0xFFFF);
    assert_eq!(comes(&section.bytes()), Comes::Nothing);
    // cut behind its flags it is silent; before them its mode cannot be seen
    let whole = section.bytes();
    for (end, due) in [(26, Comes::Nothing), (25, Comes::Bad), (24, Comes::Bad)] {
        assert_eq!(comes(&remade(whole[..end].to_vec())), due, "{end}");
    }
}

#[test]
fn a_cancelled_one_ends_with_its_cancel_byte() {
    let mut insert = Insert::new(7);
    insert.cancelled = true;
    let mut section = Section::new(Command::Insert(insert));
    section.adjustment = 5;
    assert_eq!(comes(&section.bytes()), Comes::Timeless);
    assert_eq!(section.bytes().len(), 25);
    // its flags' place is descriptor_loop_length's
    section.loop_length = Some(1);
    assert_eq!(comes(&section.bytes()), Comes::Bad);
    section.stuffing = vec![0];
    assert_eq!(comes(&section.bytes()), Comes::Timeless);
    let whole = section.bytes();
    assert_eq!(comes(&remade(whole[..24].to_vec())), Comes::Bad);
}

#[test]
fn lengths_off_by_one() {
    let mut insert = Insert::new(7);
    insert.time = Some(WRAP - 1);
    insert.duration = Some((true, 1));
    for command in [Command::Insert(insert), Command::TimeSignal(Some(WRAP - 1))] {
        let mut section = Section::new(command);
        section.adjustment = 2;
        section.stuffing = vec![1, 2];
        assert_eq!(comes(&section.bytes()), Comes::At(1));
        let size = section.command.bytes().len() as u16;
        for (length, due) in [(size - 1, Comes::Bad), (size, Comes::At(1)), (size + 1, Comes::Bad), (0xFFF, Comes::At(1))] {
            section.length = Some(length);
            assert_eq!(comes(&section.bytes()), due);
        }
        for (length, due) in [(2, Comes::At(1)), (3, Comes::Bad)] {
            section.loop_length = Some(length);
            assert_eq!(comes(&section.bytes()), due);
        }
    }
}

#[test]
fn one_bit_makes_any_section_bad() {
    for section in [bytes(FIRST), bytes(SECOND)] {
        for bit in 0..8 * section.len() {
            let mut other = section.clone();
            other[bit / 8] ^= 0x80 >> (bit % 8);
            assert_ne!(crc(&other), 0, "{bit}");
            assert_eq!(comes(&other), Comes::Bad, "{bit}");
            assert_eq!(crc(&closed(other)), 0, "{bit}");
        }
    }
}

#[test]
fn to_the_initialised_connections_upward() {
    let (mut splicer, _) = Splicer::fresh(&crate::people::card::channel_name());
    let second = given(bytes(SECOND), 591_651_064, 1_000, 0);
    assert_eq!(splicer.cue(&second, ROOM), Ok(Vec::new()));
    splicer.open = [true, true, true, false];
    // 3 was initialised and is closed; 1 is open only
    splicer.initialised = [true, false, true, true];
    let found = splicer.cue(&second, ROOM).unwrap();
    let data = format!("00 00 03 E9 00 01 B2 12 {SECOND}");
    let record = |conn| format!("52 {conn:02X} 00 0C 00 21 FF FF FF FF {data}");
    let expected = format!("{} {}", record(0), record(2));
    assert_eq!(hex(&all_bytes(&found)), expected);
    let mut bad = second.clone();
    bad.section[20] ^= 1;
    let found = splicer.cue(&bad, ROOM).unwrap();
    let expected = "52 00 00 00 00 00 00 75 FF FF 52 02 00 00 00 00 00 75 FF FF";
    assert_eq!(hex(&all_bytes(&found)), expected);
    assert_eq!((splicer.clock, splicer.moved), (0, 0));
}

//! A section of cues through the archive, with the two sections of docs/SCTE35.md and values by hand
//! (document 02, CR 7).

use splicer::{message_id, name, records, result, Refusal, RollingSplicer, Says, Splicer, OUT};

/// splice_insert with pts_time 0xD58923BF.
const INSERT: [u8; 35] = [
    0xFC, 0x30, 0x20, 0, 0, 0, 0, 0, 0, 0, 0xFF, 0xF0, 0x0F, 0x05, 0x00, 0x02, 0x8C, 0xE8, 0x7F,
    0xCF, 0xFE, 0xD5, 0x89, 0x23, 0xBF, 0x55, 0x66, 0, 0, 0, 0, 0x1D, 0x80, 0xD8, 0x5D,
];

/// time_signal whose PTS, with its pts_adjustment, is 591,751,065.
const SIGNAL: [u8; 25] = [
    0xFC, 0x30, 0x16, 0, 0x01, 0, 0, 0, 0x10, 0, 0xFF, 0xF0, 0x05, 0x06, 0xFF, 0x23, 0x45, 0x67,
    0x89, 0, 0, 0x71, 0x3B, 0x22, 0xBD,
];

fn init() -> Vec<u8> {
    let mut bytes = vec![0, 1, 0, 68, 0xFF, 0xFF, 0xFF, 0xFF, 0, 2];
    bytes.extend(name(b"CH1"));
    bytes.extend(name(b"SERVER"));
    // a Hardware_Config of Length 0
    bytes.extend([0, 0]);
    bytes
}

/// Connections 0 and 2 are initialised, 1 is open, 3 is closed.
fn ready() -> (Splicer, [u8; OUT]) {
    let mut out = [0; OUT];
    let (mut channel, named) = Splicer::fresh(&name(b"CH1"));
    assert_eq!(named, Ok(()));
    for connection in 0..3 {
        channel.open(connection).unwrap();
    }
    for connection in [0, 2] {
        channel.message(connection, &init(), &mut out).unwrap();
    }
    (channel, out)
}

/// Connection, Seconds and MicroSeconds of each Cue_Request, which all hold the section.
fn cues(written: &[u8], sent: &[u8]) -> Vec<(u8, u32, u32)> {
    let mut walk = records(written);
    let mut list = Vec::new();
    for record in walk.by_ref() {
        let Some(Says::Cue {
            seconds,
            micros,
            section,
        }) = record.says()
        else {
            panic!("no Cue_Request");
        };
        assert_eq!((record.message_id, record.result), (0x000C, 0xFFFF));
        assert_eq!(&record.message[6..8], [0xFF, 0xFF], "Result_Extension");
        assert_eq!(section, sent);
        list.push((record.connection, seconds, micros));
    }
    assert_eq!(walk.rest(), b"");
    list
}

#[test]
fn a_section_goes_to_every_initialised_connection() {
    let (channel, mut out) = ready();
    let before = channel.clone();
    let written = channel
        .cue(&SIGNAL, 591_651_064, 1000, 0, &mut out)
        .unwrap();
    let expected = [(0, 1001, 111_122), (2, 1001, 111_122)];
    assert_eq!(cues(written, &SIGNAL), expected);
    // one tick past the cue's, and the same modulo 2^33
    for turns in [0, 1, 7] {
        let pts = 591_751_066 + turns * (1 << 33);
        let written = channel.cue(&SIGNAL, pts, 1000, 0, &mut out).unwrap();
        let expected = [(0, 96_443, 717_677), (2, 96_443, 717_677)];
        assert_eq!(cues(written, &SIGNAL), expected);
    }
    let written = channel
        .cue(&INSERT, 3_582_534_591, 7, 999_999, &mut out)
        .unwrap();
    assert_eq!(cues(written, &INSERT), [(0, 7, 999_999), (2, 7, 999_999)]);
    // past the last second of the time field
    let written = channel.cue(&INSERT, 0, u32::MAX, 0, &mut out).unwrap();
    let ones = u32::MAX;
    assert_eq!(cues(written, &INSERT), [(0, ones, ones), (2, ones, ones)]);
    assert_eq!(channel, before);
}

#[test]
fn a_bad_section_gives_117_and_one_of_another_table_nothing() {
    let (channel, mut out) = ready();
    for bit in 0..SIGNAL.len() * 8 {
        // a section_length of its own is refused, before the CRC is looked at
        if (12..24).contains(&bit) {
            continue;
        }
        let mut wrong = SIGNAL;
        wrong[bit / 8] ^= 0x80 >> (bit % 8);
        let written = channel.cue(&wrong, 0, 1000, 0, &mut out).unwrap();
        let list: Vec<_> = records(written)
            .map(|r| (r.connection, r.message_id, r.result, r.data.len()))
            .collect();
        let expected = |c| (c, message_id::GENERAL_RESPONSE, result::INVALID_CUE, 0);
        assert_eq!(list, [expected(0), expected(2)]);
    }
    // bandwidth_reservation (0xFF) with a right CRC
    let other = [
        0xFC, 0x30, 0x11, 0, 0, 0, 0, 0, 0, 0, 0xFF, 0xF0, 0x00, 0xFF, 0x00, 0x00, 0xCD, 0x63,
        0xA6, 0x82,
    ];
    let expected: Result<&[u8], Refusal> = Ok(b"");
    assert_eq!(channel.cue(&other, 0, 1000, 0, &mut out), expected);
}

#[test]
fn refusals_in_their_order() {
    let (channel, mut out) = ready();
    let short = &mut [0; OUT - 1];
    let cut = &SIGNAL[..24];
    assert_eq!(
        channel.cue(cut, 0, 0, 1_000_000, short),
        Err(Refusal::NoRoom)
    );
    let micros = channel.cue(cut, 0, 0, 1_000_000, &mut out);
    assert_eq!(micros, Err(Refusal::BadMicros));
    assert_eq!(
        channel.cue(cut, 0, 0, 0, &mut out),
        Err(Refusal::BadSection)
    );
    assert_eq!(
        channel.cue(&[], 0, 0, 0, &mut out),
        Err(Refusal::BadSection)
    );
    // 512 bytes are the most
    for (length, good) in [(20, true), (512, true), (513, false)] {
        let mut section = vec![0xFF; length];
        section[1] = ((length - 3) >> 8) as u8;
        section[2] = (length - 3) as u8;
        let reply = channel.cue(&section, 0, 0, 0, &mut out);
        let refused = reply.map(|_| ()).err();
        assert_eq!(refused, (!good).then_some(Refusal::BadSection), "{length}");
    }
    assert_eq!(Refusal::BadSection.number(), 11);
}

#[test]
fn nobody_is_initialised_and_a_rolling_card() {
    let mut out = [0; OUT];
    let (channel, _) = Splicer::fresh(&name(b"CH1"));
    let nothing: Result<&[u8], Refusal> = Ok(b"");
    assert_eq!(channel.cue(&SIGNAL, 0, 0, 0, &mut out), nothing);
    let (mut card, _) = RollingSplicer::fresh(&name(b"CH1"));
    card.open(3).unwrap();
    card.message(3, &init(), &mut out).unwrap();
    let written = card.cue(&SIGNAL, 591_651_064, 1000, 0, &mut out).unwrap();
    assert_eq!(cues(written, &SIGNAL), [(3, 1001, 111_122)]);
}

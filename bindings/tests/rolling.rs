//! The card with a rolling counter through the archive, with values by hand from document 02, CR 9.

use splicer::{message_id, name, records, Refusal, RollingSplicer, Says, OUT};

const SECOND: u32 = 90_000;

/// A rolling splicer "CH1" with connection 0 open and initialised, at clock 0.
fn ready() -> (RollingSplicer, [u8; OUT]) {
    let mut out = [0; OUT];
    let (mut card, named) = RollingSplicer::fresh(&name(b"CH1"));
    assert_eq!(named, Ok(()));
    assert_eq!(card.open(0), Ok(()));
    let data = [&[0, 2], &name(b"CH1")[..], &name(b"SERVER"), &[0, 0]].concat();
    let init = message(message_id::INIT_REQUEST, &data);
    assert_eq!(card.message(0, &init, &mut out).map(|h| h.consumed), Ok(76));
    (card, out)
}

fn message(id: u16, data: &[u8]) -> Vec<u8> {
    let size = data.len() as u16;
    let head = [id.to_be_bytes(), size.to_be_bytes()].concat();
    [&head[..], &[0xFF; 4], data].concat()
}

/// A timed Splice_Request with AccessType 1.
fn splice(session: u32, seconds: u32, micros: u32, duration: u32) -> Vec<u8> {
    let mut data = Vec::new();
    for word in [session, 0xFFFF_FFFF, seconds, micros] {
        data.extend(word.to_be_bytes());
    }
    data.extend([0, 1]);
    for word in [duration, 0xFFFF_FFFF, 0] {
        data.extend(word.to_be_bytes());
    }
    data.extend([1, 0, 1]);
    message(message_id::SPLICE_REQUEST, &data)
}

/// Seconds and MicroSeconds of an Alive_Response.
fn time(card: &mut RollingSplicer, out: &mut [u8; OUT]) -> (u32, u32) {
    let alive = message(message_id::ALIVE_REQUEST, &[0; 8]);
    let written = card.message(0, &alive, out).unwrap().written;
    let record = records(written).next().unwrap();
    match record.says() {
        Some(Says::Alive {
            seconds, micros, ..
        }) => (seconds, micros),
        other => panic!("{other:?}"),
    }
}

#[test]
fn twelve_in_all_four_ways() {
    let (mut card, mut out) = ready();
    // before the instant
    assert_eq!(card.reading(0, &mut out), Err(Refusal::Counter));
    // 2, 8, 12
    assert_eq!(
        card.instant(9, 1_000_000, 0, &mut [0; 9]),
        Err(Refusal::NoRoom)
    );
    assert_eq!(
        card.instant(9, 1_000_000, 0, &mut out),
        Err(Refusal::BadMicros)
    );
    assert_eq!(card.instant(1000, 0, 5, &mut out), Ok(&b""[..]));
    // a second instant
    assert_eq!(card.instant(1000, 0, 5, &mut out), Err(Refusal::Counter));
    assert_eq!(
        card.instant(9, 1_000_000, 0, &mut out),
        Err(Refusal::BadMicros)
    );
    // over 90 s, which is not the next base, and back
    assert_eq!(card.reading(5 + 8_100_001, &mut out), Err(Refusal::Counter));
    assert_eq!(card.reading(4, &mut out), Err(Refusal::Counter));
    assert_eq!(
        card.reading(5 + 8_100_000, &mut [0; 9]),
        Err(Refusal::NoRoom)
    );
    assert_eq!(card.reading(5 + 8_100_000, &mut out), Ok(&b""[..]));
    assert_eq!(time(&mut card, &mut out), (1090, 0));
    // past the last second of the time field: any fraction of it is good
    let (mut last, _) = ready();
    assert_eq!(last.instant(u32::MAX, 0, 0, &mut out), Ok(&b""[..]));
    assert_eq!(last.reading(SECOND, &mut out), Err(Refusal::Counter));
    assert_eq!(last.reading(SECOND - 1, &mut out), Ok(&b""[..]));
    assert_eq!(time(&mut last, &mut out), (u32::MAX, 999_988));
}

#[test]
fn an_alive_time_is_rounded_down() {
    let (mut card, mut out) = ready();
    assert_eq!(card.instant(1000, 0, 0xFFFF_FFFE, &mut out), Ok(&b""[..]));
    // 1, 2 and 9 ticks later; the second is the rollover
    for (reading, micros) in [(0xFFFF_FFFF, 11), (0, 22), (7, 100)] {
        assert_eq!(card.reading(reading, &mut out), Ok(&b""[..]));
        assert_eq!(time(&mut card, &mut out), (1000, micros));
        assert_eq!(card.reading(reading, &mut out), Ok(&b""[..]), "step 0");
    }
}

#[test]
fn a_spot_over_the_rollover() {
    let (mut card, mut out) = ready();
    // accepted at clock 0, and due at the instant: from 999 s for 6 s
    let asked = card.message(0, &splice(1, 999, 0, 6 * SECOND), &mut out);
    assert_eq!(asked.map(|h| h.written.len()), Ok(14));
    let start = 2_u32.wrapping_sub(3 * SECOND);
    assert_eq!(card.waiting(), [1, 0, 0, 0]);
    assert_eq!(
        card.instant(1000, 0, start, &mut out).map(<[u8]>::len),
        Ok(23)
    );
    assert_eq!(card.waiting(), [0; 4]);
    // 5 s later, 2 s and 2 ticks after the rollover
    let end = start.wrapping_add(5 * SECOND);
    assert_eq!(end, 2 * SECOND + 2);
    assert_eq!(card.reading(end - 1, &mut out), Ok(&b""[..]));
    let written = card.reading(end, &mut out).unwrap();
    let Some(Says::Complete {
        session,
        flag,
        played,
        ..
    }) = records(written).next().unwrap().says()
    else {
        panic!("a SpliceComplete");
    };
    assert_eq!((session, flag, played), (1, 1, 6 * SECOND));
}

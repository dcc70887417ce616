//! Who is on air and what is due, through the archive, with values worked out by hand: a second is
//! 9,000,000 ninths, a tick of 90 kHz 100.

use splicer::{message_id, name, Air, Due, RollingSplicer, Splicer, LONGEST_STEP, OUT};

const SECOND: u64 = 9_000_000;
/// The time field ends behind this second.
const LAST: u32 = u32::MAX;

fn message(id: u16, data: &[u8]) -> Vec<u8> {
    let size = data.len() as u16;
    let head = [id.to_be_bytes(), size.to_be_bytes()].concat();
    [&head[..], &[0xFF; 4], data].concat()
}

fn init() -> Vec<u8> {
    let data = [&[0, 2], &name(b"CH1")[..], &name(b"SERVER"), &[0, 0]].concat();
    message(message_id::INIT_REQUEST, &data)
}

/// A timed Splice_Request with SpliceEventID 77; a higher AccessType may cover a lower one.
fn splice(session: u32, seconds: u32, access: u8, duration: u32) -> Vec<u8> {
    let mut data = Vec::new();
    for word in [session, 0xFFFF_FFFF, seconds, 0] {
        data.extend(word.to_be_bytes());
    }
    data.extend([0, 1]);
    for word in [duration, 77, 0] {
        data.extend(word.to_be_bytes());
    }
    data.extend([access, 1, 1]);
    message(message_id::SPLICE_REQUEST, &data)
}

/// Connections 0 and 1 initialised, and the clock.
fn ready(seconds: u32) -> (Splicer, [u8; OUT]) {
    let mut out = [0; OUT];
    let (mut channel, named) = Splicer::fresh(&name(b"CH1"));
    assert_eq!(named, Ok(()));
    for connection in [0, 1] {
        assert_eq!(channel.open(connection), Ok(()));
        let done = channel.message(connection, &init(), &mut out);
        assert_eq!(done.map(|d| d.consumed), Ok(76));
    }
    assert_eq!(channel.tick(seconds, 0, &mut out), Ok(&[][..]));
    (channel, out)
}

fn due(instant: u64, seconds: u32, micros: u32) -> Option<Due> {
    let tick = Some((seconds, micros));
    Some(Due { instant, tick })
}

#[test]
fn nothing_is_due_and_nobody_on_air() {
    let (channel, _) = ready(1000);
    assert_eq!((channel.air(), channel.due()), (None, None));
}

#[test]
fn an_end_between_two_microseconds() {
    let (mut channel, mut out) = ready(1000);
    channel
        .message(0, &splice(1, 1010, 1, 1), &mut out)
        .unwrap();
    assert_eq!(channel.due(), due(1010 * SECOND, 1010, 0));
    assert!(!channel.tick(1010, 0, &mut out).unwrap().is_empty());
    // one tick of 90 kHz is 11.1 microseconds
    assert_eq!(channel.due(), due(1010 * SECOND + 100, 1010, 12));
    assert!(channel.tick(1010, 11, &mut out).unwrap().is_empty());
    assert_eq!(channel.due(), due(1010 * SECOND + 100, 1010, 12));
    assert!(!channel.tick(1010, 12, &mut out).unwrap().is_empty());
    assert_eq!((channel.air(), channel.due()), (None, None));
}

#[test]
fn covered_and_on_air_again() {
    let (mut channel, mut out) = ready(1000);
    channel
        .message(0, &splice(5, 1010, 1, 2_700_000), &mut out)
        .unwrap();
    channel
        .message(1, &splice(5, 1020, 2, 900_000), &mut out)
        .unwrap();
    channel.tick(1010, 0, &mut out).unwrap();
    let first = Air {
        connection: 0,
        session: 5,
        event: 77,
        access: 1,
        mux: 5,
        start: 1010 * SECOND,
        end: 1040 * SECOND,
        played: 0,
    };
    assert_eq!(channel.air(), Some(first));
    // the same SessionID of another connection covers it
    channel.tick(1020, 0, &mut out).unwrap();
    let second = Air {
        connection: 1,
        access: 2,
        start: 1020 * SECOND,
        end: 1030 * SECOND,
        ..first
    };
    assert_eq!(channel.air(), Some(second));
    assert_eq!(channel.due(), due(1030 * SECOND, 1030, 0));
    channel.tick(1030, 0, &mut out).unwrap();
    let played = 10 * SECOND;
    assert_eq!(channel.air(), Some(Air { played, ..first }));
    assert_eq!(channel.due(), due(1040 * SECOND, 1040, 0));
}

#[test]
fn an_end_that_no_tick_reaches() {
    let (mut channel, mut out) = ready(LAST - 5);
    channel
        .message(0, &splice(3, LAST, 1, 180_000), &mut out)
        .unwrap();
    assert_eq!(channel.due(), due(u64::from(LAST) * SECOND, LAST, 0));
    channel.tick(LAST, 0, &mut out).unwrap();
    let instant = (u64::from(LAST) + 2) * SECOND;
    let tick = None;
    assert_eq!(channel.due(), Some(Due { instant, tick }));
    assert!(channel.tick(LAST, 999_999, &mut out).unwrap().is_empty());
    assert!(channel.air().is_some());
}

#[test]
fn readings_of_a_rolling_counter() {
    let mut out = [0; OUT];
    let (mut card, _) = RollingSplicer::fresh(&name(b"CH1"));
    card.open(0).unwrap();
    card.message(0, &init(), &mut out).unwrap();
    card.message(0, &splice(1, 3, 1, 90_000), &mut out).unwrap();
    // every reading is refused before the instant is given
    assert_eq!(card.due(), None);
    // six ticks before the counter rolls over
    card.instant(1, 0, u32::MAX - 5, &mut out).unwrap();
    assert_eq!(card.due(), Some(180_000));
    assert!(card.reading(179_993, &mut out).unwrap().is_empty());
    assert_eq!(card.due(), Some(1));
    assert!(!card.reading(179_994, &mut out).unwrap().is_empty());
    assert_eq!(card.air().map(|air| air.session), Some(1));
    assert_eq!(card.due(), Some(90_000));
    assert!(!card.reading(269_994, &mut out).unwrap().is_empty());
    // the clock is at 4 s: 90 s later is the last that a step reaches
    card.message(0, &splice(2, 95, 1, 90_000), &mut out)
        .unwrap();
    assert_eq!(card.due(), None);
    // the core's own read of it knows no step
    let start = Due {
        instant: 95 * 9_000_000,
        tick: Some((95, 0)),
    };
    assert_eq!(card.due_instant(), Some(start));
    assert_eq!(card.sessions().map(|s| s.session).next(), Some(2));
    card.message(0, &splice(3, 94, 1, 1), &mut out).unwrap();
    assert_eq!(card.due(), Some(LONGEST_STEP));
}

/// Time in microseconds, and what was written until then.
type Written = Vec<(u64, Vec<u8>)>;

fn ticks(channel: &mut Splicer, at: u64, written: &mut Written) -> bool {
    let mut out = [0; OUT];
    let (seconds, micros) = ((at / 1_000_000) as u32, (at % 1_000_000) as u32);
    let bytes = channel.tick(seconds, micros, &mut out).unwrap();
    if !bytes.is_empty() {
        written.push((at, bytes.to_vec()));
    }
    !bytes.is_empty()
}

/// A driver that sleeps wakes for something each time, and misses nothing: it writes what one that
/// ticks every 12 microseconds does, and is never later.
#[test]
fn asleep_until_something_is_due() {
    let (mut often, mut out) = ready(1000);
    for (connection, request) in [
        (0, splice(1, 1003, 1, 270)),
        (0, splice(2, 1003, 2, 5)),
        (1, splice(3, 1004, 3, 7)),
    ] {
        often.message(connection, &request, &mut out).unwrap();
    }
    let mut asleep = often.clone();
    let (mut seldom, mut all) = (Written::new(), Written::new());
    while let Some((seconds, micros)) = asleep.due().and_then(|due| due.tick) {
        let at = u64::from(seconds) * 1_000_000 + u64::from(micros);
        assert!(ticks(&mut asleep, at, &mut seldom));
    }
    for at in (1000 * 1_000_000..1005 * 1_000_000).step_by(12) {
        ticks(&mut often, at, &mut all);
    }
    let bytes = |written: &Written| written.iter().flat_map(|w| w.1.clone()).collect::<Vec<_>>();
    assert_eq!(bytes(&seldom), bytes(&all));
    assert_eq!((seldom.len(), asleep.due()), (4, None));
    for (early, late) in seldom.iter().zip(&all) {
        assert!(early.0 <= late.0 && late.0 < early.0 + 12);
    }
}

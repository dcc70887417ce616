//! The five calls through the archive, with values by hand from document 01.

use splicer::{
    message_id, name, records, result, Maps, NotSaved, Refusal, Row, Says, Splicer, MAP_SECTION,
    MUX_AVERAGE, OUT, ROWS, SAVED,
};

/// A second in ninths of a microsecond.
const SECOND: u64 = 9_000_000;

fn message(id: u16, data: &[u8]) -> Vec<u8> {
    let size = data.len() as u16;
    let mut bytes = [id.to_be_bytes(), size.to_be_bytes()].concat();
    bytes.extend([0xFF; 4]);
    bytes.extend(data);
    bytes
}

fn init(channel: &[u8]) -> Vec<u8> {
    let data = [&[0, 2], &name(channel)[..], &name(b"SERVER"), &[0, 2, 7, 9]].concat();
    message(message_id::INIT_REQUEST, &data)
}

/// A timed Splice_Request with AccessType 1.
fn splice(session: u32, seconds: u32, duration: u32) -> Vec<u8> {
    let mut data = Vec::new();
    for word in [session, 0xFFFF_FFFF, seconds, 0] {
        data.extend(word.to_be_bytes());
    }
    data.extend([0, 1]);
    for word in [duration, 0xFFFF_FFFF, 0] {
        data.extend(word.to_be_bytes());
    }
    data.extend([1, 0, 1]);
    message(message_id::SPLICE_REQUEST, &data)
}

fn abort(session: u32) -> Vec<u8> {
    message(message_id::ABORT_REQUEST, &session.to_be_bytes())
}

/// Connection, MessageID and result of each record.
fn told(written: &[u8]) -> Vec<(u8, u16, u16)> {
    let mut walk = records(written);
    let list = walk
        .by_ref()
        .map(|r| (r.connection, r.message_id, r.result));
    let list = list.collect();
    assert_eq!(walk.rest(), b"", "all bytes are records");
    list
}

/// A splicer "CH1" at 1,000 s with connection 0 initialised.
fn ready() -> (Splicer, [u8; OUT]) {
    let mut out = [0; OUT];
    let (mut channel, named) = Splicer::fresh(&name(b"CH1"));
    assert_eq!(named, Ok(()));
    assert_eq!(channel.open(0), Ok(()));
    let handled = channel.message(0, &init(b"CH1"), &mut out).unwrap();
    let expected = (0, message_id::INIT_RESPONSE, result::SUCCESSFUL);
    assert_eq!(told(handled.written), [expected]);
    assert_eq!(channel.tick(1000, 0, &mut out), Ok(&b""[..]));
    (channel, out)
}

#[test]
fn the_whole_case_of_the_card_program() {
    let mut out = [0xAA; OUT];
    let (mut channel, _) = Splicer::fresh(&name(b"CH1"));
    channel.open(0).unwrap();
    let alive = message(message_id::ALIVE_REQUEST, &[0; 8]);
    let handled = channel.message(0, &alive, &mut out).unwrap();
    assert_eq!(handled.consumed, 16);
    assert_eq!(handled.written, [0x52, 0, 0, 0, 0, 0, 0, 0x67, 0xFF, 0xFF]);
    assert!(out[10..].iter().all(|b| *b == 0xAA));
    assert_eq!(channel.close(0, &mut out), Ok(&b""[..]));
    assert_eq!(channel.close(0, &mut out), Err(Refusal::NotOpen));
}

#[test]
fn a_name_without_a_zero_gives_9_and_the_splicer_of_the_empty_name() {
    let (nameless, named) = Splicer::fresh(&[b'A'; 32]);
    assert_eq!(named, Err(Refusal::BadName));
    assert_eq!(Splicer::fresh(&name(b"")), (nameless.clone(), Ok(())));
    assert_ne!(Splicer::fresh(&name(b"A")).0, nameless);
    // Bytes behind a name's zero do not count.
    let mut junk = name(b"CH1");
    junk[4..].fill(7);
    assert_eq!(Splicer::fresh(&junk), Splicer::fresh(&name(b"CH1")));
    assert_eq!(name(&[b'A'; 40]), [b'A'; 32]);
}

#[test]
fn each_house_number_is_given() {
    let (mut channel, mut out) = ready();
    let before = channel.clone();
    let mut short = [0; OUT - 1];
    let request = splice(1, 1003, 90_000);
    let huge = [&request[..2], &[0x0F, 0xF9], &request[4..]].concat();
    assert_eq!(channel.open(4), Err(Refusal::NoConnection));
    assert_eq!(channel.open(u32::MAX), Err(Refusal::NoConnection));
    assert_eq!(channel.open(0), Err(Refusal::AlreadyOpen));
    assert_eq!(channel.close(0, &mut short), Err(Refusal::NoRoom));
    assert_eq!(channel.close(1, &mut out), Err(Refusal::NotOpen));
    assert_eq!(channel.tick(1001, 0, &mut []), Err(Refusal::NoRoom));
    let micros = channel.tick(0, 1_000_000, &mut out);
    assert_eq!(micros, Err(Refusal::BadMicros));
    let back = channel.tick(999, 999_999, &mut out);
    assert_eq!(back, Err(Refusal::ClockBack));
    let refusals: [(u32, &[u8], usize, u8); 6] = [
        (256, &request, OUT, 1),
        (0, &request, OUT - 1, 2),
        (1, &request, OUT, 7),
        (0, &huge, OUT, 4),
        (0, &[], OUT, 5),
        (0, &request[..40], OUT, 5),
    ];
    for (connection, read, room, number) in refusals {
        let reply = channel.message(connection, read, &mut out[..room]);
        assert_eq!(reply.unwrap_err().number(), number);
    }
    assert_eq!(channel, before, "a refused call changes nothing");
}

/// A Splice_Request with descriptors behind it, and an OverridePlaying and AccessType of its own.
fn asking(id: u32, seconds: u32, duration: u32, access: u8, descriptors: &[u8]) -> Vec<u8> {
    let plain = splice(id, seconds, duration);
    let mut data = plain[8..].to_vec();
    data[30] = access;
    data[31] = 1;
    data.extend_from_slice(descriptors);
    message(message_id::SPLICE_REQUEST, &data)
}

/// GetConfig_Response to connection 0 with what is kept and a section.
fn config(hardware: &[u8], section: &[u8]) -> Vec<u8> {
    let data = [&name(b"CH1")[..], hardware, section].concat();
    let size = (data.len() as u16).to_be_bytes();
    [&[0x52, 0, 0, 11], &size[..], &[0, 100, 0xFF, 0xFF], &data].concat()
}

#[test]
fn a_server_gets_its_configuration_and_the_map_on_air() {
    let (mut channel, mut out) = ready();
    let maps = Maps {
        primary: &[2, 0xB0, 1],
        insertion: &[2, 0xB1],
    };
    let asks = message(message_id::GET_CONFIG_REQUEST, &[]);
    let kept = [0, 2, 7, 9];
    assert_eq!(channel.map(&maps), maps.primary);
    let answer = channel.message_with(0, &asks, maps, &mut out).unwrap();
    assert_eq!(answer.written, config(&kept, maps.primary));
    channel
        .message(0, &splice(1, 1003, 90_000), &mut out)
        .unwrap();
    channel.tick(1003, 0, &mut out).unwrap();
    assert_eq!(channel.map(&maps), maps.insertion);
    let answer = channel.message_with(0, &asks, maps, &mut out).unwrap();
    assert_eq!(answer.written, config(&kept, maps.insertion));
    let none = channel.message(0, &asks, &mut out).unwrap();
    assert_eq!(none.written, config(&kept, &[]));
    // Number 10: one byte more than a section may have.
    let long = [0; MAP_SECTION + 1];
    for maps in [(&long[..], &long[1..]), (&long[1..], &long[..])] {
        let (primary, insertion) = maps;
        let maps = Maps { primary, insertion };
        let refused = channel.message_with(0, &asks, maps, &mut out);
        assert_eq!(refused, Err(Refusal::LongSection));
    }
    let most = Maps {
        primary: &long[1..],
        insertion: &long[1..],
    };
    let answer = channel.message_with(0, &asks, most, &mut out).unwrap();
    assert_eq!(answer.written, config(&kept, most.insertion));
    // Close forgets.
    channel.close(0, &mut out).unwrap();
    channel.open(0).unwrap();
    let denied = channel.message(0, &asks, &mut out).unwrap();
    assert_eq!(denied.written, [0x52, 0, 0, 0, 0, 0, 0, 103, 0xFF, 0xFF]);
}

#[test]
fn the_one_on_air_says_what_it_asks_of_the_multiplexer() {
    let (mut channel, mut out) = ready();
    assert_eq!(channel.mux(), MUX_AVERAGE, "nothing is on air");
    // Two descriptors: the last one wins. A foreign one counts for nothing.
    let nine_then_two = b"\x02\x05SAPI\x09\x02\x05SAPI\x02\x03\x05SAPI\x0B";
    let requests = [
        asking(1, 1003, 2_700_000, 3, nine_then_two),
        asking(2, 1005, 900_000, 5, b"\x02\x05SAPI\x0A"),
        asking(3, 1007, 450_000, 7, b"\x02\x05CUEI\x0B"),
    ];
    for request in requests {
        let handled = channel.message(0, &request, &mut out).unwrap();
        let accepted = (0, message_id::SPLICE_RESPONSE, result::SUCCESSFUL);
        assert_eq!(told(handled.written), [accepted]);
    }
    assert_eq!(channel.mux(), 5, "they wait");
    for (seconds, mux) in [(1003, 2), (1005, 10), (1007, 5), (1012, 10), (1015, 2)] {
        channel.tick(seconds, 0, &mut out).unwrap();
        assert_eq!(channel.mux(), mux, "at {seconds} s");
    }
    channel.message(0, &abort(1), &mut out).unwrap();
    assert_eq!(channel.mux(), 5, "aborted");
}

#[test]
fn a_bad_mux_priority_is_unreadable() {
    let (mut channel, mut out) = ready();
    let bad: [&[u8]; 6] = [
        b"\x02\x05SAPI\x00",
        b"\x02\x05SAPI\x0B",
        b"\x02\x04SAPI",
        b"\x02\x06SAPI\x05\x05",
        b"\x02\x05SAPI\x0B\x02\x05SAPI\x05",
        b"\x02\x05SAPI\x05\x02\x05SAPI\x00",
    ];
    let before = channel.clone();
    for descriptors in bad {
        let request = asking(1, 1003, 90_000, 3, descriptors);
        let handled = channel.message(0, &request, &mut out).unwrap();
        let invalid = (0, message_id::GENERAL_RESPONSE, result::INVALID_DATA);
        assert_eq!(told(handled.written), [invalid]);
        assert_eq!(channel, before);
    }
}

/// An ExtendedData_Request for the default type.
fn extended(session: u32) -> Vec<u8> {
    let data = [session.to_be_bytes(), [0xFF; 4]].concat();
    message(message_id::EXTENDED_DATA_REQUEST, &data)
}

#[test]
fn what_ended_lately_is_answered_and_on_the_page() {
    let (mut channel, mut out) = ready();
    assert_eq!(channel.rows(), [None; ROWS], "nothing has ended");
    let handled = channel.message(0, &extended(1), &mut out).unwrap();
    let mut walk = records(handled.written);
    let none = walk.next().unwrap();
    assert_eq!(none.result, result::INVALID_SESSION);
    assert_eq!(none.says(), Some(Says::NotKept { session: 1 }));
    assert!(walk.next().is_none());
    // One is aborted before its start, then one plays a second.
    for request in [splice(2, 1010, 90_000), abort(2), splice(1, 1003, 90_000)] {
        channel.message(0, &request, &mut out).unwrap();
    }
    channel.tick(1004, 0, &mut out).unwrap();
    let played = Row {
        kept: 1,
        connection: 0,
        session: 1,
        event: 0xFFFF_FFFF,
        result: 100,
        played: 90_000,
    };
    let aborted = Row {
        session: 2,
        result: 116,
        played: 0,
        ..played
    };
    let rows = channel.rows();
    assert_eq!(rows[..2], [Some(played), Some(aborted)]);
    assert_eq!(rows[2..], [None; ROWS - 2]);
    let handled = channel.message(0, &extended(1), &mut out).unwrap();
    let found = records(handled.written).next().unwrap();
    assert_eq!(found.result, result::SUCCESSFUL);
    assert_eq!(found.data.len(), 20);
    let expected = Says::Ended {
        session: 1,
        event: 0xFFFF_FFFF,
        result: result::SUCCESSFUL,
        played: 90_000,
    };
    assert_eq!(found.says(), Some(expected));
}

#[test]
fn the_page_takes_sixteen_rows() {
    let (mut channel, mut out) = ready();
    let before = channel.clone();
    let marked = Row {
        kept: 9,
        connection: 9,
        session: 9,
        event: 9,
        result: 9,
        played: 9,
    };
    for rows in [0, 1, 15, 17, 32] {
        let mut lent = vec![marked; rows];
        assert_eq!(channel.ended(&mut lent), Err(Refusal::NotSixteen));
        assert_eq!(lent, vec![marked; rows]);
    }
    let mut lent = [marked; ROWS + 2];
    assert_eq!(channel.ended(&mut lent[1..=ROWS]), Ok(()));
    assert_eq!(lent[1..=ROWS], [Row::default(); ROWS]);
    assert_eq!([lent[0], lent[ROWS + 1]], [marked; 2]);
    // Seventeen ends: the first is dropped.
    for id in 1..=17 {
        channel
            .message(0, &splice(id, 1010, 90_000), &mut out)
            .unwrap();
        channel.message(0, &abort(id), &mut out).unwrap();
    }
    let numbers = channel.rows().map(|row| row.unwrap().session);
    let newest: Vec<u32> = (2..=17).rev().collect();
    assert_eq!(numbers[..], newest[..]);
    assert_ne!(channel, before);
}

#[test]
fn a_session_plays_and_is_aborted() {
    let (mut channel, mut out) = ready();
    // P1, P9 and P10: start 1,003 s, aborted at 1,013 s: 900,000 ticks played.
    let both = [splice(1, 1003, 2_700_000), splice(2, 1002, 1)].concat();
    let handled = channel.message(0, &both, &mut out).unwrap();
    assert_eq!(handled.consumed, 41);
    let accepted = (0, message_id::SPLICE_RESPONSE, result::SUCCESSFUL);
    assert_eq!(told(handled.written), [accepted]);
    let handled = channel.message(0, &both[41..], &mut out).unwrap();
    let late = (0, message_id::SPLICE_RESPONSE, result::TOO_LATE);
    assert_eq!(told(handled.written), [late]);
    assert_eq!(channel.waiting(), [1, 0, 0, 0]);
    let complete = message_id::SPLICE_COMPLETE_RESPONSE;
    let written = channel.tick(1013, 0, &mut out).unwrap();
    assert_eq!(told(written), [(0, complete, result::SUCCESSFUL)]);
    assert_eq!(channel.waiting(), [0; 4], "it has started");
    assert_eq!(channel.primary(), 1003 * SECOND, "10 s were its own");
    let mut other = channel.clone();
    let handled = channel.message(0, &abort(1), &mut out).unwrap();
    let ends = [
        (0, message_id::ABORT_RESPONSE, result::SUCCESSFUL),
        (0, complete, result::ABORTED),
    ];
    assert_eq!(told(handled.written), ends);
    let last = records(handled.written).last().unwrap();
    assert_eq!(last.data, [0, 0, 0, 1, 1, 0, 0, 0, 0, 0, 13, 0xBB, 0xA0]);
    assert_eq!(last.message.len(), 21);
    // From the abort on the time is the primary channel's again.
    channel.tick(1015, 500_000, &mut out).unwrap();
    assert_eq!(channel.primary(), 1005 * SECOND + SECOND / 2);
    // A clone is a splicer of its own.
    assert_eq!(told(other.close(0, &mut out).unwrap()), [ends[1]]);
    assert_eq!(other.primary(), 1003 * SECOND);
}

/// The loop of docs/INTEGRATION.md: every whole message of what was read; `send` gets the records.
fn heard(
    channel: &mut Splicer,
    inbox: &mut Vec<u8>,
    mut send: impl FnMut(u8, &[u8]),
) -> Result<(), Refusal> {
    let mut out = [0; OUT];
    loop {
        match channel.message(0, inbox, &mut out) {
            Ok(handled) => {
                for record in records(handled.written) {
                    send(record.connection, record.message);
                }
                inbox.drain(..handled.consumed);
            }
            Err(Refusal::Short) => return Ok(()),
            Err(refusal) => return Err(refusal),
        }
    }
}

#[test]
fn the_loop_of_a_driver() {
    let (mut channel, _) = ready();
    let wire = [splice(1, 1003, 90_000), abort(1), abort(1)].concat();
    let (mut inbox, mut sent) = (Vec::new(), Vec::new());
    for piece in wire.chunks(7) {
        inbox.extend(piece);
        let send = |connection, message: &[u8]| sent.push((connection, message[5]));
        assert_eq!(heard(&mut channel, &mut inbox, send), Ok(()));
    }
    assert_eq!(sent, [(0, 100), (0, 100), (0, 116), (0, 121)]);
    assert_eq!(inbox, b"");
    inbox.extend([0, 1, 0xFF, 0xFF, 0, 0, 0, 0]);
    let last = heard(&mut channel, &mut inbox, |_, _| {});
    assert_eq!(last, Err(Refusal::Oversize));
}

#[test]
fn the_walk_stops_at_what_is_no_record() {
    let record = [0x52, 3, 0, 15, 0, 4, 0, 121, 0xFF, 0xFF, 0, 0, 0, 9];
    let two = [&record[..], &record[..13]].concat();
    let mut walk = records(&two);
    assert_eq!(walk.next().map(|r| r.data), Some(&record[10..]));
    assert_eq!(walk.next(), None);
    assert_eq!(walk.rest(), &record[..13]);
    assert_eq!(records(&[0x45, 7, 0, 0, 0, 0, 0, 0, 0, 0]).next(), None);
}

/// The sum of what version 6 saved behind the calls of the next test, by its own archive.
const SUM_OF_6: [u8; 4] = [0x41, 0x25, 0x77, 0xFB];

#[test]
fn what_version_6_saved_is_restored() {
    let (mut channel, mut out) = ready();
    for request in [splice(1, 1003, 900_000), splice(2, 1020, 90_000)] {
        channel.message(0, &request, &mut out).unwrap();
    }
    channel.tick(1004, 5, &mut out).unwrap();
    for request in [abort(1), splice(3, 1010, 90_000)] {
        channel.message(0, &request, &mut out).unwrap();
    }
    channel.tick(1010, 7, &mut out).unwrap();
    let mut bytes = channel.saved();
    // SAFETY: the state is one that the calls made, or the bytes are refused.
    let restored = |bytes: &[u8]| unsafe { Splicer::restored(bytes) };
    assert_eq!(restored(&bytes), Ok(channel.clone()));
    bytes[4] = 6;
    bytes[SAVED - 4..].copy_from_slice(&SUM_OF_6);
    assert_eq!(restored(&bytes), Ok(channel));
    for version in [0, 5, 8] {
        bytes[4] = version;
        let other = NotSaved::Version(u32::from(version));
        assert_eq!(restored(&bytes), Err(other));
    }
}

//! What only sockets do: pieces, drops, slow readers, connections without a channel, kills, signals.

mod common;

use common::{is_closed, message, Splicerd};
use splicerd::wire;
use std::io::Write;
use std::net::{Shutdown, TcpStream};

fn result(message: &[u8]) -> (u16, u16) {
    (u16::from_be_bytes([message[0], message[1]]), u16::from_be_bytes([message[4], message[5]]))
}

fn spot(session: u32, seconds: u32) -> Vec<u8> {
    let (prior, micros, duration, event) = (u32::MAX, 0, 900_000, 1);
    wire::splice(&wire::Splice { session, prior, seconds, micros, duration, event, access: 5, over: false, mux: None })
}

/// Asks and gives the answer's MessageID and result.
fn asked(stream: &mut TcpStream, sent: &[u8]) -> (u16, u16) {
    stream.write_all(sent).expect("sent");
    result(&message(stream))
}

#[test]
fn bytes_in_any_pieces() {
    let splicerd = Splicerd::start("pieces", &[]);
    let mut stream = splicerd.connect();
    for byte in wire::init(b"CH1", b"") {
        stream.write_all(&[byte]).unwrap();
    }
    assert_eq!(result(&message(&mut stream)), (2, 100));
    let three = [wire::alive(0, 0), wire::config(), wire::extended(9)].concat();
    let (first, rest) = three.split_at(20);
    stream.write_all(first).unwrap();
    assert_eq!(result(&message(&mut stream)), (6, 100));
    stream.write_all(rest).unwrap();
    assert_eq!(result(&message(&mut stream)), (11, 100));
    assert_eq!(result(&message(&mut stream)), (4, 121));
}

#[test]
fn a_mistyped_name_and_then_the_right_one() {
    let splicerd = Splicerd::start("mistyped", &["--channel", "NEWS", "--channel", "SPORT"]);
    let mut stream = splicerd.connect();
    assert_eq!(asked(&mut stream, &wire::alive(0, 0)), (0, 103));
    assert_eq!(asked(&mut stream, &wire::message(99, &[])), (0, 103));
    assert_eq!(asked(&mut stream, &wire::message(1, &[0; 10])), (0, 123));
    stream.write_all(&wire::init(b"SPORTS", b"")).unwrap();
    let other = message(&mut stream);
    assert_eq!((result(&other), &other[10..14]), ((2, 104), &b"NEWS"[..]));
    assert_eq!(asked(&mut stream, &wire::init(b"SPORT", b"")), (2, 100));
    // from then on another name is 104, another channel's too
    assert_eq!(asked(&mut stream, &wire::init(b"NEWS", b"")), (2, 104));
    assert_eq!(asked(&mut stream, &wire::alive(0, 0)), (6, 100));
    // nothing of what was said before is recorded: a name, an open, and what followed
    assert_eq!(splicerd.recording("NEWS").len(), 34);
    let recording = splicerd.recording("SPORT");
    assert_eq!(recording[..7], *b"N\0SPORT");
    assert_eq!(recording[34..38], [0x4F, 0, 0x4D, 0]);
}

#[test]
fn a_name_alone_gives_a_number_whatever_is_answered() {
    let splicerd = Splicerd::start("revision", &[]);
    let mut stream = splicerd.connect();
    let mut wrong = wire::init(b"CH1", b"");
    wrong[9] = 3;
    assert_eq!(asked(&mut stream, &wrong), (2, 102));
    assert_eq!(splicerd.figure("splicer_connections"), 1);
    assert_eq!(asked(&mut stream, &wire::alive(0, 0)), (0, 103));
    assert_eq!(asked(&mut stream, &wire::init(b"CH1", b"")), (2, 100));
}

#[test]
fn a_fifth_connection_is_closed_and_a_freed_number_is_given_again() {
    let splicerd = Splicerd::start("fifth", &[]);
    let mut four: Vec<TcpStream> = (0..4).map(|_| splicerd.initialised(b"CH1")).collect();
    let mut fifth = splicerd.connect();
    fifth.write_all(&wire::init(b"CH1", b"")).unwrap();
    assert!(is_closed(&mut fifth));
    // the second goes: its number, 1, is the lowest free one
    drop(four.remove(1));
    splicerd.until("the drop", || splicerd.figure("splicer_connections") == 3);
    let _sixth = splicerd.initialised(b"CH1");
    assert_eq!(splicerd.state()["channels"][0]["connections"][1]["state"], "initialised");
    let recording = splicerd.recording("CH1");
    assert_eq!(recording.windows(6).filter(|w| w[..2] == [0x4F, 1] && w[2..4] == [0x4D, 1]).count(), 2);
}

#[test]
fn a_drop_ends_sessions_after_the_whole_messages_before_it() {
    let splicerd = Splicerd::start("drop", &[]);
    let (mut first, mut second) = (splicerd.initialised(b"CH1"), splicerd.initialised(b"CH1"));
    assert_eq!(splicerd.clock(1000, 0), 200);
    assert_eq!(asked(&mut first, &spot(1, 1010)), (8, 100));
    assert_eq!(splicerd.clock(1010, 0), 200);
    assert_eq!(result(&message(&mut first)), (9, 100));
    assert_eq!(splicerd.clock(1013, 0), 200);
    // a request, half of another, and the half-close: the first is handled, then the drop
    let whole = spot(2, 1100);
    first.write_all(&[&whole[..], &whole[..20]].concat()).unwrap();
    first.shutdown(Shutdown::Write).unwrap();
    assert_eq!(result(&message(&mut first)), (8, 100));
    assert!(is_closed(&mut first));
    assert_eq!(splicerd.figure("splicer_connections"), 1);
    // 3 s of 10 on air: the incident of the minutes, each end once and under its own number
    let rows = splicerd.state()["channels"][0]["ended"].clone();
    assert_eq!((&rows[0]["session"], &rows[0]["result"], &rows[0]["played_ticks"]), (&2.into(), &116.into(), &0.into()));
    assert_eq!((&rows[1]["session"], &rows[1]["result"], &rows[1]["played_ticks"]), (&1.into(), &116.into(), &270_000.into()));
    splicerd.until_said("session 1 ends, 3.000 s on air");
    assert_eq!(asked(&mut second, &spot(1, 1020)), (8, 100));
    assert_eq!(splicerd.clock(1020, 0), 200);
    assert_eq!(result(&message(&mut second)), (9, 100));
}

#[test]
fn an_oversize_header_closes_after_it_is_refused() {
    let splicerd = Splicerd::start("oversize", &[]);
    let mut stream = splicerd.initialised(b"CH1");
    let header = [0, 5, 0x0F, 0xF9, 255, 255, 255, 255];
    stream.write_all(&header).unwrap();
    assert!(is_closed(&mut stream));
    // the close is recorded a moment later
    let wanted = [&[0x4D, 0][..], &header, &[0x45, 4, 0x43, 0]].concat();
    splicerd.until("the refusal and the close in the recording", || splicerd.recording("CH1").ends_with(&wanted));
    // the longest message is read
    let mut stream = splicerd.initialised(b"CH1");
    assert_eq!(asked(&mut stream, &wire::message(5, &[0; 4088])), (0, 123));
}

#[test]
fn a_server_that_does_not_read_is_dropped_and_delays_nobody() {
    let splicerd = Splicerd::start("slow", &[]);
    let (mut slow, mut good) = (splicerd.initialised(b"CH1"), splicerd.initialised(b"CH1"));
    let many = wire::alive(0, 0).repeat(1000);
    slow.set_nonblocking(false).unwrap();
    slow.set_write_timeout(Some(common::PATIENCE)).unwrap();
    // 24 bytes of answer each: at some time they are over 1 MiB, whatever the system's buffers hold
    let mut sent = 0;
    while slow.write_all(&many).is_ok() {
        sent += 1;
        assert!(sent < 20_000, "it was never dropped");
        assert_eq!(asked(&mut good, &wire::alive(0, 0)), (6, 100));
    }
    splicerd.until_said("bytes of answers not read");
    assert_eq!(asked(&mut good, &wire::alive(0, 0)), (6, 100));
    assert_eq!(splicerd.figure("splicer_connections"), 1);
}

#[test]
fn the_oldest_of_too_many_without_a_channel_is_closed() {
    let splicerd = Splicerd::start("many", &[]);
    let mut oldest = splicerd.connect();
    let others: Vec<TcpStream> = (0..1024).map(|_| splicerd.connect()).collect();
    assert!(is_closed(&mut oldest));
    splicerd.until("1,024 are kept", || splicerd.state()["unnamed"] == 1024);
    assert_eq!(others.len(), 1024);
}

#[test]
fn killed_its_recording_has_every_call_that_was_answered() {
    let mut splicerd = Splicerd::start("killed", &["--clock", "utc"]);
    let mut stream = splicerd.initialised(b"CH1");
    let mut answered = 0;
    for _ in 0..200 {
        assert_eq!(asked(&mut stream, &wire::alive(0, 0)), (6, 100));
        answered += 1;
    }
    splicerd.child.kill().unwrap();
    splicerd.child.wait().unwrap();
    let recording = splicerd.recording("CH1");
    let alive = [&[0x4D, 0][..], &wire::alive(0, 0)].concat();
    let calls = recording.windows(alive.len()).filter(|w| *w == alive).count();
    assert!(calls >= answered, "{calls} of {answered}");
}

#[test]
fn a_signal_ends_it_with_0_and_the_recording_whole() {
    let mut splicerd = Splicerd::start("signal", &[]);
    let mut stream = splicerd.initialised(b"CH1");
    assert_eq!(splicerd.end(), Some(0));
    assert!(is_closed(&mut stream));
    assert!(splicerd.recording("CH1").ends_with(&[0x43, 0]));
}

#[test]
fn log_lines_as_json() {
    let splicerd = Splicerd::start("json", &["--log", "json"]);
    let _stream = splicerd.initialised(b"CH1");
    splicerd.until_said("Init_Response");
    let lines = splicerd.log.lock().unwrap().clone();
    let values: Vec<serde_json::Value> = lines.iter().map(|line| serde_json::from_str(line).expect(line)).collect();
    assert!(values.iter().all(|v| v["time"].is_string() && v["event"].is_string() && v["what"].is_string()));
    assert!(values.iter().any(|v| v["event"] == "call" && v["channel"] == "CH1"));
}

#[test]
fn a_real_clock_starts_and_ends_a_spot_by_itself() {
    let splicerd = Splicerd::start("real", &["--clock", "from=1000,speed=100"]);
    let mut stream = splicerd.initialised(b"CH1");
    stream.write_all(&wire::alive(0, 0)).unwrap();
    let alive = message(&mut stream);
    let now = u32::from_be_bytes([alive[16], alive[17], alive[18], alive[19]]);
    assert!(now >= 1000);
    assert_eq!(asked(&mut stream, &spot(1, now + 200)), (8, 100));
    assert_eq!(result(&message(&mut stream)), (9, 100));
    let end = message(&mut stream);
    // 10 s on air by its clock, to the tick, however late it woke
    assert_eq!((result(&end), &end[17..21]), ((9, 100), &900_000u32.to_be_bytes()[..]));
}

//! The read of the sessions, with values by hand from document 01.

use splicer::{message_id, name, records, result, Refusal, Session, Splicer, State, OUT};
use std::collections::BTreeMap;

/// A second in ninths of a microsecond.
const SECOND: u64 = 9_000_000;

fn message(id: u16, data: &[u8]) -> Vec<u8> {
    let size = data.len() as u16;
    let mut bytes = [id.to_be_bytes(), size.to_be_bytes()].concat();
    bytes.extend([0xFF; 4]);
    bytes.extend(data);
    bytes
}

/// SessionID, PriorSession, Seconds, Duration in seconds, SpliceEventID; AccessType, OverridePlaying.
fn splice(numbers: [u32; 5], access: [u8; 2], mux: Option<u8>) -> Vec<u8> {
    let [session, prior, seconds, duration, event] = numbers;
    let mut data = Vec::new();
    for word in [session, prior, seconds, 0] {
        data.extend(word.to_be_bytes());
    }
    data.extend([0, 1]);
    for word in [duration * 90_000, event, 0] {
        data.extend(word.to_be_bytes());
    }
    data.extend([access[0], access[1], 1]);
    if let Some(mux) = mux {
        data.extend([2, 5, b'S', b'A', b'P', b'I', mux]);
    }
    message(message_id::SPLICE_REQUEST, &data)
}

fn ready() -> (Splicer, [u8; OUT]) {
    let mut out = [0; OUT];
    let (mut channel, _) = Splicer::fresh(&name(b"CH1"));
    for connection in [0, 3] {
        channel.open(connection).unwrap();
        let data = [&[0, 2], &name(b"CH1")[..], &name(b"S"), &[0, 2, 7, 9]].concat();
        let init = message(message_id::INIT_REQUEST, &data);
        channel.message(connection, &init, &mut out).unwrap();
    }
    channel.tick(1000, 0, &mut out).unwrap();
    (channel, out)
}

/// Start, end and played in seconds, each more than 0 as the test has them.
fn row(times: [u64; 3], numbers: [u32; 3], access: u8, state: State) -> Session {
    let [start, end, played] = times.map(|seconds| seconds * SECOND);
    let [connection, session, event] = numbers;
    Session {
        start,
        end,
        played,
        connection,
        session,
        event,
        prior: None,
        access,
        overrides: false,
        mux: 5,
        state,
    }
}

#[test]
fn started_ones_from_the_highest_down_then_those_that_wait_by_start() {
    let (mut channel, mut out) = ready();
    let none = 0xFFFF_FFFF;
    let requests = [
        (0, splice([9, none, 1003, 60, 77], [1, 0], None)),
        (3, splice([9, none, 1005, 5, none], [7, 1], Some(10))),
        (3, splice([4, none, 1200, 10, 0], [2, 0], None)),
        (0, splice([6, 9, 0, 30, 1], [3, 1], Some(1))),
        (0, splice([2, none, 1100, 10, 5], [9, 0], None)),
    ];
    for (connection, request) in &requests {
        channel.message(*connection, request, &mut out).unwrap();
    }
    channel.tick(1007, 0, &mut out).unwrap();
    let covered = row([1003, 1063, 2], [0, 9, 77], 1, State::Covered);
    let on_air = Session {
        overrides: true,
        mux: 10,
        ..row([1005, 1010, 2], [3, 9, none], 7, State::OnAir)
    };
    let linked = Session {
        prior: Some(9),
        overrides: true,
        mux: 1,
        ..row([1063, 1093, 0], [0, 6, 1], 3, State::Waiting)
    };
    let next = row([1100, 1110, 0], [0, 2, 5], 9, State::Waiting);
    let last = row([1200, 1210, 0], [3, 4, 0], 2, State::Waiting);
    let before = channel.clone();
    let sessions: Vec<Session> = channel.sessions().collect();
    assert_eq!(sessions, [on_air, covered, linked, next, last]);
    assert_eq!(channel, before);
    assert_eq!(channel.sessions().len(), 5);
    // The covered one is on air again, without a record of its own.
    channel.tick(1011, 0, &mut out).unwrap();
    let again = Session {
        state: State::OnAir,
        ..row([1003, 1063, 3], [0, 9, 77], 1, State::OnAir)
    };
    let sessions: Vec<Session> = channel.sessions().collect();
    assert_eq!(sessions, [again, linked, next, last]);
    // A started one keeps the PriorSession that it was asked with.
    channel.tick(1064, 0, &mut out).unwrap();
    let started = Session {
        played: SECOND,
        state: State::OnAir,
        ..linked
    };
    assert_eq!(channel.sessions().next(), Some(started));
    assert_eq!(channel.sessions().skip(1).collect::<Vec<_>>(), [next, last]);
}

/// What a driver knows of its sessions by connection and SessionID: what was asked, and by the state
/// whether the start was written. The time on air is left 0.
type Book = BTreeMap<(u32, u32), Session>;

/// A number from 0 to n - 1.
fn below(seed: &mut u64, n: u32) -> u32 {
    *seed = seed.wrapping_mul(6364136223846793005).wrapping_add(1);
    (*seed >> 33) as u32 % n
}

/// The starts and ends that records tell.
fn hear(book: &mut Book, written: &[u8]) {
    for record in records(written) {
        let told = |at: usize| u32::from_be_bytes(record.data[at..at + 4].try_into().unwrap());
        let complete = record.message_id == message_id::SPLICE_COMPLETE_RESPONSE;
        if !complete && record.message_id != message_id::SPLICE_RESPONSE {
            continue;
        }
        let key = (u32::from(record.connection), told(0));
        if complete && record.data[4] == 0 && record.result == result::SUCCESSFUL {
            book.get_mut(&key).expect("a start of one accepted").state = State::OnAir;
        } else {
            assert!(book.remove(&key).is_some(), "an end of one accepted");
        }
    }
}

/// A Splice_Request; accepted, it is in the book. Evictions stand before its own answer.
fn request(channel: &mut Splicer, book: &mut Book, seed: &mut u64, now: u32) {
    let (connection, session) = ([0, 3][below(seed, 2) as usize], below(seed, 12));
    let linked = below(seed, 3) == 0;
    let prior = if linked { below(seed, 12) } else { 0xFFFF_FFFF };
    let (seconds, duration) = (now + 3 + below(seed, 8), 1 + below(seed, 6));
    let (access, overrides, mux) = (below(seed, 10), below(seed, 2), 1 + below(seed, 10));
    let event = below(seed, 1000);
    let mut out = [0; OUT];
    let numbers = [session, prior, seconds, duration, event];
    let bytes = splice(numbers, [access as u8, overrides as u8], Some(mux as u8));
    let handled = channel.message(connection, &bytes, &mut out).unwrap();
    let start = match book.get(&(connection, prior)) {
        Some(before) if linked => before.end,
        _ => u64::from(seconds) * SECOND,
    };
    let own = records(handled.written).last().expect("its answer");
    hear(
        book,
        &handled.written[..handled.written.len() - 2 - own.message.len()],
    );
    if own.result == result::SUCCESSFUL {
        let new = Session {
            start,
            end: start + u64::from(duration) * SECOND,
            played: 0,
            connection,
            session,
            event,
            prior: linked.then_some(prior),
            access: access as u8,
            overrides: overrides == 1,
            mux: mux as u8,
            state: State::Waiting,
        };
        assert_eq!(book.insert((connection, session), new), None);
    }
}

/// The rows as the book has them, in their order.
fn expected(book: &Book) -> Vec<Session> {
    let all = book.values().copied();
    let (mut started, mut waiting): (Vec<Session>, Vec<Session>) =
        all.partition(|s| s.state != State::Waiting);
    started.sort_by_key(|s| std::cmp::Reverse(s.access));
    waiting.sort_by_key(|s| s.start);
    for covered in started.iter_mut().skip(1) {
        covered.state = State::Covered;
    }
    [started, waiting].concat()
}

#[test]
fn rows_are_what_requests_and_records_tell() {
    let (mut channel, mut out) = ready();
    let (mut book, mut seed, mut now) = (Book::new(), 41, 1000);
    let (mut most, mut covered) = (0, 0);
    for _ in 0..20_000 {
        match below(&mut seed, 8) {
            0 => {
                let (connection, session) =
                    ([0, 3][below(&mut seed, 2) as usize], below(&mut seed, 12));
                let abort = message(message_id::ABORT_REQUEST, &session.to_be_bytes());
                let handled = channel.message(connection, &abort, &mut out).unwrap();
                hear(&mut book, handled.written);
            }
            1 | 2 => {
                now += below(&mut seed, 2);
                let micros = below(&mut seed, 1_000_000);
                match channel.tick(now, micros, &mut out) {
                    Ok(written) => hear(&mut book, written),
                    Err(refusal) => assert_eq!(refusal, Refusal::ClockBack),
                }
            }
            _ => request(&mut channel, &mut book, &mut seed, now),
        }
        let rows: Vec<Session> = channel.sessions().collect();
        let told: Vec<Session> = rows.iter().map(|s| Session { played: 0, ..*s }).collect();
        assert_eq!(told, expected(&book));
        let waits = |s: &&Session| s.state == State::Waiting;
        assert!(rows.iter().filter(waits).all(|s| s.played == 0));
        most = most.max(rows.len());
        covered += rows.iter().filter(|s| s.state == State::Covered).count();
    }
    assert!(
        most > 10 && covered > 1000,
        "{most} at most, {covered} covered"
    );
}

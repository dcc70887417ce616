//! The calls of a capture that begins in the middle of connections, or has gaps: what the splicer knew
//! is not known, so nothing leads them. The clock is brought to the time of each packet, and a record
//! goes to the request that it answers, or to a tick.

use super::segments::{Event, What};
use crate::ruled::ticked;
use crate::time::SECOND;
use std::collections::VecDeque;

#[derive(Default)]
struct Made {
    calls: Vec<(Vec<u8>, Vec<u8>)>,
    /// For each connection the calls of the requests that have no answer yet.
    asked: [VecDeque<usize>; 4],
    clock: u64,
}

/// The splicer's clock is so far from the packets' times.
pub fn bytes(events: &[Event], ahead: i64) -> Vec<u8> {
    let mut made = Made::default();
    for event in events {
        made.event(event, event.at.saturating_add_signed(ahead));
    }
    let calls = made.calls.into_iter();
    calls
        .flat_map(|(call, found)| [call, found].concat())
        .collect()
}

impl Made {
    fn event(&mut self, event: &Event, at: u64) {
        let conn = event.conn;
        match &event.what {
            What::Open(true) => self.call(at, &[0x4F, conn]),
            // it was open, and nobody called
            What::Open(false) => {}
            What::Closed => {
                self.asked[usize::from(conn)].clear();
                self.call(at, &[0x43, conn]);
            }
            What::Request(message) => {
                self.call(at, &[&[0x4D, conn][..], message].concat());
                self.asked[usize::from(conn)].push_back(self.calls.len() - 1);
            }
            What::Record(message) => self.record(at, conn, message),
        }
    }

    /// A call; the clock is brought to its time first.
    fn call(&mut self, at: u64, bytes: &[u8]) {
        if at > self.clock {
            self.tick(at);
        }
        self.calls.push((bytes.to_vec(), Vec::new()));
    }

    fn tick(&mut self, at: u64) {
        self.clock = at;
        self.calls.push((ticked(at), Vec::new()));
    }

    /// A record belongs to the request that it answers; else to the last call, if that was at its
    /// time, or came within a second before and the record is no work of a tick; else to a tick.
    fn record(&mut self, at: u64, conn: u8, message: &[u8]) {
        let own = self.answered(conn, message);
        let near = at <= self.clock || at <= self.clock + SECOND && by_a_request(message);
        if own.is_none() && (!near || self.calls.is_empty()) {
            self.tick(at);
        }
        let place = own.unwrap_or(self.calls.len() - 1);
        self.calls[place].1.extend([0x52, conn]);
        self.calls[place].1.extend_from_slice(message);
    }

    /// The oldest request of this connection that a message answers; what waited before it got none.
    fn answered(&mut self, conn: u8, message: &[u8]) -> Option<usize> {
        let asked = &self.asked[usize::from(conn)];
        let fits = |place: &usize| fits(&self.calls[*place].0[2..], message);
        let at = asked.iter().position(fits)?;
        self.asked[usize::from(conn)].drain(..=at).next_back()
    }
}

/// Whether a message is an answer to this request.
fn fits(request: &[u8], message: &[u8]) -> bool {
    let id = |of: &[u8]| u16::from_be_bytes([of[0], of[1]]);
    let (asks, answers) = (id(request), id(message));
    let follows = asks.checked_add(1) == Some(answers);
    let session = request.get(8..12) == message.get(8..12);
    match answers {
        0x0000 => asks != 0 && asks != 0x000D && message[4..6] != [0, 117],
        0x0002 | 0x0004 | 0x0006 | 0x000B => follows,
        0x0008 | 0x000F => follows && session,
        _ => false,
    }
}

/// An end that an abort or an acceptance writes: result 116, or a Splice_Response 109.
fn by_a_request(message: &[u8]) -> bool {
    let result = u16::from_be_bytes([message[4], message[5]]);
    result == 116 || message[..2] == [0, 8] && result == 109
}

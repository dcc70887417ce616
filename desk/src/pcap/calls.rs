//! The calls behind a capture. A capture has the messages in their order and the packets' times; it has
//! no ticks, no cue calls and not the splicer's clock. So the second program is led along the capture: a
//! tick is set where the next record needs one, at the earliest time that gives it, and a message is
//! handed in when its answer comes. What no call explains is found and not due.
//!
//! A clock that is never later than the records need is never later than the splicer's, so a right
//! splicer is never called broken, however seldom it ticks (docs/DECISIONS.md, 192).

use super::segments::{Event, What};
use crate::recording::{items, Call};
use crate::ruled::{ticked, Rules};
use crate::time::{ninths, MICRO, SECOND, TICK};
use std::collections::VecDeque;

/// The capture's clock may drift so far from the splicer's.
const LAG: u64 = SECOND;
/// A splicer that ticks less often than this, CR 9's longest step, is late.
const LATE: u64 = 90 * SECOND;
/// An answer that had so much time is missing.
const WAIT: u64 = 10 * SECOND;
/// The most instants that one record is sought behind.
const MOST: usize = 400;

/// A call and its records, each at its place among those that are due.
pub struct Made {
    bytes: Vec<u8>,
    found: Vec<(usize, Vec<u8>)>,
    /// How many are due, and found beyond that.
    places: usize,
    /// The splicer's clock when the packet came, if it runs as the capture's.
    at: u64,
}

/// A record that the rules have given and the capture has not shown yet.
struct Due {
    bytes: Vec<u8>,
    entry: usize,
    place: usize,
}

/// One connection: what waits for an answer, what is due, and what the capture shows from here on.
#[derive(Default)]
struct Line {
    open: bool,
    asked: VecDeque<(Vec<u8>, u64)>,
    due: VecDeque<Due>,
    shown: VecDeque<Vec<u8>>,
}

/// A call or a tick that is tried: its bytes, the packet's time and what it writes. No bytes are a cue.
type Step = (Vec<u8>, u64, Vec<u8>);

pub struct Back {
    rules: Rules,
    pub made: Vec<Made>,
    lines: [Line; 4],
    /// The splicer's clock less the capture's, by the Alive_Response that is least behind; none if
    /// there is none: then no packet's time says anything.
    ahead: Option<i64>,
}

impl Back {
    /// The calls of a capture in which every connection is opened.
    pub fn of(events: &[Event], name: &[u8; 32]) -> Back {
        let mut back = Back {
            rules: Rules::of(name),
            made: Vec::new(),
            lines: Default::default(),
            ahead: clocks(events).into_iter().max(),
        };
        for (place, event) in events.iter().enumerate() {
            back.event(event, &events[place..]);
        }
        let end = events.last().map_or(0, |event| back.clock(event.at));
        back.last(end);
        back
    }

    /// The splicer's clock at a packet's time.
    fn clock(&self, at: u64) -> u64 {
        at.saturating_add_signed(self.ahead.unwrap_or(0))
    }

    /// The latest that the clock may be at a packet.
    fn bound(&self, at: u64) -> u64 {
        self.ahead.map_or(u64::MAX, |_| at + LAG)
    }

    fn event(&mut self, event: &Event, rest: &[Event]) {
        let conn = usize::from(event.conn);
        let at = self.clock(event.at);
        match &event.what {
            What::Open(_) => {
                self.lines[conn] = Line {
                    open: true,
                    shown: shown(rest),
                    ..Line::default()
                };
                self.make(&[0x4F, event.conn], at);
            }
            What::Request(message) => {
                let call = [&[0x4D, event.conn][..], message].concat();
                self.lines[conn].asked.push_back((call, at));
            }
            What::Record(_) => self.record(conn, at),
            What::Closed => self.closed(conn, at),
        }
    }

    /// What was on its way when the connection went is taken as sent.
    fn closed(&mut self, conn: usize, at: u64) {
        self.unanswered(conn, at);
        for due in std::mem::take(&mut self.lines[conn].due) {
            self.made[due.entry].found.push((due.place, due.bytes));
        }
        self.lines[conn] = Line::default();
        // "The driver doesn't send those but logs them."
        self.rules.made(&[0x43, conn as u8]);
        self.push(vec![0x43, conn as u8], at);
    }

    /// Requests that no answer came to.
    fn unanswered(&mut self, conn: usize, at: u64) {
        while let Some((call, asked)) = self.lines[conn].asked.pop_front() {
            self.make(&call, asked);
            // an answer that had its time and did not come is missing
            if asked + WAIT < at {
                self.lines[conn].due.clear();
            }
        }
    }

    /// The end of the capture: what must have been done by then.
    fn last(&mut self, end: u64) {
        let by = self.ahead.map_or(0, |_| end.saturating_sub(LATE));
        while let Some(next) = self.rules.next().filter(|next| *next <= by) {
            self.tick(next, next);
        }
        for conn in 0..4 {
            self.unanswered(conn, end);
            for due in std::mem::take(&mut self.lines[conn].due) {
                if self.made[due.entry].at + WAIT >= end {
                    self.made[due.entry].found.push((due.place, due.bytes));
                }
            }
        }
    }

    /// The next record of a connection.
    fn record(&mut self, conn: usize, at: u64) {
        let Some(record) = self.lines[conn].shown.pop_front() else {
            return;
        };
        if self.found(conn, &record) || self.in_place(conn, &record) {
            return;
        }
        // what was due before it did not come
        self.lines[conn].due.clear();
        self.lines[conn].shown.push_front(record.clone());
        let explained = self.explained(conn, at);
        self.lines[conn].shown.pop_front();
        if explained {
            self.found(conn, &record);
        } else {
            self.unexplained(conn, &record, at);
        }
    }

    /// Whether it is the next that is due; then it is put to its call.
    fn found(&mut self, conn: usize, record: &[u8]) -> bool {
        let due = &mut self.lines[conn].due;
        if !due.front().is_some_and(|due| same(&due.bytes, record)) {
            return false;
        }
        if let Some(due) = due.pop_front() {
            self.made[due.entry]
                .found
                .push((due.place, record.to_vec()));
        }
        true
    }

    /// Whether the next that is due says something else of the same session: it stands in its place.
    fn in_place(&mut self, conn: usize, record: &[u8]) -> bool {
        let of = |bytes: &[u8]| Some((bytes.get(2..4)?.to_vec(), bytes.get(10..14)?.to_vec()));
        let due = &mut self.lines[conn].due;
        let near = due
            .front()
            .is_some_and(|due| of(&due.bytes).is_some() && of(&due.bytes) == of(record));
        if !near {
            return false;
        }
        if let Some(due) = due.pop_front() {
            self.made[due.entry]
                .found
                .push((due.place, record.to_vec()));
        }
        true
    }

    /// Looks for the calls that write the next record of a connection.
    fn explained(&mut self, conn: usize, at: u64) -> bool {
        let timed = self.lines[conn].shown[0].get(2..4) == Some(&[0, 9]);
        if timed && self.by_time(conn, at) {
            return true;
        }
        let others = (0..4).filter(|other| *other != conn);
        let order: Vec<usize> = [conn].into_iter().chain(others).collect();
        for of in order {
            if self.by_request(of, conn, at) {
                return true;
            }
        }
        !timed && self.by_time(conn, at) || self.by_cue(conn, at)
    }

    /// By ticks to the next instants.
    fn by_time(&mut self, conn: usize, at: u64) -> bool {
        let (mut rules, mut steps) = (self.rules.clone(), Vec::new());
        for _ in 0..MOST {
            let Some(next) = rules.next().filter(|next| *next <= self.bound(at)) else {
                return false;
            };
            let written = rules.tick(next);
            steps.push((ticked(next), at, written));
            if !self.fits(&steps) {
                return false;
            }
            if covers(&steps, conn) {
                self.take(rules, steps);
                return true;
            }
        }
        false
    }

    /// By the oldest request of a connection, now or as late as its answer tells.
    fn by_request(&mut self, of: usize, conn: usize, at: u64) -> bool {
        self.pass_silent(of);
        let Some((call, asked)) = self.lines[of].asked.front().cloned() else {
            return false;
        };
        for time in self.times(of, &call, at) {
            let (mut rules, mut steps) = (self.rules.clone(), Vec::new());
            if time > rules.clock() {
                steps.push((ticked(time), asked, rules.tick(time)));
            }
            let written = rules.made(&call);
            steps.push((call.clone(), asked, written));
            if self.fits(&steps) && covers(&steps, conn) {
                self.lines[of].asked.pop_front();
                self.take(rules, steps);
                return true;
            }
        }
        false
    }

    /// Messages that nothing is sent for.
    fn pass_silent(&mut self, conn: usize) {
        while let Some((call, at)) = self.lines[conn].asked.front().cloned() {
            let written = self.rules.clone().made(&call);
            if written.first() == Some(&0x52) {
                return;
            }
            self.lines[conn].asked.pop_front();
            self.make(&call, at);
        }
    }

    /// Times of the clock at which a request may have been handled, the earliest first.
    fn times(&self, conn: usize, call: &[u8], at: u64) -> Vec<u64> {
        let clock = self.rules.clock();
        let answer = self.lines[conn].shown.front();
        if let Some(time) = answer.and_then(|answer| alive(answer)) {
            return vec![time]
                .into_iter()
                .filter(|time| *time >= clock)
                .collect();
        }
        let mut list = vec![clock];
        list.extend(too_late(call));
        list.extend(self.played(conn, call, at));
        list.push(at.saturating_sub(LAG));
        list.push(at);
        list.retain(|time| (clock..=self.bound(at)).contains(time));
        list
    }

    /// The time of an abort, by the PlayedDuration that its session's end shows.
    fn played(&self, conn: usize, call: &[u8], at: u64) -> Vec<u64> {
        let mut rules = self.rules.clone();
        let time = at.max(rules.clock()) / MICRO * MICRO;
        if call.get(2..4) != Some(&[0, 0x0E]) {
            return Vec::new();
        }
        rules.tick(time);
        let written = rules.made(call);
        let due = items(&written, 0);
        let shown = self.lines[conn].shown.iter();
        let pair = due
            .iter()
            .zip(shown)
            .find_map(|(due, shown)| Some((ended(due.bytes)?, ended(shown)?)));
        let Some((due, shown)) = pair else {
            return Vec::new();
        };
        let exact = time.saturating_add_signed((i64::from(shown) - i64::from(due)) * TICK as i64);
        let micro = exact / MICRO * MICRO;
        vec![micro, micro + MICRO]
    }

    /// By a cue call: the same record to every initialised connection.
    fn by_cue(&mut self, conn: usize, at: u64) -> bool {
        let mut rules = self.rules.clone();
        let record = self.lines[conn].shown[0].clone();
        let steps = vec![(Vec::new(), at, rules.cue(&record))];
        let good = self.fits(&steps) && covers(&steps, conn) && !self.made.is_empty();
        if good {
            self.take(rules, steps);
        }
        good
    }

    /// Whether the capture shows what these steps write, on every connection, as far as it reaches.
    fn fits(&self, steps: &[Step]) -> bool {
        let mut at = [0, 1, 2, 3].map(|conn: usize| self.lines[conn].due.len());
        let written = steps.iter().flat_map(|(_, _, written)| items(written, 0));
        for item in written.filter(|item| item.bytes[0] == 0x52) {
            let conn = usize::from(item.bytes[1] % 4);
            let shown = self.lines[conn].shown.get(at[conn]);
            if shown.is_some_and(|shown| !same(item.bytes, shown)) {
                return false;
            }
            at[conn] += 1;
        }
        true
    }

    /// Takes the steps: their records are due.
    fn take(&mut self, rules: Rules, steps: Vec<Step>) {
        self.rules = rules;
        for (bytes, at, written) in steps {
            if !bytes.is_empty() {
                self.push(bytes, at);
            }
            self.due(&written);
        }
    }

    fn tick(&mut self, time: u64, at: u64) {
        self.make(&ticked(time), at);
    }

    /// A call at the present clock, whatever it writes.
    fn make(&mut self, call: &[u8], at: u64) {
        let written = self.rules.made(call);
        self.push(call.to_vec(), at);
        self.due(&written);
    }

    fn push(&mut self, bytes: Vec<u8>, at: u64) {
        self.made.push(Made {
            bytes,
            found: Vec::new(),
            places: 0,
            at,
        });
    }

    /// Records of the last call that are to come. A refusal is not sent, and is as the rules give it.
    fn due(&mut self, written: &[u8]) {
        let Some(entry) = self.made.len().checked_sub(1) else {
            return;
        };
        for item in items(written, 0) {
            let place = self.made[entry].places;
            self.made[entry].places += 1;
            let bytes = item.bytes.to_vec();
            match self.lines.get_mut(usize::from(item.bytes[1])) {
                Some(line) if item.bytes[0] == 0x52 && line.open => {
                    line.due.push_back(Due {
                        bytes,
                        entry,
                        place,
                    });
                }
                _ => self.made[entry].found.push((place, bytes)),
            }
        }
    }

    /// No call explains it. If a request waits, it is this one's answer; else all that must be done by
    /// then is done, and what was due before it has not come.
    fn unexplained(&mut self, conn: usize, record: &[u8], at: u64) {
        let timed = record[2..4] == [0, 9];
        let asked = match timed {
            true => None,
            false => self.lines[conn].asked.pop_front(),
        };
        match asked {
            Some((call, asked)) => {
                if let Some(time) = alive(record).filter(|time| *time > self.rules.clock()) {
                    self.tick(time, asked);
                }
                self.make(&call, asked);
                self.lines[conn].due.clear();
            }
            None if self.made_up(conn, record, at) => return,
            None => {}
        }
        if let Some(made) = self.made.last_mut() {
            made.found.push((made.places, record.to_vec()));
            made.places += 1;
        }
    }

    /// Whether it comes of what must be done by then, or of the next call behind that.
    fn made_up(&mut self, conn: usize, record: &[u8], at: u64) -> bool {
        while let Some(next) = self.rules.next().filter(|next| *next <= at) {
            self.tick(next, at);
            if self.in_place(conn, record) {
                return true;
            }
            let due = &mut self.lines[conn].due;
            if let Some(place) = due.iter().position(|due| same(&due.bytes, record)) {
                due.drain(..place);
                return self.found(conn, record);
            }
        }
        self.lines[conn].due.clear();
        self.lines[conn].shown.push_front(record.to_vec());
        let explained = self.explained(conn, at);
        self.lines[conn].shown.pop_front();
        explained && self.found(conn, record)
    }
}

/// What the capture shows of the connection that these events begin with, until it is closed.
fn shown(events: &[Event]) -> VecDeque<Vec<u8>> {
    let conn = events[0].conn;
    let own = events.iter().filter(|event| event.conn == conn);
    let until = own.take_while(|event| !matches!(event.what, What::Closed));
    let record = |event: &Event| match &event.what {
        What::Record(message) => Some([&[0x52, conn][..], message].concat()),
        _ => None,
    };
    until.filter_map(record).collect()
}

/// Whether steps write something for this connection.
fn covers(steps: &[Step], conn: usize) -> bool {
    let mut written = steps.iter().flat_map(|(_, _, written)| items(written, 0));
    written.any(|item| item.bytes[0] == 0x52 && usize::from(item.bytes[1]) == conn)
}

/// Whether a record is the due one; the map section of a GetConfig_Response is not known.
fn same(due: &[u8], shown: &[u8]) -> bool {
    due == shown || crate::ruled::with_map(due, shown)
}

/// The time in an Alive_Response.
fn alive(record: &[u8]) -> Option<u64> {
    let word = |at: usize| {
        u32::from_be_bytes([record[at], record[at + 1], record[at + 2], record[at + 3]])
    };
    let good = record.len() == 26 && record[2..4] == [0, 6];
    good.then(|| ninths(word(18), word(22).min(999_999)))
}

/// The PlayedDuration of an end that an abort writes.
fn ended(record: &[u8]) -> Option<u32> {
    let good = record.len() == 23 && record[2..4] == [0, 9] && record[6..8] == [0, 116];
    good.then(|| u32::from_be_bytes([record[19], record[20], record[21], record[22]]))
}

/// The first microsecond at which a timed Splice_Request is too late: "less than 3 s after the clock".
fn too_late(call: &[u8]) -> Option<u64> {
    let word = |at: usize| Some(u32::from_be_bytes(call.get(at..at + 4)?.try_into().ok()?));
    let timed = call.get(2..4)? == [0, 7] && word(14)? == u32::MAX;
    let start = ninths(word(18)?, word(22)?.min(999_999));
    timed.then(|| (start + MICRO).saturating_sub(3 * SECOND))
}

/// The splicer's clock less the packet's time, of each Alive_Response.
pub fn clocks(events: &[Event]) -> Vec<i64> {
    let of = |event: &Event| match &event.what {
        What::Record(message) => {
            let record = [&[0x52, 0][..], message].concat();
            alive(&record).map(|time| time as i64 - event.at as i64)
        }
        _ => None,
    };
    events.iter().filter_map(of).collect()
}

/// The bytes of all calls and their records. With `dated` the clock of each call is brought as near to
/// its packet's time as the answers let it: by a tick that writes nothing and changes no answer.
pub fn joined(made: &[Made], name: &[u8; 32], dated: bool) -> Vec<u8> {
    let limits = limits(made);
    let mut rules = Rules::of(name);
    let mut list = Vec::new();
    for (one, limit) in made.iter().zip(limits) {
        let time = one.at.min(limit) / MICRO * MICRO;
        let closes = one.bytes[0] == 0x43;
        let mut now = rules.clone();
        let mut written = now.made(&one.bytes);
        if dated && time > rules.clock() {
            let mut later = rules.clone();
            let silent = later.tick(time).is_empty();
            let then = later.made(&one.bytes);
            if silent && (closes || then == written) {
                list.extend(ticked(time));
                (now, written) = (later, then);
            }
        }
        rules = now;
        list.extend_from_slice(&one.bytes);
        // the ends that a close writes are not sent: they are what the rules give
        match closes {
            true => list.extend(written),
            false => list.extend(one.records()),
        }
    }
    list
}

impl Made {
    /// Its records in the order in which they were due.
    fn records(&self) -> Vec<u8> {
        let mut found: Vec<&(usize, Vec<u8>)> = self.found.iter().collect();
        found.sort_by_key(|(place, _)| *place);
        found.iter().flat_map(|(_, bytes)| bytes.clone()).collect()
    }
}

/// The latest clock of each call: that of the next tick.
fn limits(made: &[Made]) -> Vec<u64> {
    let mut limit = u64::MAX;
    let mut list = Vec::new();
    for one in made.iter().rev() {
        if let Some(Call::Tick(seconds, micros)) = crate::recording::call(&one.bytes) {
            limit = ninths(seconds, micros);
        }
        list.push(limit);
    }
    list.reverse();
    list
}

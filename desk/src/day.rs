//! A day out of calls and their records: each Splice_Request with its answer, its times on air and
//! its end. It is made of what was recorded, and once more of what the rules give.
//!
//! The instants are those of document 01: "A timed start is the request's time; a linked start is
//! the prior session's end. End is start plus Duration."; a record of a tick stands at its instant
//! and not at the tick that wrote it.

use crate::message::{self, Asked};
use crate::recording::{items, Call, Item, Recording};
use crate::time::{ninths, TICK};
use std::collections::BTreeMap;

#[derive(Clone, Copy, Debug, PartialEq, Eq)]
pub enum State {
    /// Not accepted, or over.
    None,
    Waiting,
    OnAir,
    Covered,
}

/// A time in a state.
#[derive(Clone, Copy, Debug, PartialEq, Eq)]
pub struct Span {
    pub state: State,
    pub from: u64,
    pub to: u64,
}

/// The answer to a Splice_Request.
#[derive(Clone, Copy, Debug, PartialEq, Eq)]
pub enum Answer {
    /// Splice_Response.
    Splice(u16),
    /// General_Response.
    General(u16),
    /// A house number.
    House(u8),
    None,
}

/// A session's end.
#[derive(Clone, Copy, Debug, PartialEq, Eq)]
pub struct End {
    pub at: u64,
    pub result: u16,
    /// SpliceTypeFlag; none for a Splice_Response.
    pub flag: Option<u8>,
    pub played: Option<u32>,
    /// By the close of its connection.
    pub closed: bool,
    /// The call that wrote it, and what the session was before.
    pub call: usize,
    pub was: State,
}

/// A Splice_Request.
#[derive(Clone, Debug)]
pub struct Row {
    /// The number of its call.
    pub call: usize,
    pub conn: u8,
    pub asked: Asked,
    pub asked_at: u64,
    pub answer: Answer,
    /// As scheduled.
    pub start: Option<u64>,
    pub end: Option<u64>,
    pub began: Option<u64>,
    pub ended: Option<End>,
    pub spans: Vec<Span>,
    /// Records of a further start or end.
    pub again: usize,
    /// Its start or its end passed, and nothing was written of it.
    pub overdue: bool,
    /// It was accepted before the recording began: no more is known than what was written of it.
    pub before: bool,
    state: State,
    since: u64,
}

impl Row {
    pub fn accepted(&self) -> bool {
        self.answer == Answer::Splice(100)
    }

    pub fn state(&self) -> State {
        self.state
    }

    /// Its time on air.
    pub fn on_air(&self) -> u64 {
        let air = self.spans.iter().filter(|s| s.state == State::OnAir);
        air.map(|span| span.to - span.from).sum()
    }

    /// Whether two readings of one request say the same.
    pub fn same(&self, other: &Row) -> bool {
        let told = |row: &Row| (row.answer, row.began, row.ended, row.again);
        told(self) == told(other) && self.spans == other.spans
    }

    fn become_state(&mut self, state: State, at: u64) {
        if self.state == state {
            return;
        }
        let at = at.max(self.since);
        self.leave(at);
        (self.state, self.since) = (state, at);
    }

    /// Writes down the present state's time.
    fn leave(&mut self, at: u64) {
        if self.state == State::None || at <= self.since {
            return;
        }
        match self.spans.last_mut() {
            Some(last) if last.state == self.state && last.to == self.since => last.to = at,
            _ => self.spans.push(Span {
                state: self.state,
                from: self.since,
                to: at,
            }),
        }
    }
}

/// So many calls lie between two of which the clock is kept.
const MARK: usize = 256;

/// The clock behind a tick, an instant or a reading that was not refused.
pub fn behind(recording: &Recording, number: usize, written: &[u8]) -> Option<u64> {
    match recording.entry(number).call() {
        _ if written.first() == Some(&0x45) => None,
        Some(Call::Tick(s, m)) => Some(ninths(s, m)),
        Some(Call::Instant(..) | Call::Reading(_)) => recording.rolled(number),
        _ => None,
    }
}

#[derive(Default)]
pub struct Day {
    pub rows: Vec<Row>,
    /// The first good tick's time, and the last's.
    pub first: Option<u64>,
    pub clock: u64,
    /// For each call that wrote records, the instant of each.
    pub instants: BTreeMap<usize, Vec<u64>>,
    /// The clock before every so manieth call.
    marks: Vec<u64>,
    /// The rows that are accepted and not over.
    active: Vec<usize>,
    /// Sessions that nobody asked for were accepted before.
    middle: bool,
    /// Ends and starts of sessions that nobody asked for.
    pub strays: Vec<(usize, u8, u32)>,
}

/// What a record says of a session.
struct Said {
    conn: u8,
    session: u32,
    result: u16,
    flag: Option<u8>,
    played: Option<u32>,
}

fn said(item: &Item) -> Option<Said> {
    if item.bytes[0] != 0x52 || item.bytes.len() < 10 {
        return None;
    }
    let message = message::split(&item.bytes[2..]);
    let word = |at: usize| {
        let w = &message.data[at..at + 4];
        u32::from_be_bytes([w[0], w[1], w[2], w[3]])
    };
    let (flag, played) = match (message.id, message.data.len()) {
        (0x0008, 4) => (None, None),
        (0x0009, 13) => (Some(message.data[4]), Some(word(9))),
        _ => return None,
    };
    Some(Said {
        conn: item.bytes[1],
        session: word(0),
        result: message.result,
        flag,
        played,
    })
}

fn refused(items: &[Item]) -> Option<u8> {
    let number = |item: &Item| (item.bytes[0] == 0x45).then(|| item.bytes[1]);
    items.first().and_then(number)
}

impl Day {
    /// The day of these calls with these records, all of a call one behind the other. With `middle` it
    /// may have begun before.
    pub fn of<'i>(
        recording: &'i Recording,
        records: impl Fn(usize) -> &'i [u8],
        middle: bool,
    ) -> Day {
        let mut day = Day {
            middle,
            ..Day::default()
        };
        for (number, entry) in recording.entries().enumerate() {
            if number % MARK == 0 {
                day.marks.push(day.clock);
            }
            let written = records(number);
            let clock = behind(recording, number, written);
            day.call(number, entry.call(), clock, &items(written, 0));
        }
        let clock = day.clock;
        for row in &mut day.rows {
            row.leave(clock.max(row.since));
        }
        day
    }

    /// The clock behind a call of this day.
    pub fn clock_of<'i>(
        &self,
        number: usize,
        recording: &'i Recording,
        records: impl Fn(usize) -> &'i [u8],
    ) -> u64 {
        let mut clock = self.marks.get(number / MARK).copied().unwrap_or(0);
        for call in number / MARK * MARK..=number {
            clock = behind(recording, call, records(call)).unwrap_or(clock);
        }
        clock
    }

    fn call(&mut self, number: usize, call: Option<Call>, clock: Option<u64>, items: &[Item]) {
        let before = self.clock;
        if let Some(clock) = clock {
            self.clock = clock;
            self.first.get_or_insert(clock);
        }
        let (mut own, mut closed) = (None, false);
        match call {
            Some(Call::Message(conn, bytes)) if bytes[..2] == [0, 7] => {
                own = self.asked(number, conn, &bytes[8..], items);
            }
            Some(Call::Close(_)) => closed = true,
            _ => {}
        }
        let instants = self.instants(items, before);
        for (place, item) in items.iter().enumerate() {
            match said(item) {
                Some(said) if own != Some(place) => {
                    self.record(number, &said, instants[place], closed);
                }
                _ => {}
            }
        }
        if let (Some(_), Some(row)) = (own, self.rows.last_mut()) {
            if row.accepted() {
                row.become_state(State::Waiting, before);
                self.active.push(self.rows.len() - 1);
            }
        }
        self.pass_over();
        if !instants.is_empty() {
            self.instants.insert(number, instants);
        }
    }

    /// A Splice_Request. Gives the place of its own answer: the last Splice_Response of its
    /// SessionID, for those that were evicted are written before it.
    fn asked(&mut self, call: usize, conn: u8, data: &[u8], items: &[Item]) -> Option<usize> {
        let asked = message::asked(data);
        let is_own = |item: &Item| match said(item) {
            Some(s) => s.flag.is_none() && s.conn == conn && Some(s.session) == asked.session,
            None => false,
        };
        let own = items.iter().rposition(is_own);
        let answer = match (own, refused(items), items.first()) {
            (Some(place), _, _) => Answer::Splice(message::split(&items[place].bytes[2..]).result),
            (None, Some(house), _) => Answer::House(house),
            (None, None, Some(item)) if item.bytes[1..4] == [conn, 0, 0] => {
                Answer::General(message::split(&item.bytes[2..]).result)
            }
            _ => Answer::None,
        };
        let start = match asked.prior {
            Some(u32::MAX) => Some(ninths(asked.time.0, asked.time.1)),
            Some(prior) => self.last(conn, prior).and_then(|row| self.rows[row].end),
            None => None,
        };
        let length = asked.duration.map(|ticks| u64::from(ticks) * TICK);
        self.rows.push(Row {
            call,
            conn,
            asked,
            asked_at: self.clock,
            answer,
            start,
            end: start.zip(length).map(|(start, length)| start + length),
            began: None,
            ended: None,
            spans: Vec::new(),
            again: 0,
            overdue: false,
            before: false,
            state: State::None,
            since: self.clock,
        });
        own
    }

    /// A session that was accepted before the recording began, by the first record of it. One that
    /// ends was on air for its PlayedDuration, as far as the recording reaches.
    fn known_by(&mut self, call: usize, said: &Said, at: u64) -> usize {
        let played = said.played.filter(|_| said.flag == Some(1)).map(u64::from);
        let since = played.map(|ticks| {
            at.saturating_sub(ticks * TICK)
                .max(self.first.unwrap_or(at))
        });
        let asked = Asked {
            session: Some(said.session),
            ..Asked::default()
        };
        self.rows.push(Row {
            call,
            conn: said.conn,
            asked,
            asked_at: self.first.unwrap_or(at),
            answer: Answer::Splice(100),
            start: None,
            end: None,
            began: None,
            ended: None,
            spans: Vec::new(),
            again: 0,
            overdue: false,
            before: true,
            state: if since.is_some() {
                State::OnAir
            } else {
                State::Waiting
            },
            since: since.unwrap_or(at),
        });
        self.active.push(self.rows.len() - 1);
        self.rows.len() - 1
    }

    /// "the session that its connection last accepted under that SessionID"
    fn last(&self, conn: u8, session: u32) -> Option<usize> {
        let own =
            |row: &Row| row.accepted() && row.conn == conn && row.asked.session == Some(session);
        self.rows.iter().rposition(own)
    }

    /// The instant of each record: in a tick the session's start or end, if it lies between the
    /// clock before and behind it; else that of the next record that has one; else the clock.
    fn instants(&self, items: &[Item], before: u64) -> Vec<u64> {
        let due = |item: &Item| {
            let said = said(item)?;
            let row = &self.rows[self.last(said.conn, said.session)?];
            let at = match (said.flag, said.result) {
                (Some(0), _) => row.start,
                (Some(_), 100 | 125) => row.end,
                _ => None,
            };
            at.filter(|at| (before..=self.clock).contains(at))
        };
        let mut next = self.clock;
        let mut list = Vec::new();
        for item in items.iter().rev() {
            // they stand in order of time: none is later than the next
            let due = due(item).filter(|_| self.clock > before);
            next = due.map_or(next, |at| at.min(next));
            list.push(next);
        }
        list.reverse();
        list
    }

    fn record(&mut self, call: usize, said: &Said, at: u64, closed: bool) {
        let place = match self.last(said.conn, said.session) {
            Some(place) => place,
            None if self.middle => self.known_by(call, said, at),
            None => return self.strays.push((call, said.conn, said.session)),
        };
        let row = &mut self.rows[place];
        match (said.flag, said.result) {
            // no end: a Splice_Response 100 that answers nothing, and J.280's "re-entered"
            (None, 100) | (Some(0), 125) => return,
            (Some(0), 100) if row.began.is_none() && row.ended.is_none() => {
                row.began = Some(at);
                row.become_state(State::Covered, at);
            }
            (Some(0), 100) => row.again += 1,
            _ if row.ended.is_some() => row.again += 1,
            _ => {
                row.ended = Some(End {
                    at,
                    result: said.result,
                    flag: said.flag,
                    played: said.played.filter(|_| said.flag == Some(1)),
                    closed,
                    call,
                    was: row.state,
                });
                row.become_state(State::None, at);
            }
        }
        self.switch(at);
    }

    /// Sessions whose start or end has passed without a record are over by then. The rules leave
    /// none.
    fn pass_over(&mut self) {
        let rows = &self.rows;
        self.active
            .retain(|place| rows[*place].state != State::None);
        for place in self.active.clone() {
            let row = &mut self.rows[place];
            let due = match row.state {
                State::None => None,
                State::Waiting => row.start,
                State::OnAir | State::Covered => row.end,
            };
            if let Some(due) = due.filter(|due| *due <= self.clock) {
                row.overdue = true;
                row.become_state(State::None, due);
                self.switch(due);
            }
        }
    }

    /// The highest AccessType of those started and unended is on air.
    fn switch(&mut self, at: u64) {
        let started = |row: &Row| matches!(row.state, State::OnAir | State::Covered);
        let places = self.active.clone().into_iter();
        let places: Vec<usize> = places.filter(|place| started(&self.rows[*place])).collect();
        let top = places
            .iter()
            .max_by_key(|place| self.rows[**place].asked.access);
        let top = top.copied();
        for place in places {
            let on_air = Some(place) == top;
            let state = [State::Covered, State::OnAir][usize::from(on_air)];
            self.rows[place].become_state(state, at);
        }
    }

    /// The output channel between two instants: who was on air, in order; what is left is the
    /// primary channel's.
    pub fn output(&self, from: u64, to: u64) -> Vec<(Span, Option<usize>)> {
        let mut air: Vec<(Span, usize)> = Vec::new();
        for (place, row) in self.rows.iter().enumerate() {
            let own = row.spans.iter().filter(|s| s.state == State::OnAir);
            air.extend(own.map(|span| (*span, place)));
        }
        air.sort_by_key(|(span, _)| span.from);
        let (mut lane, mut at) = (Vec::new(), from);
        let primary = |from, to| Span {
            state: State::None,
            from,
            to,
        };
        for (mut span, place) in air {
            (span.from, span.to) = (span.from.max(at), span.to.min(to));
            if span.from >= span.to {
                continue;
            }
            if span.from > at {
                lane.push((primary(at, span.from), None));
            }
            at = span.to;
            lane.push((span, Some(place)));
        }
        if to > at {
            lane.push((primary(at, to), None));
        }
        lane
    }
}

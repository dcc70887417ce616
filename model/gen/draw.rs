//! What a stream of card input is drawn with: random numbers, requests, and a second program of its
//! own at hand, which is asked for the present state, so that the episodes can aim.

pub use crate::gen::data::{Ask, TOP};
pub use crate::gen::rng::Rng;
use crate::people::card::{self, Call};
use crate::people::scenario::message;
use crate::rules::{Session, Splicer, State, MICROSECOND, NONE, SECOND};
use rules::calls;
use rules::lately::{self, KEPT};
use rules::right::RULES;
use rules::rolling;
use rules::state::{By, Rules};
use std::cell::Cell;

pub struct Gen {
    pub rng: Rng,
    pub model: Splicer,
    pub bytes: Vec<u8>,
    pub calls: u64,
    /// The good calls among them, and the bytes of their records (02, CR 12).
    pub kept: u64,
    pub kept_bytes: usize,
    /// The stream's step of time in microseconds.
    pub unit: u64,
    /// The stream plays near the top of the range and must not run against it soon.
    pub at_the_top: bool,
    /// Of a rolling card's stream: its counter and its calls.
    pub rolling: Option<Box<Rolls>>,
}

/// What a rolling stream is drawn with beside `Gen`.
pub struct Rolls {
    /// The last reading, once the instant was given.
    pub last: Option<u32>,
    pub calls: Vec<rolling::Call>,
    /// Every reading is at a whole microsecond.
    pub whole: bool,
    /// The instant is not given yet: a time is a reading before it.
    pub held_off: bool,
    /// How a plain call becomes this card's.
    pub call: fn(&mut Gen, Call),
}

thread_local! {
    static LAST_DROPPED: Cell<Option<(u8, u32)>> = const { Cell::new(None) };
}

/// A splicer by the right rules; whose end was dropped last from those kept (02, CR 8) is noted.
fn noted() -> Splicer {
    static NOTED: Rules = Rules { remember, ..RULES };
    fn remember(s: &mut Splicer, session: &Session, by: By, result: u16, played: u32) {
        if s.ended.len() == KEPT {
            LAST_DROPPED.set(Some((s.ended[0].conn, s.ended[0].id)));
        }
        lately::remember(s, session, by, result, played);
    }
    LAST_DROPPED.set(None);
    calls::fresh(&card::channel_name(), &NOTED).0
}

impl Gen {
    /// Whose end was kept and was the last to be dropped, in this stream.
    pub fn last_dropped(&self) -> Option<(u8, u32)> {
        LAST_DROPPED.get()
    }

    pub fn new(rng: Rng) -> Gen {
        Gen { rng, model: noted(), bytes: Vec::new(), calls: 0, kept: 0, kept_bytes: 0, unit: 1, at_the_top: false, rolling: None }
    }

    /// The stream's unit, its connections and its first time.
    pub fn begin(&mut self) {
        let units = [1, 11, 12, 100, 100, 1_000, 100_000, 100_000, 1_000_000, 1_000_000, 1_000_000];
        self.unit = self.rng.pick(&units);
        for conn in 0..4 {
            if self.rng.chance(85) {
                self.ready(conn);
            }
        }
        let past = self.rng.below(2_000_000_000);
        let second = self.rng.pick(&[0, 1, 1_000, 1_000, past, past, past]);
        self.tick_to(second * 1_000_000 + self.rng.pick(&[0, 0, 1, 999_999, 500_000]));
        if self.at_the_top {
            self.unit = self.rng.pick(&[1, 11, 100, 1_000, 10_000]);
            // The longest Duration is 47,721 s.
            self.tick_to(TOP - self.rng.between(1_000, self.rng.pick(&[40_000, 400_000])) * 1_000_000);
        }
    }

    pub fn call(&mut self, call: Call) {
        if let Some(rolls) = &self.rolling {
            return (rolls.call)(self, call);
        }
        let record = card::input_bytes(&call);
        let output = card::make(&mut self.model, &call);
        self.calls += 1;
        if output.first() != Some(&0x45) {
            self.kept += 1;
            self.kept_bytes += record.len();
        }
        self.bytes.extend(record);
    }

    /// Sends a message; the Result fields, which are not read, are drawn at times.
    pub fn send(&mut self, conn: u8, id: u16, data: Vec<u8>) {
        let mut bytes = message(id, data);
        if self.rng.chance(15) {
            let drawn = (self.rng.next() as u32).to_be_bytes();
            bytes[4..8].copy_from_slice(&drawn);
        }
        self.call(Call::Message(conn, bytes));
    }

    /// The clock in microseconds, rounded down on a rolling card.
    pub fn now(&self) -> u64 {
        self.model.clock / MICROSECOND
    }

    pub fn tick_to(&mut self, micros: u64) {
        let time = micros.min(TOP);
        let seconds = (time / 1_000_000) as u32;
        self.call(Call::Tick(seconds, (time % 1_000_000) as u32));
    }

    /// Opens and initialises a connection if need be.
    pub fn ready(&mut self, conn: u8) {
        if !self.model.open[conn as usize] {
            self.call(Call::Open(conn));
        }
        if !self.model.initialised[conn as usize] {
            let data = self.rng.good_init();
            self.send(conn, 0x0001, data);
        }
    }

    /// A GetConfig_Request (02, CR 6).
    pub fn config(&mut self, conn: u8) {
        self.send(conn, 0x000A, Vec::new());
    }

    /// Any of the four connections, made ready.
    pub fn conn(&mut self) -> u8 {
        let conn = self.rng.below(4) as u8;
        self.ready(conn);
        conn
    }

    /// A SessionID that this connection does not hold, from few numbers, so that numbers are
    /// used again and again and by several connections.
    pub fn free_id(&mut self, conn: u8) -> u32 {
        if self.rng.chance(3) {
            let id = self.rng.pick(&[0, 0xFFFF_FFFE, self.rng.next() as u32]);
            if id != NONE && self.model.held(conn, id).is_none() {
                return id;
            }
        }
        loop {
            let id = self.rng.between(1, 60) as u32;
            if self.model.held(conn, id).is_none() {
                return id;
            }
        }
    }

    /// A start in microseconds, at least 3 s ahead, on the grid of the stream's units.
    pub fn ahead(&self, units: u64) -> u64 {
        let first = (self.now() + 3_000_000).div_ceil(self.unit) * self.unit;
        first + units * self.unit
    }

    /// A Duration of about that many units.
    pub fn ticks(&self, units: u64) -> u32 {
        (units * self.unit * 9 / 100).clamp(1, 0xFFFF_FFFF) as u32
    }

    /// A timed request with drawn Duration, AccessType and OverridePlaying.
    pub fn timed(&mut self, conn: u8, at: u64) -> Ask {
        let units = self.rng.between(1, 12);
        let extra = self.rng.pick(&[0, 0, 0, 1, 3]);
        Ask {
            id: self.free_id(conn),
            prior: NONE,
            at,
            duration: self.ticks(units) + extra,
            access: self.rng.below(10) as u8,
            overrides: self.rng.chance(60) as u8,
        }
    }

    pub fn linked(&mut self, conn: u8, prior: u32) -> Ask {
        let mut ask = self.timed(conn, self.rng.pick(&[0, 0, 1_000_000]));
        ask.prior = prior;
        ask
    }

    pub fn ask(&mut self, conn: u8, ask: &Ask) {
        let data = self.rng.splice_data(ask);
        self.send(conn, 0x0007, data);
    }

    /// Links `count` sessions behind `prior`; gives the last one accepted.
    pub fn link(&mut self, conn: u8, prior: u32, count: u64) -> u32 {
        let mut last = prior;
        for _ in 0..count {
            if self.model.held(conn, last).is_none() {
                return last;
            }
            let ask = self.linked(conn, last);
            self.ask(conn, &ask);
            if self.model.held(conn, ask.id).is_some() {
                last = ask.id;
            }
        }
        last
    }

    pub fn abort(&mut self, conn: u8, id: u32) {
        self.send(conn, 0x000E, id.to_be_bytes().to_vec());
    }

    /// An ExtendedData_Request for the default type (02, CR 8).
    pub fn extended(&mut self, conn: u8, id: u32) {
        let data = [id.to_be_bytes(), NONE.to_be_bytes()].concat();
        self.send(conn, 0x0003, data);
    }

    pub fn alive(&mut self, conn: u8) {
        self.send(conn, 0x0005, self.rng.next().to_be_bytes().to_vec());
    }

    /// A held session of this connection (or of any) in one of these states.
    pub fn some(&mut self, conn: Option<u8>, states: &[State]) -> Option<Session> {
        let fits = |s: &&Session| states.contains(&s.state) && conn.is_none_or(|c| s.conn == c);
        let list: Vec<Session> = self.model.sessions.iter().filter(fits).cloned().collect();
        if list.is_empty() {
            return None;
        }
        Some(self.rng.pick(&list))
    }

    /// Ends everything: past the last instant, or by closing.
    pub fn clear(&mut self) {
        let last = self.model.sessions.iter().map(|s| s.end).max().unwrap_or(0);
        let micros = last.div_ceil(MICROSECOND);
        if !self.at_the_top || micros < self.now() + 10_000_000 {
            if micros > self.now() {
                self.tick_to(micros);
            }
            return;
        }
        for conn in 0..4 {
            if self.model.open[conn as usize] {
                self.call(Call::Close(conn));
            }
            self.ready(conn);
        }
    }

    /// The next instant in ninths.
    pub fn next_instant(&self) -> Option<u64> {
        self.model.next_instant(TOP * MICROSECOND)
    }

    /// Ticks near an instant: on it where a microsecond allows it, just before or just after.
    pub fn tick_near(&mut self, instant: u64) {
        let floor = instant / MICROSECOND;
        let before = (instant - 1) / MICROSECOND;
        let after = (instant + 1).div_ceil(MICROSECOND);
        let time = self.rng.pick(&[floor, floor, before, after, floor + 1]);
        self.tick_to(time.max(self.now()));
    }

    pub fn seconds(&self) -> u64 {
        self.model.clock / SECOND
    }
}

#[cfg(test)]
mod tests {
    use super::*;

    #[test]
    fn splitmix64_is_the_known_one() {
        let rng = Rng::new(1_234_567);
        assert_eq!(rng.next(), 6_457_827_717_110_365_317);
        assert_eq!(rng.next(), 3_203_168_211_198_807_973);
    }
}

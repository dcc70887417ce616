//! What is read of a core; and what a driver reads to sleep, the core's `air`, `due` and `sessions` and the second program's, in
//! the same words.

use model::rules;
pub use model::rules::State;
use splicer::{Maps, Refusal, RollingSplicer, Sessions, Splicer, CONNECTIONS, ROWS};

/// All that is read of a core: of the plain card's, and of that behind a rolling counter.
pub trait Core {
    fn waiting(&self) -> [u64; CONNECTIONS];
    fn primary(&self) -> u64;
    fn mux(&self) -> u8;
    fn map<'m>(&self, maps: &Maps<'m>) -> &'m [u8];
    fn ended(&self, rows: &mut [splicer::Row]) -> Result<(), Refusal>;
    fn rows(&self) -> [Option<splicer::Row>; ROWS];
    fn air(&self) -> Option<splicer::Air>;
    fn due(&self) -> Option<splicer::Due>;
    fn sessions(&self) -> Sessions;
}

/// The reads of a card by its own methods, `due` by the one named.
macro_rules! core {
    ($card:ident, $due:ident) => {
        impl Core for $card {
            fn waiting(&self) -> [u64; CONNECTIONS] {
                $card::waiting(self)
            }
            fn primary(&self) -> u64 {
                $card::primary(self)
            }
            fn mux(&self) -> u8 {
                $card::mux(self)
            }
            fn map<'m>(&self, maps: &Maps<'m>) -> &'m [u8] {
                $card::map(self, maps)
            }
            fn ended(&self, rows: &mut [splicer::Row]) -> Result<(), Refusal> {
                $card::ended(self, rows)
            }
            fn rows(&self) -> [Option<splicer::Row>; ROWS] {
                $card::rows(self)
            }
            fn air(&self) -> Option<splicer::Air> {
                $card::air(self)
            }
            fn due(&self) -> Option<splicer::Due> {
                $card::$due(self)
            }
            fn sessions(&self) -> Sessions {
                $card::sessions(self)
            }
        }
    };
}

core!(Splicer, due);
core!(RollingSplicer, due_instant);

/// A session as it is read; of the one on air what asks for its start is not.
#[derive(Clone, Copy, Debug, PartialEq, Eq)]
pub struct Row {
    pub start: u64,
    pub end: u64,
    pub played: u64,
    pub conn: u32,
    pub id: u32,
    pub event: u32,
    pub prior: Option<u32>,
    pub access: u8,
    pub overrides: bool,
    pub mux: u8,
    pub state: State,
}

/// Connection, session, event, AccessType, value, start, end, time on air.
pub type Air = (u32, u32, u32, u8, u8, u64, u64, u64);

/// The instant, and the first tick that reaches it.
pub type Due = (u64, Option<(u32, u32)>);

/// What is read of a splicer.
#[derive(Clone, Debug, Default)]
pub struct Told {
    pub air: Option<Air>,
    pub due: Option<Due>,
    pub sessions: Vec<Row>,
}

impl Told {
    /// Of a core; the rows stay where they are.
    pub fn fill(&mut self, core: &impl Core) {
        self.air = core.air().map(on_air);
        self.due = core.due().map(|due| (due.instant, due.tick));
        self.sessions.clear();
        // not moved into the loop: it is 4 kB
        let mut sessions = core.sessions();
        self.sessions.extend(sessions.by_ref().map(held));
    }

    pub fn model(model: &rules::Splicer) -> Told {
        let sessions = model.sessions().iter().map(shown).collect();
        Told { air: model.air().map(|session| shown(&session).air()), due: model.due(), sessions }
    }

    /// Its kinds, to be counted: with one on air, covered ones, nothing due, an instant that a tick reaches, one that none does.
    pub fn kinds(&self) -> [bool; 5] {
        let tick = self.due.map(|(_, tick)| tick.is_some());
        let covered = self.sessions.iter().any(|session| session.state == State::Covered);
        [self.air.is_some(), covered, tick.is_none(), tick == Some(true), tick == Some(false)]
    }
}

impl Row {
    pub fn air(&self) -> Air {
        (self.conn, self.id, self.event, self.access, self.mux, self.start, self.end, self.played)
    }

    /// In the words of a scenario's reads.
    pub fn session(&self) -> rules::Session {
        let Row { start, end, played, id, event, access, overrides, mux, state, .. } = *self;
        let (conn, prior) = (self.conn as u8, self.prior.unwrap_or(rules::NONE));
        rules::Session { conn, id, prior, start, end, access, overrides, mux, event, state, played, since: 0 }
    }
}

/// The core's one on air.
fn on_air(air: splicer::Air) -> Air {
    let splicer::Air { connection, session, event, access, mux, start, end, played } = air;
    (connection, session, event, access, mux, start, end, played)
}

/// A session of the core.
fn held(s: splicer::Session) -> Row {
    let splicer::Session { start, end, played, event, prior, access, overrides, mux, .. } = s;
    let state = match s.state {
        splicer::State::OnAir => State::OnAir,
        splicer::State::Covered => State::Covered,
        splicer::State::Waiting => State::Waiting,
    };
    Row { start, end, played, conn: s.connection, id: s.session, event, prior, access, overrides, mux, state }
}

/// A session of the second program.
pub fn shown(s: &rules::Session) -> Row {
    Row {
        start: s.start,
        end: s.end,
        played: s.played,
        conn: s.conn.into(),
        id: s.id,
        event: s.event,
        prior: (s.prior != rules::NONE).then_some(s.prior),
        access: s.access,
        overrides: s.overrides,
        mux: s.mux,
        state: s.state,
    }
}

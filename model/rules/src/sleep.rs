//! What a driver reads to sleep until something happens: what is on air, what is due next, and all that is held. The
//! reads refuse nothing and change nothing. All times are in ninths.

use crate::instants::time_on_air;
use crate::state::{Due, Session, Splicer, State};
use crate::times::{wire, HORIZON, MICROSECOND};

/// A session as it is read: its time on air is told up to the clock.
fn told(s: &Splicer, session: &Session) -> Session {
    Session { played: time_on_air(s, session, s.clock), since: s.clock, ..session.clone() }
}

/// "1 and the session on air; or 0".
pub fn air(s: &Splicer) -> Option<Session> {
    s.on_air().map(|session| told(s, session))
}

/// "0: nothing is due. 1: an instant is, but no tick's time reaches it. 2: instant in ninths, and Seconds and
/// MicroSeconds of the first tick that reaches it". A tick's time is a whole microsecond of the time field's range.
pub fn due(s: &Splicer) -> Option<Due> {
    let instant = s.next_instant(u64::MAX)?;
    let first = instant.next_multiple_of(MICROSECOND);
    Some((instant, (first < HORIZON).then(|| wire(first))))
}

/// "all held sessions, [..] the started from the highest AccessType down, then the waiting in order of start". A started
/// one "keeps what was asked" as its prior too.
pub fn sessions(s: &Splicer) -> Vec<Session> {
    let mut all: Vec<Session> = s.sessions.iter().map(|session| told(s, session)).collect();
    all.sort_by_key(|session| match session.state {
        State::Waiting => (1, session.start),
        _ => (0, u64::from(9 - session.access)),
    });
    all
}

//! Mistakes of what a driver reads to sleep.

use rules::rolling::{Rolling, LIMIT};
use rules::sleep;
use rules::state::{Due, Session, Splicer, State};
use rules::times::{wire, HORIZON, MICROSECOND, TICK};

pub fn air_of_the_lowest(s: &Splicer) -> Option<Session> {
    let started = sleep::sessions(s).into_iter().filter(|session| session.state != State::Waiting);
    started.last().map(|session| Session { state: State::OnAir, ..session })
}

/// What is due of these sessions, reached by a tick before this horizon.
pub fn due_of(s: &Splicer, counts: fn(&Session) -> bool, horizon: u64) -> Option<Due> {
    let sessions = s.sessions.iter().filter(|session| counts(session)).cloned().collect();
    let (instant, _) = sleep::due(&Splicer { sessions, ..s.clone() })?;
    let first = instant.next_multiple_of(MICROSECOND);
    Some((instant, (first < horizon).then(|| wire(first))))
}

pub fn sessions_covered_on_air(s: &Splicer) -> Vec<Session> {
    let mut all = sleep::sessions(s);
    all.iter_mut().filter(|session| session.state == State::Covered).for_each(|session| session.state = State::OnAir);
    all
}

/// The ticks to what is due, by these.
pub fn ticks(card: &Rolling, to: fn(u64) -> u64, good: impl Fn(u64) -> bool) -> (bool, u32) {
    let due = card.splicer.due().map(|(instant, _)| to(instant - card.splicer.clock));
    due.filter(|step| good(*step)).map_or((false, LIMIT), |step| (true, step as u32))
}

pub fn up(ninths: u64) -> u64 {
    ninths.div_ceil(TICK)
}

/// Whether a reading so many ticks on is good, by this limit.
pub fn good(card: &Rolling, limit: u32) -> impl Fn(u64) -> bool {
    let (given, clock) = (card.last.is_some(), card.splicer.clock);
    move |step| given && step <= u64::from(limit) && clock + step * TICK < HORIZON
}

pub fn ticks_before_the_instant(card: &Rolling) -> (bool, u32) {
    ticks(card, up, |step| step <= u64::from(LIMIT) && card.splicer.clock + step * TICK < HORIZON)
}

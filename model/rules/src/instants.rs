//! 01, "Instants": starts and ends.

use crate::ends::complete;
use crate::state::{Out, Session, Splicer, State};

/// "A tick works through every start and end not later than its time, in order of time." 02, CR 13: between two of them
/// time passes.
pub fn work_through(s: &mut Splicer, until: u64, out: Out) {
    let mut last = s.clock;
    while let Some(time) = s.next_instant(until) {
        s.pass(last, time);
        s.instant(time, out);
        last = time;
    }
    s.pass(last, until);
}

/// The earliest start of a waiting session or end of a started one, not later than `until`.
pub fn next_instant(s: &Splicer, until: u64) -> Option<u64> {
    let time = |session: &Session| match session.state {
        State::Waiting => session.start,
        _ => session.end,
    };
    s.sessions.iter().map(time).filter(|time| *time <= until).min()
}

/// "At one instant, ends come first, from the highest AccessType down, then the one possible start."
pub fn instant(s: &mut Splicer, time: u64, out: Out) {
    let start = s.waiting_at(time).cloned();
    s.ends(time, out);
    if let Some(session) = start {
        s.start(&session, time, out);
    }
}

/// The ends of one instant. "When the one on air ends, the highest covered session not ending at that instant is on air again".
pub fn ends(s: &mut Splicer, time: u64, out: Out) {
    let ending = s.ending(time);
    for session in &ending {
        s.end(session, time, out);
    }
    for session in &ending {
        s.remove(session);
    }
    s.on_air_again(time);
}

/// "from the highest AccessType down"
pub fn ending(s: &Splicer, time: u64) -> Vec<Session> {
    let now = |session: &&Session| session.state != State::Waiting && session.end == time;
    let mut all: Vec<Session> = s.sessions.iter().filter(now).cloned().collect();
    all.sort_by_key(|session| std::cmp::Reverse(session.access));
    all
}

/// "End: SpliceComplete flag 1; result 100 if it was on air just before the instant, 125 if covered."
pub fn end(s: &mut Splicer, session: &Session, time: u64, out: Out) {
    let result = if session.state == State::OnAir { 100 } else { 125 };
    let time = s.time_on_air(session, time);
    complete(s, session, (1, result), time, out);
}

/// "When the one on air ends, the highest covered session [...] is on air again, without a
/// message. A covered session's end time doesn't move."
pub fn on_air_again(s: &mut Splicer, time: u64) -> bool {
    if s.on_air().is_some() {
        return false;
    }
    let covered = s.sessions.iter_mut().filter(|session| session.state == State::Covered);
    let Some(session) = covered.max_by_key(|session| session.access) else {
        return false;
    };
    session.state = State::OnAir;
    session.since = time;
    true
}

/// "time on air only, summed in ninths"
pub fn time_on_air(_: &Splicer, session: &Session, time: u64) -> u64 {
    match session.state {
        State::OnAir => session.played + (time - session.since),
        _ => session.played,
    }
}

/// "Start: with nothing on air, or with OverridePlaying 1 and AccessType higher than the
/// one on air (which becomes covered), write SpliceComplete flag 0, result 100,
/// PlayedDuration 0, and go on air." 02, CR 4: an equal one on air ends "all before the new start's record".
pub fn start(s: &mut Splicer, session: &Session, time: u64, out: Out) {
    if !s.may_start(session) {
        return s.fail(session, out);
    }
    s.end_equal(session, time, out);
    s.go_on_air(session, time);
    complete(s, session, (0, 100), 0, out);
}

/// "with nothing on air, or with OverridePlaying 1 and AccessType higher"; 02, CR 4: "With the flag at 1, an equal
/// AccessType now wins".
pub fn may_start(s: &Splicer, session: &Session) -> bool {
    match s.on_air() {
        None => true,
        Some(on_air) => session.overrides && session.access >= on_air.access,
    }
}

/// "Otherwise it fails: SpliceComplete flag 0, result 109, PlayedDuration 0, and its waiting followers end."
pub fn fail(s: &mut Splicer, session: &Session, out: Out) {
    complete(s, session, (0, 109), 0, out);
    s.remove(session);
    s.end_followers(session, 109, out);
}

/// 02, CR 4: "at a start the equal one on air ends at once, SpliceComplete flag 1, result
/// 125, and its waiting followers end with Splice_Response 125". "It isn't resumed".
pub fn end_equal(s: &mut Splicer, session: &Session, time: u64, out: Out) {
    let equal = s.on_air().filter(|on_air| on_air.access == session.access).cloned();
    if let Some(old) = equal {
        let time = s.time_on_air(&old, time);
        complete(s, &old, (1, 125), time, out);
        s.remove(&old);
        s.end_followers(&old, 125, out);
    }
}

/// "(which becomes covered) [..] and go on air"
pub fn go_on_air(s: &mut Splicer, session: &Session, time: u64) {
    for other in &mut s.sessions {
        if other.state == State::OnAir {
            other.played += time - other.since;
            other.since = time;
            other.state = State::Covered;
        }
        if other.conn == session.conn && other.id == session.id {
            other.state = State::OnAir;
            other.since = time;
        }
    }
}

/// 02, CR 13: "Primary time is counted [..] as the time in which no session was started and unended": with nothing
/// happening between the two moments, it is the primary channel's if none is on air.
pub fn pass(s: &mut Splicer, from: u64, to: u64) {
    if s.on_air().is_none() {
        s.primary += to - from;
    }
}

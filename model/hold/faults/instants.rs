//! Faults at the instants, in followers, abort and close, and in what is kept of the ended.

use rules::bytes::{Record, Shown, What};
use rules::descriptors::AVERAGE;
use rules::ends::{self, complete};
use rules::state::{By, Ended, Out, Session, Splicer, State};
use rules::{instants, lately};

pub fn start_before_ends(s: &mut Splicer, time: u64, out: Out) {
    if let Some(session) = s.waiting_at(time).cloned() {
        s.start(&session, time, out);
    }
    s.ends(time, out);
}

pub fn covered_end_100(s: &mut Splicer, session: &Session, time: u64, out: Out) {
    let played = s.time_on_air(session, time);
    complete(s, session, (1, 100), played, out);
}

pub fn lowest_on_air_again(s: &mut Splicer, time: u64) -> bool {
    if s.on_air().is_some() {
        return false;
    }
    let covered = s.sessions.iter_mut().filter(|session| session.state == State::Covered);
    let lowest = covered.min_by_key(|session| session.access);
    lowest.map(|session| (session.state, session.since) = (State::OnAir, time)).is_some()
}

pub fn covered_end_moves(s: &mut Splicer, time: u64) -> bool {
    let since: Vec<u64> = s.sessions.iter().map(|session| session.since).collect();
    let again = instants::on_air_again(s, time);
    for (session, since) in s.sessions.iter_mut().zip(since) {
        if again && session.state == State::OnAir {
            session.end += time - since;
        }
    }
    again
}

pub fn equal_ends_behind_start(s: &mut Splicer, session: &Session, time: u64, out: Out) {
    let (first, may) = (out.len(), s.may_start(session));
    instants::start(s, session, time, out);
    if may {
        out[first..].rotate_right(1);
    }
}

pub fn equal_fails_at_start(s: &Splicer, session: &Session) -> bool {
    instants::may_start(s, session) && s.on_air().is_none_or(|on_air| on_air.access != session.access)
}

pub fn equal_starts_without_flag(s: &Splicer, session: &Session) -> bool {
    instants::may_start(s, session) || s.on_air().is_some_and(|on_air| on_air.access == session.access)
}

pub fn equal_covered(_: &mut Splicer, _: &Session, _: u64, _: Out) {}

/// The equal one on air, for a fault in how it ends.
pub fn equal(s: &Splicer, session: &Session) -> Option<Session> {
    s.on_air().filter(|on_air| on_air.access == session.access).cloned()
}

/// It ends with this result and time on air; its followers with this result, if with any.
fn equal_by(s: &mut Splicer, old: &Session, result: u16, played: u64, followers: Option<u16>, out: Out) {
    complete(s, old, (1, result), played, out);
    s.remove(old);
    if let Some(result) = followers {
        s.end_followers(old, result, out);
    }
}

pub fn equal_played_to_its_end(s: &mut Splicer, session: &Session, _: u64, out: Out) {
    if let Some(old) = equal(s, session) {
        let played = s.time_on_air(&old, old.end);
        equal_by(s, &old, 125, played, Some(125), out);
    }
}

pub fn equal_ends_100(s: &mut Splicer, session: &Session, time: u64, out: Out) {
    if let Some(old) = equal(s, session) {
        let played = s.time_on_air(&old, time);
        equal_by(s, &old, 100, played, Some(125), out);
    }
}

pub fn equal_followers_109(s: &mut Splicer, session: &Session, time: u64, out: Out) {
    if let Some(old) = equal(s, session) {
        let played = s.time_on_air(&old, time);
        equal_by(s, &old, 125, played, Some(109), out);
    }
}

pub fn equal_leaves_followers(s: &mut Splicer, session: &Session, time: u64, out: Out) {
    if let Some(old) = equal(s, session) {
        let played = s.time_on_air(&old, time);
        equal_by(s, &old, 125, played, None, out);
    }
}

pub fn equal_resumed(s: &mut Splicer, session: &Session, time: u64, out: Out) {
    let old = equal(s, session);
    instants::end_equal(s, session, time, out);
    s.sessions.extend(old);
}

pub fn mux_lost_at_override(s: &mut Splicer, session: &Session, time: u64) {
    for other in s.sessions.iter_mut().filter(|other| other.state == State::OnAir) {
        other.mux = AVERAGE;
    }
    instants::go_on_air(s, session, time);
}

/// Followers by other links.
pub fn followers_by(s: &Splicer, of: &Session, near: fn(&Session, &Session) -> bool) -> Vec<Session> {
    let (mut found, mut reached, mut next) = (Vec::new(), vec![of.id], 0);
    while next < reached.len() {
        let prior = reached[next];
        for session in s.sessions.iter().filter(|other| near(other, of) && other.prior == prior) {
            if !reached.contains(&session.id) {
                reached.push(session.id);
                found.push(session.clone());
            }
        }
        next += 1;
    }
    found.retain(|session| session.state == State::Waiting);
    found.sort_by_key(|session| session.start);
    found
}

pub fn covered_abort_completes(s: &mut Splicer, session: &Session, out: Out) {
    match session.state {
        State::Covered => {
            let played = s.time_on_air(session, s.clock);
            complete(s, session, (1, 116), played, out);
        }
        _ => ends::aborted_end(s, session, out),
    }
}

pub fn abort_played_to_its_end(s: &mut Splicer, session: &Session, out: Out) {
    match session.state {
        State::OnAir => {
            let played = s.time_on_air(session, session.end);
            complete(s, session, (1, 116), played, out);
        }
        _ => ends::aborted_end(s, session, out),
    }
}

/// The connection's sessions, started and waiting, each in their order.
fn all_of(s: &Splicer, conn: u8) -> (Vec<Session>, Vec<Session>) {
    let own = s.sessions.iter().filter(|session| session.conn == conn).cloned();
    let (mut waiting, mut started): (Vec<Session>, Vec<Session>) = own.partition(|s| s.state == State::Waiting);
    started.sort_by_key(|session| std::cmp::Reverse(session.access));
    waiting.sort_by_key(|session| session.start);
    (started, waiting)
}

pub fn close_waiting_first(s: &mut Splicer, conn: u8, out: Out) {
    let (started, waiting) = all_of(s, conn);
    for session in waiting.iter().chain(&started) {
        s.aborted_end(session, out);
        s.remove(session);
    }
    s.on_air_again(s.clock);
}

pub fn close_by_new_state(s: &mut Splicer, conn: u8, out: Out) {
    let (started, waiting) = all_of(s, conn);
    for session in started.iter().chain(&waiting) {
        let now = s.held(conn, session.id).cloned().unwrap_or(session.clone());
        s.aborted_end(&now, out);
        s.remove(session);
        s.on_air_again(s.clock);
    }
}

pub fn nothing_after_close(s: &mut Splicer, conn: u8, out: Out) {
    let (started, waiting) = all_of(s, conn);
    for session in started.iter().chain(&waiting) {
        s.aborted_end(session, out);
        s.remove(session);
    }
}

pub fn primary_last_stretch(s: &mut Splicer, until: u64, out: Out) {
    let mut last = s.clock;
    while let Some(time) = s.next_instant(until) {
        s.pass(last, time);
        s.instant(time, out);
        last = time;
    }
    if last == s.clock {
        s.pass(last, until);
    }
}

pub fn failed_not_kept(s: &mut Splicer, session: &Session, by: By, result: u16, played: u32) {
    if by != By::Complete(0) {
        lately::remember(s, session, by, result, played);
    }
}

pub fn waited_not_kept(s: &mut Splicer, session: &Session, by: By, result: u16, played: u32) {
    if by != By::Splice || session.state != State::Waiting {
        lately::remember(s, session, by, result, played);
    }
}

/// It is kept, and the oldest of so many dropped.
pub fn keep(s: &mut Splicer, session: &Session, result: u16, played: u32, most: usize) {
    let Session { conn, id, event, .. } = *session;
    s.ended.push(Ended { conn, id, event, result, played });
    if s.ended.len() > most {
        s.ended.remove(0);
    }
}

pub fn sixteen_of_each(s: &mut Splicer, session: &Session, _: By, result: u16, played: u32) {
    let own = |ended: &Ended| ended.conn == session.conn;
    if s.ended.iter().filter(|ended| own(ended)).count() == lately::KEPT {
        s.ended.remove(s.ended.iter().position(own).unwrap_or(0));
    }
    keep(s, session, result, played, usize::MAX);
}

pub fn newest_dropped(s: &mut Splicer, session: &Session, by: By, result: u16, played: u32) {
    if s.ended.len() < lately::KEPT {
        lately::remember(s, session, by, result, played);
    }
}

pub fn empty_descriptor_121(s: &mut Splicer, conn: u8, id: u32, out: Out) {
    lately::extended(s, conn, id, out);
    if let Some(Record { what: What::Extended { shown, .. }, .. }) = out.last_mut() {
        shown.get_or_insert(Shown { event: 0, result: 0, played: 0 });
    }
}

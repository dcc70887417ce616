//! The branches of instants, starts, ends and followers.

use super::floors::{COVERED_FOLLOWERS, DEPTH, EQUAL_FOLLOWERS, FAILED_FOLLOWERS, ON_AIR_FOLLOWERS, TICK_ENDS, WAITING_FOLLOWERS};
use super::notes::{ask, hit, hit_mux, hit_of, with};
use rules::lately::KEPT;
use rules::state::{By, Out, Rules, Session, Splicer, State};
use rules::times::{HORIZON, MICROSECOND, TICK};
use rules::{ends as right, instants, lately};
use std::cmp::Ordering;

/// The last microsecond that the time field can name.
const TOP: u64 = HORIZON - MICROSECOND;

pub const fn seen(rules: Rules) -> Rules {
    Rules {
        work_through,
        instant,
        ends,
        end,
        on_air_again,
        time_on_air,
        start,
        may_start,
        fail,
        end_equal,
        abort,
        end_all_of,
        remember,
        ..rules
    }
}

fn work_through(s: &mut Splicer, until: u64, out: Out) {
    before_tick(s, until);
    with(|watch| watch.instants = 0);
    let (clock, primary, ends) = (s.clock, s.primary, ask(|watch| watch.ends));
    instants::work_through(s, until, out);
    let (instants, ends) = (ask(|watch| watch.instants), ask(|watch| watch.ends) - ends);
    let (all, primary) = (until - clock, s.primary - primary);
    hit(match primary {
        _ if all == 0 => "tick of no time",
        0 => "tick with one on air all the while",
        primary if primary == all => "tick with the primary channel alone",
        _ => "tick with the primary channel and sessions on air",
    });
    if primary > 0 && instants > 0 {
        hit("tick with the primary channel and instants");
    }
    if ends >= 15 {
        hit_of(&TICK_ENDS, ends as usize - 15);
    }
    hit(match instants {
        0 => "tick over no instant",
        1 => "tick over one instant",
        2..=9 => "tick over 2 to 9 instants",
        10..=99 => "tick over 10 to 99 instants",
        _ => "tick over 100 instants or more",
    });
}

/// Where the tick lies among the starts and ends.
fn before_tick(s: &Splicer, until: u64) {
    let time = |session: &Session| match session.state {
        State::Waiting => session.start,
        _ => session.end,
    };
    let times: Vec<u64> = s.sessions.iter().map(time).collect();
    let rows = [
        ("tick to the present time", until == s.clock),
        ("tick exactly on an instant", times.contains(&until)),
        ("tick just before an instant", times.iter().any(|t| *t > until && *t <= until + MICROSECOND)),
        ("tick just after an instant", times.iter().any(|t| *t < until && *t + MICROSECOND >= until)),
        ("tick to the top of the range", until == TOP),
    ];
    rows.into_iter().filter(|(_, is)| *is).for_each(|(name, _)| hit(name));
}

fn instant(s: &mut Splicer, time: u64, out: Out) {
    with(|watch| watch.instants += 1);
    let before = s.on_air().filter(|on_air| on_air.end == time).map(|on_air| on_air.access);
    let ended = s.ending(time).len();
    if let Some(session) = s.waiting_at(time) {
        if session.overrides && before == Some(session.access) && ended > 0 {
            hit("start behind the end of an equal one on air");
        }
        match ended {
            0 => {}
            1 => hit("instant with one end and a start"),
            _ => hit("instant with several ends and a start"),
        }
    }
    instants::instant(s, time, out);
}

fn ends(s: &mut Splicer, time: u64, out: Out) {
    let ending = s.ending(time).len();
    let covered = s.sessions.iter().filter(|session| session.state == State::Covered);
    let skipped = covered.max_by_key(|session| session.access).is_some_and(|session| session.end == time);
    let value = s.mux();
    instants::ends(s, time, out);
    let again = ask(|watch| watch.on_air_again);
    if again && skipped {
        hit("on air again, past one ending at the same instant");
    }
    hit_mux(s, value, "value on air changes by an end");
    if again {
        hit_mux(s, value, "value on air changes by one on air again");
    }
    match ending {
        0 | 1 => {}
        2 => hit("instant with two ends"),
        _ => hit("instant with three ends or more"),
    }
}

fn end(s: &mut Splicer, session: &Session, time: u64, out: Out) {
    hit(["end covered 125", "end on air 100"][usize::from(session.state == State::OnAir)]);
    if session.state == State::OnAir && session.played > 0 {
        hit("end on air after a time covered");
    }
    instants::end(s, session, time, out);
}

fn on_air_again(s: &mut Splicer, time: u64) -> bool {
    let again = instants::on_air_again(s, time);
    with(|watch| watch.on_air_again = again);
    if again {
        hit("on air again");
    }
    again
}

fn time_on_air(s: &Splicer, session: &Session, time: u64) -> u64 {
    let sum = instants::time_on_air(s, session, time);
    if !sum.is_multiple_of(TICK) {
        hit("PlayedDuration rounded down");
    }
    sum
}

fn start(s: &mut Splicer, session: &Session, time: u64, out: Out) {
    if s.on_air().is_some_and(|on_air| on_air.since == time) {
        hit("start against one on air again at the same instant");
    }
    let (value, before) = (s.mux(), s.on_air().map(|on_air| on_air.access));
    let may = instants::may_start(s, session);
    instants::start(s, session, time, out);
    if !may {
        return;
    }
    let by = match before {
        None => "value on air changes by a start",
        Some(access) if access == session.access => "value on air changes by an equal's override",
        Some(_) => "value on air changes by an override",
    };
    hit_mux(s, value, by);
    let depth = s.sessions.iter().filter(|session| session.state != State::Waiting).count();
    hit(DEPTH[depth.clamp(1, 10) - 1]);
}

fn may_start(s: &Splicer, session: &Session) -> bool {
    hit(match s.on_air().map(|on_air| (session.overrides, session.access.cmp(&on_air.access))) {
        None => "start with nothing on air",
        Some((true, Ordering::Greater)) => "start overrides a lower one",
        Some((true, Ordering::Equal)) => "start overrides an equal one",
        Some((true, Ordering::Less)) => "start fails, lower AccessType with override",
        Some((false, Ordering::Greater)) => "start fails, higher AccessType, no override",
        Some((false, Ordering::Equal)) => "start fails, same AccessType, no override",
        Some((false, Ordering::Less)) => "start fails, lower AccessType, no override",
    });
    instants::may_start(s, session)
}

fn fail(s: &mut Splicer, session: &Session, out: Out) {
    hit_of(&FAILED_FOLLOWERS, s.followers(session).len());
    instants::fail(s, session, out);
}

fn end_equal(s: &mut Splicer, session: &Session, time: u64, out: Out) {
    let equal = s.on_air().filter(|on_air| on_air.access == session.access);
    if let Some(old) = equal {
        hit_of(&EQUAL_FOLLOWERS, s.followers(old).len());
        let own = old.conn == session.conn;
        hit(["start over an equal of another's", "start over its own equal"][usize::from(own)]);
        match s.sessions.iter().filter(|other| other.state == State::Covered).count() {
            0 => {}
            9 => hit("start over an equal one, ten deep"),
            _ => hit("start over an equal one above covered ones"),
        }
        let rows = [
            ("start over an equal one that was covered before", old.played > 0),
            ("start over an equal one on air again at the same instant", old.since == time),
            ("start over an equal one that would end past the range", old.end > TOP),
        ];
        rows.into_iter().filter(|(_, is)| *is).for_each(|(name, _)| hit(name));
    }
    instants::end_equal(s, session, time, out);
}

fn abort(s: &mut Splicer, conn: u8, id: u32, out: Out) {
    let Some(session) = s.held(conn, id).cloned() else {
        let elsewhere = s.sessions.iter().any(|session| session.id == id);
        hit(["Abort 121 not held", "Abort 121 held by another connection only"][usize::from(elsewhere)]);
        return right::abort(s, conn, id, out);
    };
    let (name, followers) = match session.state {
        State::OnAir => ("Abort of the one on air", ON_AIR_FOLLOWERS),
        State::Covered => ("Abort of a covered one", COVERED_FOLLOWERS),
        State::Waiting => ("Abort of a waiting one", WAITING_FOLLOWERS),
    };
    hit(name);
    hit_of(&followers, s.followers(&session).len());
    reused(s, &session);
    let value = s.mux();
    right::abort(s, conn, id, out);
    again_after(s, value, "on air again after an abort");
    hit_mux(s, value, "value on air changes by an abort");
}

/// Whether one was on air again behind a call's ends.
fn again_after(s: &Splicer, value: u8, name: &'static str) {
    if ask(|watch| watch.on_air_again) {
        hit(name);
        hit_mux(s, value, "value on air changes by one on air again");
    }
}

/// The number of the aborted session is also the PriorSession of a started one, which has
/// waiting followers of its own: they must not end.
fn reused(s: &Splicer, session: &Session) {
    let named = |other: &&Session| other.state != State::Waiting && other.conn == session.conn && other.prior == session.id;
    if s.sessions.iter().filter(named).any(|other| !s.followers(other).is_empty()) {
        hit("Abort of a reused number that a started PriorSession names");
    }
}

fn end_all_of(s: &mut Splicer, conn: u8, out: Out) {
    let own = s.sessions.iter().filter(|session| session.conn == conn);
    let (waiting, started): (Vec<&Session>, Vec<&Session>) = own.partition(|s| s.state == State::Waiting);
    let on_air = started.iter().any(|session| session.state == State::OnAir);
    hit(match (started.len(), on_air) {
        (0, _) => "Close with nothing started",
        (_, true) => "Close with the one on air",
        _ => "Close with covered ones only",
    });
    if started.len() > 1 && on_air {
        hit("Close with on air and covered");
    }
    hit(match waiting.len() {
        0 => "Close with none waiting",
        1 => "Close with one waiting",
        2..=9 => "Close with 2 to 9 waiting",
        _ => "Close with 10 waiting or more",
    });
    let value = s.mux();
    right::end_all_of(s, conn, out);
    again_after(s, value, "on air again after a close");
    hit_mux(s, value, "value on air changes by a close");
}

fn remember(s: &mut Splicer, session: &Session, by: By, result: u16, played: u32) {
    hit(match (by, result, session.state) {
        (By::Complete(0), ..) => "ended: a failed start, 109",
        (By::Complete(_), 100, _) => "ended: on air at its end, 100",
        (By::Complete(_), 116, _) => "ended: on air, aborted or closed, 116",
        (By::Complete(_), _, State::OnAir) => "ended: on air, by an equal, 125",
        (By::Complete(_), ..) => "ended: covered at its end, 125",
        (By::Splice, _, State::Covered) => "ended: covered, aborted or closed, 116",
        (By::Splice, 109, _) => "ended: waiting, evicted or a follower, 109",
        (By::Splice, 125, _) => "ended: waiting, a follower, 125",
        (By::Splice, ..) => "ended: waiting, aborted or closed or a follower, 116",
    });
    with(|watch| {
        watch.ends += 1;
        if s.ended.len() == KEPT {
            let dropped = (s.ended[0].conn, s.ended[0].id);
            watch.last_dropped = Some(dropped);
            watch.dropped.insert(dropped);
            watch.counts.hit("an end drops the oldest of 16");
        } else if s.ended.len() + 1 == KEPT {
            watch.counts.hit("an end is the 16th kept");
        }
    });
    lately::remember(s, session, by, result, played);
}

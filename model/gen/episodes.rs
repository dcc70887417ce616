//! What the generator aims at: short episodes of calls.

use crate::gen::draw::{Ask, Gen, TOP};
use crate::people::card::Call;
use crate::rules::{Session, State, MICROSECOND, NONE, SECOND};

pub const HELD: [State; 3] = [State::Waiting, State::OnAir, State::Covered];
pub const STARTED: [State; 2] = [State::OnAir, State::Covered];

/// A plain request, timed or linked, mostly good.
pub fn request(gen: &mut Gen) {
    let conn = gen.conn();
    let prior = gen.some(Some(conn), &HELD);
    let ask = match prior {
        Some(prior) if gen.rng.chance(30) => gen.linked(conn, prior.id),
        _ => gen.timed(conn, gen.ahead(gen.rng.between(0, 40))),
    };
    gen.ask(conn, &ask);
}

pub fn chain(gen: &mut Gen) {
    let conn = gen.conn();
    let count = gen.rng.between(1, 6);
    match gen.some(Some(conn), &HELD) {
        Some(prior) if gen.rng.chance(50) => {
            gen.link(conn, prior.id, count);
        }
        _ => {
            let ask = gen.timed(conn, gen.ahead(gen.rng.between(0, 20)));
            gen.ask(conn, &ask);
            gen.link(conn, ask.id, count);
        }
    }
}

/// An AccessType lower than, equal to or higher than this one.
pub fn related(gen: &mut Gen, access: u8) -> u8 {
    match gen.rng.below(3) {
        0 if access > 0 => gen.rng.below(u64::from(access)) as u8,
        1 if access < 9 => gen.rng.between(u64::from(access) + 1, 9) as u8,
        _ => access,
    }
}

/// A request with the same start as a waiting session, timed or linked, if one can be made.
pub fn same_start(gen: &mut Gen, other: &Session) -> Option<(u8, Ask)> {
    let timed = other.start.is_multiple_of(MICROSECOND) && other.start / MICROSECOND >= gen.now() + 3_000_000;
    let ends_there = |s: &&Session| s.end == other.start;
    let priors: Vec<Session> = gen.model.sessions.iter().filter(ends_there).cloned().collect();
    if !priors.is_empty() && (!timed || gen.rng.chance(50)) {
        let prior = gen.rng.pick(&priors);
        gen.ready(prior.conn);
        return Some((prior.conn, gen.linked(prior.conn, prior.id)));
    }
    if !timed {
        return None;
    }
    let drawn = gen.rng.below(4) as u8;
    let conn = gen.rng.pick(&[other.conn, drawn, drawn]);
    gen.ready(conn);
    Some((conn, gen.timed(conn, other.start / MICROSECOND)))
}

pub fn collide(gen: &mut Gen) {
    let Some(other) = gen.some(None, &[State::Waiting]) else {
        return request(gen);
    };
    if let Some((conn, mut ask)) = same_start(gen, &other) {
        ask.access = related(gen, other.access);
        gen.ask(conn, &ask);
    }
}

/// Aborts a session in a drawn state, one with followers if there is such a one.
pub fn abort_one(gen: &mut Gen) {
    if gen.rng.chance(10) {
        let conn = gen.conn();
        let other = gen.some(None, &HELD).map_or(NONE, |s| s.id);
        let id = gen.rng.pick(&[other, other, NONE, 61]);
        return gen.abort(conn, id);
    }
    let state = gen.rng.pick(&HELD);
    let mut choice = gen.some(None, &[state]);
    for _ in 0..5 {
        match &choice {
            Some(s) if gen.model.followers(s).is_empty() => choice = gen.some(None, &[state]),
            _ => break,
        }
    }
    if let Some(session) = choice {
        gen.abort(session.conn, session.id);
        if gen.rng.chance(40) {
            gen.alive(session.conn);
        }
    }
}

pub fn close_one(gen: &mut Gen) {
    let with_started = gen.some(None, &STARTED).map(|s| s.conn);
    let drawn = gen.rng.below(4) as u8;
    let conn = match with_started {
        Some(conn) if gen.rng.chance(60) => conn,
        _ => drawn,
    };
    gen.call(Call::Close(conn));
    let other = gen.conn();
    gen.alive(other);
    if gen.rng.chance(80) {
        gen.ready(conn);
    }
}

/// Asks for what ended lately (02, CR 8): numbers that are kept, of its own and of another connection,
/// dropped or never used; those held again, at times, and ended once more.
pub fn lately(gen: &mut Gen) {
    for _ in 0..gen.rng.between(1, 4) {
        let kept: Vec<(u8, u32)> = gen.model.ended.iter().map(|e| (e.conn, e.id)).collect();
        if kept.is_empty() || gen.rng.chance(20) {
            let conn = gen.conn();
            let held = gen.some(Some(conn), &HELD).map_or(7, |s| s.id);
            let free = gen.free_id(conn);
            let id = gen.rng.pick(&[held, held, free, free, NONE]);
            gen.extended(conn, id);
            continue;
        }
        if let (Some((conn, id)), true) = (gen.last_dropped(), gen.rng.chance(15)) {
            gen.ready(conn);
            gen.extended(conn, id);
        }
        let oldest = kept[0];
        let drawn = gen.rng.pick(&kept);
        let (conn, id) = gen.rng.pick(&[oldest, drawn, drawn, drawn, kept[kept.len() - 1]]);
        let conn = gen.rng.pick(&[conn, conn, conn, conn, gen.rng.below(4) as u8]);
        gen.ready(conn);
        gen.extended(conn, id);
        if gen.rng.chance(25) {
            again(gen, conn, id);
        }
    }
}

/// A number used again: asked for while it is held, and behind its next end.
fn again(gen: &mut Gen, conn: u8, id: u32) {
    let mut ask = gen.timed(conn, gen.ahead(gen.rng.between(0, 40)));
    ask.id = id;
    gen.ask(conn, &ask);
    gen.extended(conn, id);
    if gen.rng.chance(60) {
        gen.abort(conn, id);
        gen.extended(conn, id);
    }
}

/// A tick: near the next instant, near a later one, a small step, or over everything.
pub fn step(gen: &mut Gen) {
    let now = gen.now();
    let Some(next) = gen.next_instant() else {
        return gen.tick_to(now + gen.rng.between(1, 5_000_000));
    };
    match gen.rng.below(12) {
        0..=4 => gen.tick_near(next),
        5..=7 => {
            let times = instants(gen);
            let later = gen.rng.pick(&times);
            let far = if gen.at_the_top { 10 } else { 100_000 };
            if later.saturating_sub(next) < far * SECOND {
                gen.tick_near(later);
            }
        }
        8 => {
            let ahead = gen.rng.below(3 * gen.unit);
            gen.tick_to(now + ahead);
        }
        9 => gen.tick_to(now),
        10 => gen.tick_to(next / MICROSECOND + 10 * gen.unit),
        _ if gen.rng.chance(25) => gen.clear(),
        _ => gen.tick_near(next),
    }
}

/// All starts and ends to come that a wire time can reach.
fn instants(gen: &Gen) -> Vec<u64> {
    let due = |s: &Session| match s.state {
        State::Waiting => vec![s.start, s.end],
        _ => vec![s.end],
    };
    let all = gen.model.sessions.iter().flat_map(due);
    all.filter(|t| *t <= TOP * MICROSECOND).collect()
}

/// The stream's unit made a whole number of 100 microseconds, which is 9 ticks.
pub fn even(gen: &Gen) -> u64 {
    gen.unit.div_ceil(100) * 100
}

pub fn alive(gen: &mut Gen) {
    let conn = match gen.some(None, &[State::OnAir]) {
        Some(session) if gen.rng.chance(40) => session.conn,
        _ => gen.conn(),
    };
    gen.alive(conn);
    if gen.rng.chance(40) {
        gen.config(conn);
    }
}

/// A number used again while a started session's PriorSession still names it.
pub fn reuse(gen: &mut Gen) {
    gen.clear();
    let conn = gen.conn();
    let mut first = gen.timed(conn, gen.ahead(1));
    first.duration = gen.ticks(2);
    first.access = 8;
    gen.ask(conn, &first);
    let mut second = gen.linked(conn, first.id);
    second.duration = gen.ticks(200);
    gen.ask(conn, &second);
    let last = gen.link(conn, second.id, gen.rng.between(0, 3));
    if let Some(session) = gen.model.held(conn, second.id) {
        let start = session.start.div_ceil(MICROSECOND);
        gen.tick_to(start.max(gen.now()));
    }
    let mut again = gen.timed(conn, gen.ahead(gen.rng.between(0, 20)));
    again.id = first.id;
    again.prior = gen.rng.pick(&[NONE, second.id, last]);
    gen.ask(conn, &again);
    gen.link(conn, again.id, gen.rng.below(3));
    match gen.rng.below(4) {
        0 | 1 => gen.abort(conn, again.id),
        2 => gen.abort(conn, second.id),
        _ => collide(gen),
    }
}

/// A waiting session with followers, evicted by its own or another connection.
pub fn evict(gen: &mut Gen) {
    let conn = gen.conn();
    let mut ask = gen.timed(conn, gen.ahead(gen.rng.between(0, 20)));
    ask.access = gen.rng.below(9) as u8;
    gen.ask(conn, &ask);
    gen.link(conn, ask.id, gen.rng.below(5));
    let Some(first) = gen.model.held(conn, ask.id).cloned() else {
        return;
    };
    // The first of the chain, or one in its middle.
    let mut list = gen.model.followers(&first);
    list.push(first.clone());
    list.push(first);
    let other = gen.rng.pick(&list);
    if let Some((from, mut ask)) = same_start(gen, &other) {
        ask.access = gen.rng.between(u64::from(other.access), 9) as u8;
        gen.ask(from, &ask);
    }
}

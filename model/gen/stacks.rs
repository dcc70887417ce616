//! Episodes of sessions over one another: on air, covered, and starts against them.

use crate::gen::draw::Gen;
use crate::gen::episodes::{alive, close_one, even, related, STARTED};
use crate::rules::{MICROSECOND, NONE};

/// Overriding sessions up to ten deep, with ends at one instant, nested, in order of start, in
/// pairs or drawn, and a start at the first end.
pub fn stack(gen: &mut Gen) {
    if gen.rng.chance(75) {
        gen.clear();
    }
    let depth = gen.rng.pick(&[2, 3, 3, 4, 6, 10, 10]);
    let step = even(gen);
    let base = gen.ahead(gen.rng.between(0, 5));
    let last = base + (depth + gen.rng.between(1, 4)) * step;
    let lowest = gen.rng.between(0, 10 - depth);
    let kind = gen.rng.below(6);
    for i in 0..depth {
        let at = base + i * step;
        let end = match kind {
            0 | 1 => last,
            2 => last + (depth - i) * step,
            3 => last + i * step,
            4 => last + i / 2 * step,
            _ => last + gen.rng.below(depth) * step,
        };
        let conn = gen.conn();
        let mut ask = gen.timed(conn, at);
        ask.access = (lowest + i) as u8;
        ask.overrides = 1;
        ask.duration = ((end - at) * 9 / 100) as u32;
        gen.ask(conn, &ask);
    }
    start_at(gen, last);
    walk(gen, base + (depth - 1) * step);
    disturb(gen);
    walk(gen, last);
    disturb(gen);
    walk(gen, last + depth * step);
}

/// A request that starts at this microsecond, at times with followers.
fn start_at(gen: &mut Gen, at: u64) {
    if gen.rng.chance(25) || at < gen.now() + 3_000_000 {
        return;
    }
    let conn = gen.conn();
    let ask = gen.timed(conn, at);
    gen.ask(conn, &ask);
    gen.link(conn, ask.id, gen.rng.below(3));
}

/// Ticks up to a time: at once, or by some steps, at times to just before it first.
fn walk(gen: &mut Gen, to: u64) {
    match gen.rng.below(4) {
        0 => {}
        1 => gen.tick_to((to - 1).max(gen.now())),
        _ => {
            for _ in 0..gen.rng.between(1, 6) {
                match gen.next_instant() {
                    Some(next) if next < to * MICROSECOND => gen.tick_near(next),
                    _ => break,
                }
            }
        }
    }
    gen.tick_to(to.max(gen.now()));
}

/// Something happens to the sessions on the stack.
fn disturb(gen: &mut Gen) {
    for _ in 0..gen.rng.below(4) {
        match gen.rng.below(6) {
            0 | 1 => {
                if let Some(session) = gen.some(None, &STARTED) {
                    gen.abort(session.conn, session.id);
                }
            }
            2 => {
                if let Some(session) = gen.some(None, &STARTED) {
                    gen.link(session.conn, session.id, 2);
                }
            }
            3 if gen.rng.chance(50) => close_one(gen),
            4 => held_number(gen),
            _ => alive(gen),
        }
    }
}

/// A request under a number that is on air or covered, or linked to one of another connection.
fn held_number(gen: &mut Gen) {
    let Some(session) = gen.some(None, &STARTED) else {
        return;
    };
    let conn = gen.conn();
    let mut ask = gen.timed(conn, gen.ahead(50));
    if gen.rng.chance(60) {
        ask.id = session.id;
        return gen.ask(session.conn, &ask);
    }
    ask.prior = session.id;
    gen.ask(conn, &ask);
}

/// One long on air, and starts against it that fail or not, with followers.
pub fn failing(gen: &mut Gen) {
    if gen.rng.chance(60) {
        gen.clear();
    }
    let conn = gen.conn();
    let at = gen.ahead(0);
    let mut long = gen.timed(conn, at);
    long.duration = gen.ticks(40);
    gen.ask(conn, &long);
    for i in 0..gen.rng.between(1, 4) {
        let conn = gen.conn();
        let mut ask = gen.timed(conn, at + (2 + 3 * i) * gen.unit);
        ask.access = related(gen, long.access);
        ask.overrides = gen.rng.below(2) as u8;
        gen.ask(conn, &ask);
        gen.link(conn, ask.id, gen.rng.below(4));
    }
    walk(gen, at + 30 * gen.unit);
}

/// A covered session with followers: aborted, or ended under the other one.
pub fn covered(gen: &mut Gen) {
    if gen.rng.chance(60) {
        gen.clear();
    }
    let conn = gen.conn();
    let at = gen.ahead(0);
    let mut low = gen.timed(conn, at);
    low.access = gen.rng.below(5) as u8;
    low.duration = gen.ticks(10);
    gen.ask(conn, &low);
    let mut high = gen.timed(conn, at + 2 * gen.unit);
    let other = gen.conn();
    high.id = gen.free_id(other);
    high.access = gen.rng.between(5, 9) as u8;
    high.overrides = 1;
    high.duration = gen.ticks(20);
    gen.ask(other, &high);
    let last = gen.link(conn, low.id, gen.rng.below(3));
    gen.tick_to((at + 3 * gen.unit).max(gen.now()));
    gen.link(conn, last, gen.rng.below(3));
    match gen.rng.below(5) {
        0 | 1 => gen.abort(conn, low.id),
        2 => gen.abort(other, high.id),
        3 => close_one(gen),
        _ => {}
    }
    walk(gen, at + 25 * gen.unit);
}

/// Up to ten deep, and then starts with the AccessType of the one on air, which has followers.
pub fn equals(gen: &mut Gen) {
    if gen.rng.chance(60) {
        gen.clear();
    }
    let depth = gen.rng.pick(&[1, 1, 2, 3, 10]);
    let lowest = gen.rng.between(0, 10 - depth);
    let step = even(gen);
    let base = gen.ahead(2);
    let mut top = (0, 0);
    for i in 0..depth {
        let conn = gen.conn();
        let mut ask = gen.timed(conn, base + i * step);
        ask.access = (lowest + i) as u8;
        ask.overrides = 1;
        ask.duration = ((depth + 30) * step * 9 / 100) as u32;
        if gen.at_the_top && gen.rng.chance(30) {
            ask.duration = NONE;
        }
        gen.ask(conn, &ask);
        top = (conn, ask.id);
    }
    gen.link(top.0, top.1, gen.rng.below(4));
    let mut at = base + depth * step;
    for _ in 0..gen.rng.between(1, 3) {
        let conn = gen.rng.pick(&[top.0, gen.model.sessions.len() as u8 % 4]);
        gen.ready(conn);
        let mut ask = gen.timed(conn, at);
        ask.access = (lowest + depth - 1) as u8;
        ask.overrides = gen.rng.chance(85) as u8;
        gen.ask(conn, &ask);
        gen.link(conn, ask.id, gen.rng.below(3));
        at += gen.rng.pick(&[step, 2 * step, 10 * step]);
    }
    walk(gen, at);
    disturb(gen);
}

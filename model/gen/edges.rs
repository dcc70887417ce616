//! Episodes at the edges of the rules: 3 s, a ninth, the shortest and the longest, the range's top, numbers that are wrong.

use crate::gen::draw::{Gen, TOP};
use crate::gen::episodes::HELD;
use crate::rules::{MICROSECOND, NONE};

/// Starts around 3 s after the clock, and long before it.
pub fn late(gen: &mut Gen) {
    let conn = gen.conn();
    let now = gen.now();
    let limit = now + 3_000_000;
    let ask = gen.timed(conn, gen.rng.pick(&[limit, limit, limit - 1, limit - 1, limit + 1, now, now + 1, now / 2, 0]));
    gen.ask(conn, &ask);
}

/// Starts and ends a ninth apart: 100 leaves 1 over whole microseconds of 9 ninths.
pub fn ninth(gen: &mut Gen) {
    let conn = gen.conn();
    let at = gen.ahead(gen.rng.between(0, 10)) + gen.rng.below(20);
    let mut first = gen.timed(conn, at);
    let rest = gen.rng.pick(&[1, 8, 1, 8, 0, 4]);
    first.duration = gen.rng.between(0, 30) as u32 * 9 + rest;
    if first.duration == 0 {
        first.duration = 9;
    }
    gen.ask(conn, &first);
    let Some(session) = gen.model.held(conn, first.id).cloned() else {
        return;
    };
    let mut follower = gen.linked(conn, first.id);
    follower.duration = gen.rng.between(1, 30) as u32;
    gen.ask(conn, &follower);
    let near = gen.rng.pick(&[session.end / MICROSECOND, session.end.div_ceil(MICROSECOND)]);
    let other = gen.conn();
    let mut beside = gen.timed(other, near);
    beside.duration = gen.rng.between(1, 30) as u32;
    gen.ask(other, &beside);
    if gen.rng.chance(60) {
        let time = at + gen.rng.below(3);
        gen.tick_to(time.max(gen.now()));
        for _ in 0..gen.rng.below(6) {
            if let Some(next) = gen.next_instant() {
                gen.tick_near(next);
            }
        }
    }
}

/// The shortest and the longest Duration.
pub fn extreme(gen: &mut Gen) {
    let conn = gen.conn();
    let at = gen.ahead(gen.rng.between(0, 10));
    let mut ask = gen.timed(conn, at);
    ask.duration = gen.rng.pick(&[1, 1, NONE]);
    ask.access = gen.rng.pick(&[0, 0, 1, ask.access]);
    gen.ask(conn, &ask);
    if gen.model.held(conn, ask.id).is_none() {
        return;
    }
    let mut follower = gen.linked(conn, ask.id);
    follower.duration = gen.rng.pick(&[1, 2, NONE]);
    gen.ask(conn, &follower);
    if gen.rng.chance(40) {
        gen.tick_to((at + gen.rng.pick(&[11, 12, 22, 23])).max(gen.now()));
    }
}

/// Requests and ticks at the top of the range.
pub fn top(gen: &mut Gen) {
    let conn = gen.conn();
    let mut ask = gen.timed(conn, gen.rng.pick(&[TOP, TOP, TOP - 1, TOP - 1_000_000]));
    ask.duration = gen.rng.pick(&[1, ask.duration, NONE]);
    gen.ask(conn, &ask);
    gen.link(conn, ask.id, gen.rng.below(4));
    if gen.calls > 200 && gen.rng.chance(2) {
        let time = gen.rng.pick(&[TOP, TOP - 1, TOP - 3_000_000]);
        gen.tick_to(time.max(gen.now()));
    }
}

/// SessionIDs and PriorSessions that give 121.
pub fn wrong_numbers(gen: &mut Gen) {
    let conn = gen.conn();
    let mut ask = gen.timed(conn, gen.ahead(gen.rng.between(0, 20)));
    let state = gen.rng.pick(&HELD);
    match gen.rng.below(7) {
        0 => ask.id = NONE,
        1..=3 => {
            if let Some(own) = gen.some(None, &[state]) {
                gen.ready(own.conn);
                ask.id = own.id;
                return gen.ask(own.conn, &ask);
            }
        }
        4 => ask.prior = gen.free_id(conn),
        5 => ask.prior = ask.id,
        _ => {
            if let Some(other) = gen.some(None, &[state]) {
                ask.prior = other.id;
            }
        }
    }
    gen.ask(conn, &ask);
}

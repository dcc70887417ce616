//! Episodes of the streams that only an engine that remembers needs (02, CR 12): long chains, Init_Requests one after the other,
//! and what was on air and covered.

use crate::gen::draw::{Ask, Gen};
use crate::people::card::Call;
use crate::rules::{State, NONE};

/// Up to twenty linked ones; the first of them, or one of the middle, ends, or all start one after the other.
pub fn long_chain(gen: &mut Gen) {
    if gen.rng.chance(70) {
        gen.clear();
    }
    let conn = gen.conn();
    let at = gen.ahead(30);
    let mut head = gen.timed(conn, at);
    head.access = 4;
    gen.ask(conn, &head);
    gen.link(conn, head.id, gen.rng.between(3, 19));
    let other = gen.conn();
    broken(gen, conn, &head, other);
    if gen.rng.chance(80) {
        gen.tick_to(at + 2);
        gen.alive(other);
    }
    if gen.rng.chance(50) {
        gen.clear();
    }
}

/// The head of a chain is aborted or evicted, fails at its start, is ended by an equal one's start or closed; or one of
/// the middle is aborted; or nothing is done.
fn broken(gen: &mut Gen, conn: u8, head: &Ask, other: u8) {
    let mut ask = gen.timed(other, head.at);
    ask.access = gen.rng.pick(&[4, 5, 9]);
    ask.overrides = 1;
    match gen.rng.below(7) {
        0 => return gen.abort(conn, head.id),
        1 => {
            let middle = gen.some(Some(conn), &[State::Waiting]);
            return gen.abort(conn, middle.map_or(NONE, |s| s.id));
        }
        2 => return gen.call(Call::Close(conn)),
        3 => return,
        // on air when it starts
        4 => {
            ask.at = (head.at - gen.unit).max(gen.now() + 3_000_000);
            ask.duration = gen.ticks(9);
            ask.access = 9;
        }
        // starts when it is on air
        5 => ask.at += 1,
        // evicts it
        _ => {}
    }
    gen.ask(other, &ask);
}

pub fn inits(gen: &mut Gen) {
    let conn = gen.conn();
    for _ in 0..gen.rng.between(1, 5) {
        let mut data = gen.rng.good_init();
        match gen.rng.below(6) {
            0 => data[1] = 3,
            1 => data[2] = b'X',
            2 => data.truncate(67),
            _ => {}
        }
        gen.send(conn, 0x0001, data);
        gen.config(conn);
    }
    if gen.rng.chance(50) {
        gen.call(Call::Close(conn));
        if gen.rng.chance(50) {
            gen.call(Call::Open(conn));
            gen.config(conn);
        }
        gen.ready(conn);
        gen.config(conn);
    }
    let other = gen.conn();
    gen.config(other);
}

/// One that was on air for a while and is covered, at times by one of its own connection: aborted, or closed, and asked for.
pub fn played(gen: &mut Gen) {
    gen.clear();
    let (conn, drawn) = (gen.conn(), gen.conn());
    let other = gen.rng.pick(&[conn, drawn]);
    let at = gen.ahead(1);
    let mut low = gen.timed(conn, at);
    (low.access, low.duration) = (gen.rng.below(5) as u8, gen.ticks(40) + 90);
    gen.ask(conn, &low);
    let mut high = gen.timed(other, at + 10 * gen.unit + 100);
    (high.id, high.access, high.overrides) = (low.id ^ 1, 7, 1);
    gen.ask(other, &high);
    let time = at + 10 * gen.unit + 100 + gen.rng.below(2);
    gen.tick_to(time);
    match gen.rng.below(3) {
        0 | 1 => gen.abort(conn, low.id),
        _ => {
            gen.call(Call::Close(conn));
            gen.ready(conn);
        }
    }
    gen.extended(conn, low.id);
    gen.ready(other);
    gen.extended(other, high.id);
}

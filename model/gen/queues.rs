//! Episodes of full queues: many that wait, on one connection and on all.

use crate::gen::draw::Gen;
use crate::gen::episodes::{abort_one, collide, even, lately, related, request, same_start};
use crate::people::card::Call;
use crate::rules::{Session, State, MICROSECOND};

/// 15, 16, 17 or 20 ends by one close or one tick, and who is kept of them.
pub fn many_ends(gen: &mut Gen) {
    if gen.rng.chance(70) {
        gen.clear();
    }
    let conn = gen.conn();
    let from = gen.ahead(5);
    let count = gen.rng.pick(&[14, 15, 15, 16, 16, 17, 17, 20]);
    let at = fill_to(gen, conn, count, from);
    let before: Vec<u32> = gen.model.sessions.iter().map(|s| s.id).collect();
    if gen.rng.chance(50) {
        gen.call(Call::Close(conn));
        gen.ready(conn);
    } else {
        gen.tick_to(at + 2 * even(gen));
    }
    for _ in 0..gen.rng.between(1, 4) {
        if !before.is_empty() {
            gen.extended(conn, gen.rng.pick(&before));
        }
    }
    lately(gen);
}

/// Brings a connection's waiting sessions to `count` with short sessions of their own.
pub fn fill_to(gen: &mut Gen, conn: u8, count: usize, from: u64) -> u64 {
    gen.ready(conn);
    let step = even(gen);
    let mut at = from;
    for _ in 0..30 {
        if gen.model.waiting_counts()[conn as usize] >= count {
            break;
        }
        let mut ask = gen.timed(conn, at);
        ask.duration = (step * 9 / 200) as u32;
        gen.ask(conn, &ask);
        at += step;
    }
    at
}

pub fn fill(gen: &mut Gen) {
    let conn = gen.conn();
    let from = gen.ahead(50);
    let count = gen.rng.pick(&[10, 19, 20, 20, 20]);
    let at = fill_to(gen, conn, count, from);
    one_more(gen, conn, at);
    if let Some(own) = gen.some(Some(conn), &[State::Waiting]) {
        // Full and colliding: 109 goes first; full and evicting: the eviction makes no room.
        if let Some((from, mut ask)) = same_start(gen, &own) {
            ask.access = related(gen, own.access);
            gen.ask(from, &ask);
        }
    }
    if gen.rng.chance(50) {
        abort_one(gen);
        one_more(gen, conn, at + even(gen));
    }
}

fn one_more(gen: &mut Gen, conn: u8, at: u64) {
    let ask = gen.timed(conn, at);
    gen.ask(conn, &ask);
}

/// All four connections up to the sum 64, each asking once more, and often one tick over it all.
pub fn fill_all(gen: &mut Gen) {
    gen.clear();
    let sets = [
        [20, 20, 14, 10],
        [20, 20, 14, 9],
        [20, 20, 14, 0],
        [16, 16, 16, 16],
        [20, 17, 17, 10],
        [11, 20, 13, 20],
        [19, 15, 20, 10],
        [16, 16, 16, 15],
        [20, 17, 17, 9],
        [20, 20, 10, 13],
    ];
    let set = gen.rng.pick(&sets);
    let turn = gen.rng.below(4) as usize;
    let mut at = gen.ahead(10);
    for (i, count) in set.iter().enumerate() {
        at = fill_to(gen, ((i + turn) % 4) as u8, *count, at);
    }
    if gen.rng.chance(70) {
        in_front(gen);
    }
    for conn in 0..4 {
        at += even(gen);
        one_more(gen, conn, at);
    }
    for _ in 0..gen.rng.below(6) {
        collide(gen);
    }
    if gen.rng.chance(30) {
        abort_one(gen);
        let conn = gen.conn();
        one_more(gen, conn, at + 2 * even(gen));
    }
    if gen.rng.chance(70) {
        gen.tick_to(at + 20 * even(gen));
    }
}

/// Each connection in turn asks for a start before all that wait: with 63 waiting, one place is left.
fn in_front(gen: &mut Gen) {
    let turn = gen.rng.below(4) as u8;
    let units = gen.rng.below(2);
    for i in 0..4 {
        let at = gen.ahead(units + u64::from(i));
        one_more(gen, (i + turn) % 4, at);
    }
}

/// Requests that several checks would refuse: the first of them decides.
pub fn order(gen: &mut Gen) {
    let Some(other) = gen.some(None, &[State::Waiting]) else {
        return request(gen);
    };
    let conn = other.conn;
    gen.ready(conn);
    let mut ask = gen.timed(conn, other.start / MICROSECOND);
    ask.access = other.access;
    match gen.rng.below(6) {
        // b before c and d.
        0 => ask.id = other.id,
        1 => {
            ask.id = other.id;
            ask.at = 0;
        }
        // b before c: a PriorSession that is not held.
        2 => ask.prior = gen.free_id(conn),
        // c before d: the waiting one is less than 3 s ahead.
        3 | 4 => {
            if let Some(next) = gen.next_instant() {
                let near = (next / MICROSECOND).saturating_sub(1_000_000);
                gen.tick_to(near.max(gen.now()));
                if let Some(close) = nearest(gen) {
                    ask.at = close.start / MICROSECOND;
                    ask.access = close.access;
                }
            }
        }
        // d before e, when the queue is full.
        _ => {
            let from = gen.ahead(60);
            fill_to(gen, conn, 20, from);
        }
    }
    gen.ask(conn, &ask);
}

/// The waiting session that starts first.
fn nearest(gen: &Gen) -> Option<Session> {
    let waiting = |s: &&Session| s.state == State::Waiting && s.start.is_multiple_of(MICROSECOND);
    let list = gen.model.sessions.iter().filter(waiting);
    list.min_by_key(|s| s.start).cloned()
}

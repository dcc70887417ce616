//! Faults in the calls and in answering a message.

use rules::answers;
use rules::bytes::{Record, What};
use rules::calls::{self};
use rules::config::{self, nothing};
use rules::requests::SpliceFields;
use rules::splice;
use rules::state::{Ended, First, Maps, Out, Session, Splicer, State};
use rules::times::{ninths, MICROSECOND, NONE};

pub fn clock_before_micros(s: &Splicer, seconds: u32, micros: u32) -> Option<u8> {
    match ninths(seconds, micros) < s.clock {
        true => Some(3),
        false => calls::tick_refused(s, seconds, micros),
    }
}

pub fn present_time_refused(s: &Splicer, seconds: u32, micros: u32) -> Option<u8> {
    let present = (ninths(seconds, micros) == s.clock).then_some(3);
    calls::tick_refused(s, seconds, micros).or(present)
}

pub fn zero_answered_before_init(s: &Splicer, conn: u8, id: u16) -> First {
    match id == 0 && !s.initialised[usize::from(conn)] {
        true => First::General(103),
        false => answers::first_answer(s, conn, id),
    }
}

pub fn failed_init_undoes(s: &mut Splicer, conn: u8, id: u16, data: &[u8], maps: &Maps, out: Out) {
    answers::read_and_obey(s, conn, id, data, maps, out);
    let good = matches!(out.last(), Some(Record { what: What::Init { result: 100, .. }, .. }));
    if id == 0x0001 && !good {
        s.initialised[usize::from(conn)] = false;
    }
}

pub fn alive_own_only(s: &Splicer, conn: u8) -> What {
    match (answers::alive(s, conn), s.on_air().is_some_and(|on_air| on_air.conn != conn)) {
        (What::Alive { result, seconds, micros, .. }, true) => What::Alive { result, state: 1, id: NONE, seconds, micros },
        (right, _) => right,
    }
}

pub fn alive_whole_seconds(s: &Splicer, conn: u8) -> What {
    match answers::alive(s, conn) {
        What::Alive { result, state, id, seconds, .. } => What::Alive { result, state, id, seconds, micros: 0 },
        other => other,
    }
}

pub fn first_hardware_kept(s: &mut Splicer, conn: u8, result: u16, hardware: &[u8]) {
    if !s.initialised[usize::from(conn)] {
        config::keep_hardware(s, conn, result, hardware);
    }
}

pub fn length_left_out(s: &mut Splicer, conn: u8, maps: &Maps, out: Out) {
    config::config(s, conn, maps, out);
    if let Some(Record { what: What::Config { hardware, .. }, .. }) = out.last_mut() {
        hardware.drain(..nothing().len());
    }
}

pub fn refused_kept(s: &mut Splicer, conn: u8, fields: &SpliceFields, out: Out) {
    splice::splice(s, conn, fields, out);
    if let Some(Record { what: What::Splice { result, id }, .. }) = out.last() {
        if *result != 100 {
            s.ended.push(Ended { conn, id: *id, event: fields.event, result: *result, played: 0 });
            let most = s.ended.len().saturating_sub(rules::lately::KEPT);
            s.ended.drain(..most);
        }
    }
}

pub fn evicted_after_answer(s: &mut Splicer, conn: u8, fields: &SpliceFields, out: Out) {
    let before = out.len();
    splice::splice(s, conn, fields, out);
    out[before..].rotate_right(1);
}

pub fn separate_pids_110(s: &Splicer, conn: u8, fields: &SpliceFields) -> u16 {
    match fields.streams {
        Some(_) => 110,
        None => splice::splice_result(s, conn, fields),
    }
}

pub fn collision_before_late(s: &Splicer, conn: u8, fields: &SpliceFields) -> u16 {
    match !s.wrong_number(conn, fields) && s.collides(conn, fields) {
        true => 109,
        false => splice::splice_result(s, conn, fields),
    }
}

pub fn full_before_collision(s: &Splicer, conn: u8, fields: &SpliceFields) -> u16 {
    match splice::splice_result(s, conn, fields) {
        109 if s.queue_full(conn, fields) => 114,
        result => result,
    }
}

pub fn others_numbers_held(s: &Splicer, conn: u8, fields: &SpliceFields) -> bool {
    s.sessions.iter().any(|session| session.id == fields.id) || splice::wrong_number(s, conn, fields)
}

pub fn own_collisions_only(s: &Splicer, conn: u8, fields: &SpliceFields) -> bool {
    let start = s.start_of(conn, fields);
    splice::collides(s, conn, fields) && s.waiting_at(start).is_some_and(|other| other.conn == conn)
}

pub fn collision_in_microseconds(s: &Splicer, conn: u8, fields: &SpliceFields) -> bool {
    let start = s.start_of(conn, fields) / MICROSECOND;
    let wins = |other: &Session| match fields.overrides {
        1 => other.access > fields.access,
        _ => other.access >= fields.access,
    };
    s.waiting().any(|other| other.start / MICROSECOND == start && wins(other))
}

/// Full by these counts, with so many places for one and so many reserved.
pub fn full_by(counts: [usize; 4], conn: u8, most: usize, reserved: usize) -> bool {
    let own = counts[usize::from(conn)];
    let sum: usize = counts.iter().map(|count| (*count).max(10)).sum();
    own >= most || (own >= reserved && sum >= 64)
}

pub fn counted_after_eviction(s: &Splicer, conn: u8, fields: &SpliceFields) -> bool {
    let mut later = s.clone();
    let start = later.start_of(conn, fields);
    later.evict(start, fields.access, &mut Vec::new());
    full_by(later.waiting_counts(), conn, 20, 10)
}

pub fn one_pool(s: &Splicer, conn: u8, _: &SpliceFields) -> bool {
    let counts = s.waiting_counts();
    counts[usize::from(conn)] == 20 || counts.iter().sum::<usize>() >= 64
}

pub fn linked_start_rounded(s: &Splicer, conn: u8, fields: &SpliceFields) -> u64 {
    let start = splice::start_of(s, conn, fields);
    match fields.prior {
        NONE => start,
        _ => start / MICROSECOND * MICROSECOND,
    }
}

pub fn equal_evicted_125(s: &mut Splicer, start: u64, access: u8, out: Out) {
    match s.waiting_at(start).filter(|old| old.access == access).cloned() {
        None => splice::evict(s, start, access, out),
        Some(old) => {
            rules::ends::splice_response(s, &old, 125, out);
            s.remove(&old);
            s.end_followers(&old, 125, out);
        }
    }
}

pub fn eviction_leaves_followers(s: &mut Splicer, start: u64, _: u8, out: Out) {
    if let Some(old) = s.waiting_at(start).cloned() {
        rules::ends::splice_response(s, &old, 109, out);
        s.remove(&old);
    }
}

pub fn evicted_kept_last(s: &mut Splicer, start: u64, access: u8, out: Out) {
    let before = out.len();
    splice::evict(s, start, access, out);
    let from = s.ended.len().saturating_sub(out.len() - before);
    if from < s.ended.len() {
        s.ended[from..].rotate_left(1);
    }
}

pub fn mux_of_the_lowest(s: &Splicer) -> u8 {
    let started = s.sessions.iter().filter(|session| session.state != State::Waiting);
    started.min_by_key(|session| session.access).map_or(5, |session| session.mux)
}

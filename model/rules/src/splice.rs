//! 01, "Splice: Splice_Response with the first that applies", b to f. 02, CR 1: "From here result 110 is no longer
//! met", so a is gone.

use crate::bytes::{Record, What};
use crate::ends;
use crate::requests::SpliceFields;
use crate::state::{Out, Session, Splicer, State};
use crate::times::{ninths, NONE, SECOND, TICK};

pub fn splice(s: &mut Splicer, conn: u8, fields: &SpliceFields, out: Out) {
    let result = s.splice_result(conn, fields);
    if result == 100 {
        s.accept(conn, fields, out);
    }
    out.push(Record { conn, what: What::Splice { result, id: fields.id } });
}

/// The first that applies.
pub fn splice_result(s: &Splicer, conn: u8, fields: &SpliceFields) -> u16 {
    if s.wrong_number(conn, fields) {
        return 121;
    }
    if s.too_late(conn, fields) {
        return 112;
    }
    if s.collides(conn, fields) {
        return 109;
    }
    if s.queue_full(conn, fields) {
        return 114;
    }
    100
}

/// b. "121: SessionID 0xFFFFFFFF or already held by this connection; or PriorSession neither 0xFFFFFFFF nor held by it."
pub fn wrong_number(s: &Splicer, conn: u8, fields: &SpliceFields) -> bool {
    let held = |id: u32| s.held(conn, id).is_some();
    fields.id == NONE || held(fields.id) || !(fields.prior == NONE || held(fields.prior))
}

/// c. "112: timed, and the start is less than 3 s after the clock."
pub fn too_late(s: &Splicer, conn: u8, fields: &SpliceFields) -> bool {
    fields.prior == NONE && s.start_of(conn, fields) < s.clock + 3 * SECOND
}

/// d. "109: a waiting session of any connection has the same start and the same or a
/// higher AccessType." 02, CR 4: "109 at check d, for equals, only at flag 0".
pub fn collides(s: &Splicer, conn: u8, fields: &SpliceFields) -> bool {
    let start = s.start_of(conn, fields);
    let wins = |other: &Session| match fields.overrides {
        1 => other.access > fields.access,
        _ => other.access >= fields.access,
    };
    s.waiting().any(|other| other.start == start && wins(other))
}

/// e. "114: this connection has 20 waiting; or it has 10 or more and the four counts, each
/// raised to 10 if lower, sum to 64. Counted before f." The request is given for a reading that counts behind f.
pub fn queue_full(s: &Splicer, conn: u8, _: &SpliceFields) -> bool {
    let counts = s.waiting_counts();
    let own = counts[usize::from(conn)];
    let sum: usize = counts.iter().map(|count| (*count).max(10)).sum();
    own >= 20 || (own >= 10 && sum >= 64)
}

/// f. "100. A waiting session with the same start, then lower, is evicted first: it and its waiting followers end (109), written
/// before the 100." "End is start plus Duration." 02, CR 4: "f evicts the waiting equal as it does a lower one".
pub fn accept(s: &mut Splicer, conn: u8, fields: &SpliceFields, out: Out) {
    let start = s.start_of(conn, fields);
    s.evict(start, fields.access, out);
    // 02, CR 11: "the waiting sessions, after any eviction, whose start is later than the new one's"
    s.moved = s.waiting().filter(|other| other.start > start).count();
    s.sessions.push(Session {
        conn,
        id: fields.id,
        prior: fields.prior,
        start,
        end: start + u64::from(fields.duration) * TICK,
        access: fields.access,
        overrides: fields.overrides == 1,
        mux: fields.mux,
        event: fields.event,
        state: State::Waiting,
        played: 0,
        since: 0,
    });
}

/// "A timed start is the request's time; a linked start is the prior session's end."
pub fn start_of(s: &Splicer, conn: u8, fields: &SpliceFields) -> u64 {
    match fields.prior {
        NONE => ninths(fields.seconds, fields.micros),
        prior => s.held(conn, prior).map_or(0, |held| held.end),
    }
}

/// "it and its waiting followers end (109)". The AccessType is given for a reading that ends an equal one otherwise.
pub fn evict(s: &mut Splicer, start: u64, _: u8, out: Out) {
    if let Some(old) = s.waiting_at(start).cloned() {
        ends::splice_response(s, &old, 109, out);
        s.remove(&old);
        s.end_followers(&old, 109, out);
    }
}

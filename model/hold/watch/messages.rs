//! The branches of calls and answers.

use super::floors::{ACCEPTED, CLOSE_ENDS, EQUAL_EVICTED_FOLLOWERS, EVICTED_FOLLOWERS, FULL_BY_20, FULL_BY_64, RESERVED};
use super::notes::{ask, hit, hit_of, with};
use super::reading;
use rules::bytes::{half, Record, What};
use rules::requests::SpliceFields;
use rules::state::{Ended, First, Maps, Out, Rules, Said, Session, Splicer, State, LARGEST_SIZE};
use rules::times::{MICROSECOND, NONE, SECOND};
use rules::{answers, calls, config, config::MOST_SECTION, lately, splice};

pub const fn seen(rules: Rules) -> Rules {
    Rules {
        open,
        close,
        message_with,
        tick,
        first_answer,
        read_and_obey,
        init,
        alive,
        splice,
        wrong_number,
        too_late,
        collides,
        queue_full,
        accept,
        evict,
        config,
        extended,
        ..rules
    }
}

fn open(s: &mut Splicer, conn: u8) -> Result<(), u8> {
    let said = calls::open(s, conn);
    hit(match said {
        Ok(()) => "open good",
        Err(1) => "open 1 connection above 3",
        Err(_) => "open 6 already open",
    });
    if said.is_ok() {
        with(|watch| watch.opened[usize::from(conn)] = watch.ends);
    }
    said
}

fn close(s: &mut Splicer, conn: u8, room: usize) -> Result<Vec<Record>, u8> {
    let said = calls::close(s, conn, room);
    match &said {
        Ok(out) => {
            hit("close good");
            if out.len() >= 15 {
                hit_of(&CLOSE_ENDS, out.len() - 15);
            }
        }
        Err(1) => hit("close 1 connection above 3"),
        Err(2) => hit("close 2 output buffer too small"),
        Err(_) => hit("close 7 not open"),
    }
    said
}

fn message_with(s: &mut Splicer, conn: u8, bytes: &[u8], maps: &Maps, room: usize) -> Result<Said, u8> {
    let said = calls::message_with(s, conn, bytes, maps, room);
    let lent = [maps.primary.len(), maps.insertion.len()];
    if !matches!(said, Err(1 | 2 | 7 | 10)) && lent.contains(&MOST_SECTION) {
        hit("message with a section of 1,024 bytes");
    }
    match said {
        Ok(_) if usize::from(half(bytes, 2)) == LARGEST_SIZE => hit("message good with MessageSize 4,088"),
        Ok(_) => {}
        Err(1) => hit("message 1 connection above 3"),
        Err(2) => hit("message 2 output buffer too small"),
        Err(7) => hit("message 7 not open"),
        Err(10) => {
            let of = ["message 10 the insertion's section above 1,024 bytes", "message 10 the primary's section above 1,024 bytes"];
            hit(of[usize::from(lent[0] > MOST_SECTION)]);
            if bytes.len() < 8 {
                hit("message 10 before 5");
            }
        }
        Err(4) => hit("message 4 MessageSize above 4,088"),
        Err(_) if bytes.len() < 8 => hit("message 5 header cut"),
        Err(_) => hit("message 5 body cut"),
    }
    said
}

fn tick(s: &mut Splicer, seconds: u32, micros: u32, room: usize) -> Result<Vec<Record>, u8> {
    let said = calls::tick(s, seconds, micros, room);
    match said {
        Ok(_) => {}
        Err(2) => hit("tick 2 output buffer too small"),
        Err(8) => hit("tick 8 MicroSeconds above 999,999"),
        Err(_) => hit("tick 3 earlier than the clock"),
    }
    said
}

fn first_answer(s: &Splicer, conn: u8, id: u16) -> First {
    let first = answers::first_answer(s, conn, id);
    let ready = s.initialised[usize::from(conn)];
    match (first, id) {
        (First::Silence, 0) => hit(["answer 1 ID 0 before Init", "answer 1 ID 0 after Init"][usize::from(ready)]),
        (First::Silence, _) => hit("answer 3 ID 0x000D after Init"),
        (First::General(103), _) => {
            hit("answer 2 not initialised 103");
            if id == 0x000D {
                hit("answer 2 ID 0x000D before Init 103");
            }
        }
        (First::General(_), _) => hit("answer 4 unknown ID 120"),
        (First::Read, _) => {}
    }
    first
}

fn read_and_obey(s: &mut Splicer, conn: u8, id: u16, data: &[u8], maps: &Maps, out: Out) {
    let place = usize::from(conn);
    match s.rules.reading.read(id, data) {
        Ok(_) => reading::kept_boundaries(id, data).into_iter().for_each(hit),
        Err(why) => {
            hit(reading::in_full(why, data));
            if id == 0x0007 {
                reading::failed_boundaries(data).into_iter().for_each(hit);
            }
            if id == 0x0001 && s.initialised[place] {
                with(|watch| watch.failed[place] = true);
            }
        }
    }
    answers::read_and_obey(s, conn, id, data, maps, out);
}

fn init(s: &mut Splicer, conn: u8, revision: u16, name: &[u8; 32], hardware: &[u8], out: Out) {
    let place = usize::from(conn);
    let (later, other) = (s.initialised[place], hardware != s.hardware[place]);
    let same = s.same_name(name);
    let (result, branches) = match (revision, same) {
        (2, true) => (100, ["Init 100", "Init 100 when initialised"]),
        (2, false) => (104, ["Init 104", "Init 104 when initialised"]),
        _ => (102, ["Init 102", "Init 102 when initialised"]),
    };
    hit(branches[usize::from(later)]);
    if same && name != &s.name {
        hit("Init name with other bytes behind its end");
    }
    if result == 100 && later && other {
        hit("Init 100 replaces a Hardware_Config");
    }
    with(|watch| match result {
        100 => (watch.failed[place], watch.again[place]) = (false, later && other),
        _ => watch.failed[place] |= later,
    });
    answers::init(s, conn, revision, name, hardware, out);
}

fn alive(s: &Splicer, conn: u8) -> What {
    hit(match s.on_air() {
        Some(on_air) if on_air.conn == conn => "Alive 2 on air of its own",
        Some(_) => "Alive 2 on air of another",
        None => "Alive 1 nothing on air",
    });
    answers::alive(s, conn)
}

fn splice(s: &mut Splicer, conn: u8, fields: &SpliceFields, out: Out) {
    splice::splice(s, conn, fields, out);
    if let (Some(_), Some(Record { what: What::Splice { result, .. }, .. })) = (&fields.streams, out.last()) {
        hit(match result {
            121 => "Splice b 121 with separate PIDs",
            112 => "Splice c 112 with separate PIDs",
            109 => "Splice d 109 with separate PIDs",
            114 => "Splice e 114 with separate PIDs",
            _ if fields.prior == NONE => "Splice f 100 timed, with separate PIDs",
            _ => "Splice f 100 linked, with separate PIDs",
        });
    }
}

fn wrong_number(s: &Splicer, conn: u8, fields: &SpliceFields) -> bool {
    let wrong = splice::wrong_number(s, conn, fields);
    let elsewhere = |id: u32| s.sessions.iter().any(|other| other.conn != conn && other.id == id);
    if fields.id == NONE {
        hit("Splice b 121 SessionID 0xFFFFFFFF");
        return wrong;
    }
    if let Some(held) = s.held(conn, fields.id) {
        hit(match held.state {
            State::Waiting => "Splice b 121 SessionID waiting",
            State::OnAir => "Splice b 121 SessionID on air",
            State::Covered => "Splice b 121 SessionID covered",
        });
        return wrong;
    }
    if elsewhere(fields.id) {
        hit("Splice b SessionID held by another connection only");
    }
    if wrong {
        let names = ["Splice b 121 PriorSession not held", "Splice b 121 PriorSession held by another connection only"];
        hit(names[usize::from(elsewhere(fields.prior))]);
    }
    wrong
}

fn too_late(s: &Splicer, conn: u8, fields: &SpliceFields) -> bool {
    let (start, limit) = (s.start_of(conn, fields), s.clock + 3 * SECOND);
    match (fields.prior, start) {
        (NONE, start) if start == limit => hit("Splice c exactly 3 s"),
        (NONE, start) if start < s.clock => hit("Splice c 112 before the clock"),
        (NONE, start) if start + MICROSECOND == limit => hit("Splice c 112 one microsecond short"),
        (NONE, start) if start < limit => hit("Splice c 112"),
        (NONE, _) => {}
        (_, start) if start < limit => hit("Splice c linked, less than 3 s ahead"),
        _ => {}
    }
    splice::too_late(s, conn, fields)
}

/// Of its own or another's, of the same AccessType or not.
fn whose(other: &Session, conn: u8, access: u8, names: [&'static str; 4]) -> &'static str {
    names[2 * usize::from(other.conn != conn) + usize::from(other.access != access)]
}

fn collides(s: &Splicer, conn: u8, fields: &SpliceFields) -> bool {
    let collides = splice::collides(s, conn, fields);
    if let (true, Some(other)) = (collides, s.waiting_at(s.start_of(conn, fields))) {
        let names = [
            "Splice d 109 same AccessType, own connection",
            "Splice d 109 higher AccessType, own connection",
            "Splice d 109 same AccessType, another connection",
            "Splice d 109 higher AccessType, another connection",
        ];
        hit(whose(other, conn, fields.access, names));
        if fields.prior != NONE {
            hit("Splice d 109 for a linked request");
        }
    }
    collides
}

fn queue_full(s: &Splicer, conn: u8, fields: &SpliceFields) -> bool {
    let full = splice::queue_full(s, conn, fields);
    let (place, counts) = (usize::from(conn), s.waiting_counts());
    let own = counts[place];
    let sum: usize = counts.iter().map(|n| (*n).max(10)).sum();
    if full && own >= 20 {
        hit(FULL_BY_20[place]);
    } else if full {
        hit(FULL_BY_64[place]);
        if own == 10 {
            hit("Splice e 114 by the sum 64 with exactly 10 of its own");
        }
    } else if sum == 64 {
        hit(RESERVED[place]);
    } else if own == 19 {
        hit("Splice e 20th waiting accepted");
    } else if sum == 63 && own >= 10 {
        hit("Splice e sum 63 accepted");
    }
    if full && s.waiting_at(s.start_of(conn, fields)).is_some_and(|other| other.conn == conn) {
        hit("Splice e 114 though an eviction would make room");
    }
    full
}

fn accept(s: &mut Splicer, conn: u8, fields: &SpliceFields, out: Out) {
    let start = s.start_of(conn, fields);
    accepted(s, conn, fields, start);
    let before = s.waiting().filter(|other| other.start > start).count();
    splice::accept(s, conn, fields, out);
    hit(match s.moved {
        0 if s.waiting().count() > 1 => "Splice f moved 0, behind others",
        0 => "Splice f moved 0, none waiting",
        1..=9 => "Splice f moved 1 to 9",
        10..=62 => "Splice f moved 10 to 62",
        _ => "Splice f moved 63",
    });
    if s.moved < before {
        hit("Splice f moved, lowered by an eviction");
    }
    if s.moved > 0 && fields.prior != NONE {
        hit("Splice f moved for a linked request");
    }
}

/// What the accepted one is, before it is in the list.
fn accepted(s: &Splicer, conn: u8, fields: &SpliceFields, start: u64) {
    hit(ACCEPTED[usize::from(conn)]);
    with(|watch| {
        if !watch.accepted.insert((conn, fields.id)) {
            watch.counts.hit("Splice f SessionID used before on this connection");
        }
    });
    if let Some(other) = s.waiting_at(start) {
        let names = [
            "Splice f evicts an equal of its own",
            "Splice f evicts its own",
            "Splice f evicts an equal of another's",
            "Splice f evicts another's",
        ];
        hit(whose(other, conn, fields.access, names));
    }
    let prior = s.held(conn, fields.prior).map(|s| s.state);
    hit(match prior {
        None => "Splice f 100 timed",
        Some(State::Waiting) => "Splice f 100 linked to a waiting one",
        Some(State::OnAir) => "Splice f 100 linked to the one on air",
        Some(State::Covered) => "Splice f 100 linked to a covered one",
    });
    let top = prior.is_none() && (fields.seconds, fields.micros) == (NONE, 999_999);
    let named = |other: &Session| other.state != State::Waiting && other.conn == conn && other.prior == fields.id;
    let rows = [
        ("Splice f Duration 1", fields.duration == 1),
        ("Splice f Duration 0xFFFFFFFF", fields.duration == NONE),
        ("Splice f start at the top of the range", top),
        ("Splice f starts a ninth apart", s.waiting().any(|other| other.start.abs_diff(start) == 1)),
        ("Splice f reused number that a started PriorSession names", s.sessions.iter().any(named)),
    ];
    rows.into_iter().filter(|(_, is)| *is).for_each(|(name, _)| hit(name));
}

fn evict(s: &mut Splicer, start: u64, access: u8, out: Out) {
    if let Some(old) = s.waiting_at(start) {
        hit_of(&[EVICTED_FOLLOWERS, EQUAL_EVICTED_FOLLOWERS][usize::from(old.access == access)], s.followers(old).len());
    }
    splice::evict(s, start, access, out);
}

fn config(s: &mut Splicer, conn: u8, maps: &Maps, out: Out) {
    let several = s.sessions.len() - s.waiting().count() > 1;
    hit(match s.on_air() {
        None if s.sessions.is_empty() => "GetConfig 100 with nothing on air",
        None => "GetConfig 100 with nothing on air, some waiting",
        Some(_) if several => "GetConfig 100 with several started",
        Some(on_air) if on_air.conn == conn => "GetConfig 100 with its own on air",
        Some(_) => "GetConfig 100 with another's on air",
    });
    with(|watch| {
        if watch.failed[usize::from(conn)] {
            watch.counts.hit("GetConfig 100 behind a failed later Init");
        }
        if watch.again[usize::from(conn)] {
            watch.counts.hit("GetConfig 100 behind another good Init");
        }
    });
    config::config(s, conn, maps, out);
}

fn extended(s: &mut Splicer, conn: u8, id: u32, out: Out) {
    let held = s.held(conn, id).is_some();
    match s.latest_ended(conn, id) {
        Some(found) => found_ended(s, &found, held),
        None => hit(not_found(s, conn, id, held)),
    }
    lately::extended(s, conn, id, out);
}

fn not_found(s: &Splicer, conn: u8, id: u32, held: bool) -> &'static str {
    if id == NONE {
        return "ExtendedData 121 SessionID 0xFFFFFFFF";
    }
    if held {
        return "ExtendedData 121 held, none ended";
    }
    if s.ended.iter().any(|ended| ended.id == id) {
        return "ExtendedData 121 another connection's only";
    }
    let last = ask(|watch| watch.last_dropped == Some((conn, id)));
    match last || ask(|watch| watch.dropped.contains(&(conn, id))) {
        true if last => "ExtendedData 121 the last one dropped",
        true => "ExtendedData 121 dropped",
        false => "ExtendedData 121 never ended",
    }
}

fn found_ended(s: &Splicer, found: &Ended, held: bool) {
    hit(match (found.result, found.played) {
        (100, _) => "ExtendedData 100 of a 100",
        (109, _) => "ExtendedData 100 of a 109",
        (116, 0) => "ExtendedData 100 of a 116, played 0",
        (116, _) => "ExtendedData 100 of a 116, played some",
        (_, 0) => "ExtendedData 100 of a 125, played 0",
        _ => "ExtendedData 100 of a 125, played some",
    });
    let own = |ended: &Ended| ended.id == found.id && ended.conn == found.conn;
    let place = s.ended.iter().rposition(own).unwrap_or(0);
    let elsewhere = s.ended.iter().any(|ended| ended.id == found.id && ended.conn != found.conn);
    let rows = [
        ("ExtendedData 100 of a number that ended twice", s.ended.iter().filter(|e| own(e)).count() > 1),
        ("ExtendedData 100 of a number held again", held),
        ("ExtendedData 100 from before its connection was opened again", ask(|watch| watch.reopened(s, place, found))),
        ("ExtendedData 100 of a number that ended on two connections", elsewhere),
        // by the place of the one that is shown, if an older one is equal to it in every number
        ("ExtendedData 100 of the oldest of 16", s.ended.len() == lately::KEPT && place == 0),
    ];
    rows.into_iter().filter(|(_, is)| *is).for_each(|(name, _)| hit(name));
}

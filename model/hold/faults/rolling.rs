//! Mistakes of a rolling card (02, CR 9).

use super::{mistakes::mistakes, sleep::*};
use rules::answers;
use rules::bytes::{Record, What};
use rules::ends;
use rules::requests::SpliceFields;
use rules::right::RULES;
use rules::rolling::Counting;
use rules::rolling::{self, Rolling, LIMIT};
use rules::splice;
use rules::state::Rules;
use rules::state::{Splicer, ROOM};
use rules::times::{ninths, wire, HORIZON, MICROSECOND, SECOND, TICK};
use std::sync::OnceLock;

/// The rules that a rolling card goes by.
#[derive(Clone, Copy)]
pub struct Card {
    rules: Rules,
    counting: Counting,
}

mistakes! { Slip, SLIPS, Card, Card { rules: RULES, counting: ::rules::rolling::COUNTING };
    SmallerRefused: "a smaller reading is refused", |r| r.counting.reading = smaller_refused;
    SmallerStays: "a smaller reading is no step", |r| r.counting.step = |last, reading| reading.saturating_sub(last);
    Backwards: "the step is the last reading less this one", |r| r.counting.step = |last, reading| last.wrapping_sub(reading);
    LimitLower: "8,100,000 ticks are too many",
        |r| r.counting.brought = |clock, step| brought_by(clock, step, LIMIT - 1, TICK, HORIZON);
    LimitHigher: "8,100,001 ticks are taken",
        |r| r.counting.brought = |clock, step| brought_by(clock, step, LIMIT + 1, TICK, HORIZON);
    RefusedIsBase: "a refused reading is the next base", |r| r.counting.reading = refused_is_base;
    ShortRoomIsBase: "a reading refused with 2 is the next base", |r| r.counting.reading = short_room_is_base;
    TickOf90: "a tick is 90 ninths", |r| r.counting.brought = |clock, step| brought_by(clock, step, LIMIT, 90, HORIZON);
    TickOf101: "a tick is 101 ninths", |r| r.counting.brought = |clock, step| brought_by(clock, step, LIMIT, 101, HORIZON);
    RoundedDown: "the clock is rounded to a microsecond at each reading", |r| r.counting.brought = rounded_down;
    InstantLeavesDue: "the instant sets the clock and leaves what is due", |r| r.counting.instant = instant_leaves_due;
    SecondInstantTaken: "a second instant is taken", |r| r.counting.instant = second_instant_taken;
    CounterBeforeMicros: "12 before 8", |r| r.counting.instant = counter_before_micros;
    CounterBeforeRoom: "12 before 2", |r| r.counting.instant = counter_before_room;
    FromZero: "a reading before the instant is a step from 0", |r| r.counting.reading = from_zero;
    ReadingForgotten: "the instant's reading is not kept", |r| r.counting.instant = reading_forgotten;
    LastSecondRefused: "the last second is refused",
        |r| r.counting.brought = |clock, step| brought_by(clock, step, LIMIT, TICK, HORIZON - SECOND);
    PastTheLastSecond: "the clock passes the last second",
        |r| r.counting.brought = |clock, step| brought_by(clock, step, LIMIT, TICK, u64::MAX);
    AliveRoundedUp: "Alive shows the next microsecond", |r| r.rules.alive = alive_rounded_up;
    LateInMicroseconds: "check c compares with the clock in whole microseconds",
        |r| r.rules.too_late = late_in_microseconds;
    PlayedToTheMicrosecond: "an abort counts time on air up to the last whole microsecond",
        |r| r.rules.abort = played_to_the_microsecond;
    TicksRoundedDown: "the ticks read are one too few",
        |r| r.counting.due = |card| ticks(card, |ninths| ninths / TICK, good(card, LIMIT));
    TicksBelowTheLimit: "8,100,000 ticks are not read as reached",
        |r| r.counting.due = |card| ticks(card, up, good(card, LIMIT - 1));
    TicksBeforeTheInstant: "ticks are read before the instant is given", |r| r.counting.due = ticks_before_the_instant;
    TicksPastTheLastSecond: "ticks are read to a reading past the last second",
        |r| r.counting.due = |card| ticks(card, up, |step| card.last.is_some() && step <= u64::from(LIMIT));
}

impl Slip {
    pub fn named(name: &str) -> Option<Slip> {
        let mut all = SLIPS.iter().map(|(slip, _)| *slip);
        all.find(|slip| format!("{slip:?}") == name)
    }

    pub fn rules(self) -> &'static Rules {
        &self.made().rules
    }

    pub fn counting(self) -> &'static Counting {
        &self.made().counting
    }
}

type Said = Result<Vec<Record>, u8>;

pub fn smaller_refused(card: &mut Rolling, reading: u32, room: usize) -> Said {
    match room >= ROOM && card.last.is_some_and(|last| reading < last) {
        true => Err(12),
        false => rolling::reading(card, reading, room),
    }
}

/// Where a step brings the clock, by another limit, tick and horizon.
pub fn brought_by(clock: u64, step: u32, limit: u32, tick: u64, horizon: u64) -> Option<u64> {
    let until = clock + u64::from(step) * tick;
    (step <= limit && until < horizon).then_some(until)
}

pub fn rounded_down(clock: u64, step: u32) -> Option<u64> {
    rolling::brought(clock, step).map(|until| (until / MICROSECOND * MICROSECOND).max(clock))
}

pub fn refused_is_base(card: &mut Rolling, reading: u32, room: usize) -> Said {
    let said = rolling::reading(card, reading, room);
    if said == Err(12) && card.last.is_some() {
        card.last = Some(reading);
    }
    said
}

pub fn short_room_is_base(card: &mut Rolling, reading: u32, room: usize) -> Said {
    let said = rolling::reading(card, reading, room);
    if said == Err(2) && card.last.is_some() {
        card.last = Some(reading);
    }
    said
}

pub fn from_zero(card: &mut Rolling, reading: u32, room: usize) -> Said {
    let last = card.last;
    card.last = last.or(Some(0));
    let said = rolling::reading(card, reading, room);
    if said.is_err() {
        card.last = last;
    }
    said
}

pub fn instant_leaves_due(card: &mut Rolling, time: (u32, u32), reading: u32, room: usize) -> Said {
    let before = card.splicer.clone();
    let said = rolling::instant(card, time, reading, room)?;
    if !said.is_empty() {
        card.splicer = Splicer { clock: card.splicer.clock, ..before };
    }
    Ok(Vec::new())
}

pub fn second_instant_taken(card: &mut Rolling, time: (u32, u32), reading: u32, room: usize) -> Said {
    match room >= ROOM && time.1 <= 999_999 {
        true => {
            card.last = Some(reading);
            card.splicer.moved = 0;
            Ok(card.splicer.bring(ninths(time.0, time.1).max(card.splicer.clock)))
        }
        false => rolling::instant(card, time, reading, room),
    }
}

pub fn counter_before_micros(card: &mut Rolling, time: (u32, u32), reading: u32, room: usize) -> Said {
    match room >= ROOM && card.last.is_some() {
        true => Err(12),
        false => rolling::instant(card, time, reading, room),
    }
}

pub fn counter_before_room(card: &mut Rolling, time: (u32, u32), reading: u32, room: usize) -> Said {
    match room < ROOM && card.last.is_some() {
        true => Err(12),
        false => rolling::instant(card, time, reading, room),
    }
}

pub fn reading_forgotten(card: &mut Rolling, time: (u32, u32), _: u32, room: usize) -> Said {
    rolling::instant(card, time, 0, room)
}

pub fn alive_rounded_up(s: &Splicer, conn: u8) -> What {
    let time = wire(s.clock.next_multiple_of(MICROSECOND));
    match answers::alive(s, conn) {
        What::Alive { result, state, id, .. } => What::Alive { result, state, id, seconds: time.0, micros: time.1 },
        other => other,
    }
}

pub fn late_in_microseconds(s: &Splicer, conn: u8, fields: &SpliceFields) -> bool {
    let whole = Splicer { clock: s.clock / MICROSECOND * MICROSECOND, ..s.clone() };
    splice::too_late(&whole, conn, fields)
}

pub fn played_to_the_microsecond(s: &mut Splicer, conn: u8, id: u32, out: &mut Vec<Record>) {
    let clock = s.clock;
    let since = s.on_air().map_or(0, |on_air| on_air.since);
    s.clock = (clock / MICROSECOND * MICROSECOND).max(since);
    ends::abort(s, conn, id, out);
    s.clock = clock;
}

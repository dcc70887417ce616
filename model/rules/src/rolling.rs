//! 02, CR 9: the card without a UTC clock, whose 32-bit counter of 90 kHz ticks rolls over. "Given a UTC instant and a reading
//! once, later readings move the clock on by the difference, taken through the rollover."

use crate::bytes::Record;
use crate::right::RIGHT as RULES;
use crate::state::{Rules, Said, Splicer, ROOM};
use crate::times::{ninths, HORIZON, TICK};
use crate::{calls, card};

/// "a step over 8,100,000 ticks" is refused.
pub const LIMIT: u32 = 8_100_000;
type Told = Result<Vec<Record>, u8>;

/// A call of this card. It has no tick.
#[rustfmt::skip]
#[derive(Clone, Debug, PartialEq, Eq)]
pub enum Call {
    /// Open, close or message.
    Plain(card::Call),
    Instant { seconds: u32, micros: u32, reading: u32 },
    Reading(u32),
}

/// The rules of the counter, by name.
#[derive(Clone, Copy)]
pub struct Counting {
    pub instant: fn(&mut Rolling, (u32, u32), u32, usize) -> Told,
    pub reading: fn(&mut Rolling, u32, usize) -> Told,
    /// The ticks from the last reading to this one.
    pub step: fn(u32, u32) -> u32,
    /// Where such a step brings this clock; none if it is refused.
    pub brought: fn(u64, u32) -> Option<u64>,
    /// What a driver that sleeps reads.
    pub due: fn(&Rolling) -> (bool, u32),
}

pub const COUNTING: Counting = Counting { instant, reading, step, brought, due };

/// A rolling card: a splicer and, once the instant was given, the last reading.
#[derive(Clone)]
pub struct Rolling {
    pub splicer: Splicer,
    pub last: Option<u32>,
    pub counting: &'static Counting,
}

/// "Refusals, on this card after 2: 8 for the given instant; house number 12 [..] for [..] a
/// second instant." What is due until then is worked through, as by a tick.
pub fn instant(card: &mut Rolling, (seconds, micros): (u32, u32), reading: u32, room: usize) -> Told {
    card.splicer.moved = 0;
    if room < ROOM {
        return Err(2);
    }
    if micros > 999_999 {
        return Err(8);
    }
    if card.last.is_some() {
        return Err(12);
    }
    card.last = Some(reading);
    Ok(card.splicer.bring(ninths(seconds, micros)))
}

/// "later readings move the clock on by the difference"; 12 for "a reading before the instant is given".
pub fn reading(card: &mut Rolling, reading: u32, room: usize) -> Told {
    card.splicer.moved = 0;
    if room < ROOM {
        return Err(2);
    }
    let last = card.last.ok_or(12)?;
    let step = (card.counting.step)(last, reading);
    let until = (card.counting.brought)(card.splicer.clock, step).ok_or(12)?;
    card.last = Some(reading);
    Ok(card.splicer.bring(until))
}

/// "taken through the rollover"
pub fn step(last: u32, reading: u32) -> u32 {
    reading.wrapping_sub(last)
}

/// 12 "for a step over 8,100,000 ticks or past the time field's last second".
pub fn brought(clock: u64, step: u32) -> Option<u64> {
    let until = clock + u64::from(step) * TICK;
    (step <= LIMIT && until < HORIZON).then_some(until)
}

/// "1 and the 90 kHz ticks after the last good reading; 0 and 8,100,000, by when the counter must be read anyway; before
/// the instant is given 0 and 8,100,000": told of a reading that is good alone, as the reason in the text has it.
pub fn due(card: &Rolling) -> (bool, u32) {
    let clock = card.splicer.clock;
    let ticks = |(instant, _): (u64, _)| u32::try_from((instant - clock).div_ceil(TICK)).ok();
    let good = |step: &u32| (card.counting.brought)(clock, *step).is_some();
    let due = card.last.and(card.splicer.due()).and_then(ticks).filter(good);
    due.map_or((false, LIMIT), |step| (true, step))
}

impl Rolling {
    pub fn fresh(name: &[u8; 32]) -> (Rolling, Option<u8>) {
        Rolling::fresh_by(name, &RULES, &COUNTING)
    }

    pub fn fresh_by(name: &[u8; 32], rules: &'static Rules, counting: &'static Counting) -> (Rolling, Option<u8>) {
        let (splicer, refused) = calls::fresh(name, rules);
        (Rolling { splicer, last: None, counting }, refused)
    }

    /// Makes a call: its records and the bytes consumed, or its house number.
    pub fn make(&mut self, call: &Call, room: usize) -> Result<Said, u8> {
        let alone = |out: Vec<Record>| (out, 0);
        match call {
            Call::Plain(card::Call::Tick(..)) => panic!("this card has no tick"),
            Call::Plain(call) => card::made(&mut self.splicer, call, room),
            Call::Instant { seconds, micros, reading } => {
                (self.counting.instant)(self, (*seconds, *micros), *reading, room).map(alone)
            }
            Call::Reading(reading) => (self.counting.reading)(self, *reading, room).map(alone),
        }
    }

    /// What the call writes, as the card program would: its records, or 0x45 and the number.
    pub fn shown(&mut self, call: &Call) -> Vec<u8> {
        card::shown(self.make(call, ROOM))
    }
}

//! Streams of a rolling card (02, CR 9): the plain episodes, whose ticks become instants and readings, and those that only this
//! card has.

use crate::gen::draw::{Ask, Gen, Rng, Rolls, TOP};
use crate::gen::themes;
use crate::people::card;
use crate::people::rolling::{Call, Rolling, HORIZON, LIMIT};
use crate::rules::{ninths, Splicer, State, MICROSECOND, NONE, SECOND, TICK};

/// A rolling card's calls, and whether every reading is at a whole microsecond.
pub struct Stream {
    pub calls: Vec<Call>,
    pub whole: bool,
}

/// From this index on streams end behind the last second.
const BEHIND: u64 = 1 << 32;

/// The indices of n streams, and behind them of some that end behind the last second, one for a few dozen.
pub fn indices(n: u64) -> impl Iterator<Item = u64> {
    let more = n.div_ceil(2 * themes::THEMES.len() as u64);
    (0..n).chain(BEHIND..BEHIND + more)
}

/// One stream. The same seed and index give the same on every machine.
pub fn stream(seed: u64, index: u64) -> Stream {
    let mixed = Rng::new(seed ^ 0x9000);
    let rng = Rng::new(mixed.next() ^ index.wrapping_mul(0xD1B5_4A32_D192_ED03));
    let mut gen = Gen::new(rng);
    let themes = themes::THEMES;
    let ends_behind = index >= BEHIND;
    let drawn = themes.iter().find(|theme| ends_behind && theme.at_the_top);
    let theme = drawn.unwrap_or(&themes[(index % themes.len() as u64) as usize]);
    gen.at_the_top = theme.at_the_top;
    let whole = index % 6 == 5;
    gen.rolling = Some(Box::new(Rolls { last: None, calls: Vec::new(), whole, held_off: true, call }));
    begin(&mut gen, theme.favourites, ends_behind);
    if ends_behind {
        past_the_end(&mut gen);
    }
    let length = gen.rng.between(150, 280) + u64::from(ends_behind) * 40;
    while gen.calls < length {
        let list = match gen.rng.below(10) {
            0..=3 => theme.favourites,
            4..=5 => themes::ALL,
            _ => OWN,
        };
        gen.rng.pick(list)(&mut gen);
    }
    if index % 50 == 7 {
        long_run(&mut gen);
    }
    rolled_over(&mut gen);
    at_the_limit(&mut gen);
    let calls = gen.rolling.take().map_or(Vec::new(), |rolls| rolls.calls);
    Stream { calls, whole }
}

/// What only this card has.
const OWN: &[themes::Episode] = &[edges, edges, edges, aimed, aimed, aimed, small, small, late, second, last, on_air];

/// Connections, at times requests at clock 0, and the instant.
fn begin(gen: &mut Gen, favourites: &[themes::Episode], ends_behind: bool) {
    let units = [1, 11, 100, 1_000, 100_000, 1_000_000, 1_000_000];
    gen.unit = gen.rng.pick(&units);
    for conn in 0..4 {
        if gen.rng.chance(85) {
            gen.ready(conn);
        }
    }
    if gen.rng.chance(60) {
        for _ in 0..gen.rng.between(1, 4) {
            gen.rng.pick(favourites)(gen);
        }
    }
    if gen.rng.chance(40) {
        edges(gen);
    }
    let past = gen.rng.below(2_000_000_000) * 1_000_000;
    let near = gen.next_instant().map_or(past, |t| t / MICROSECOND);
    let drawn = gen.rng.below(1_000_000);
    let mut time = gen.rng.pick(&[0, 1_000_000_000, past, past + drawn, near, near + 1, near / 2]);
    if gen.at_the_top {
        let before = if ends_behind { [5, 6, 20, 50, 80] } else { [0, 1, 5, 100, 300] };
        time = TOP - gen.rng.pick(&before) * 1_000_000 - drawn;
    }
    if let Some(rolls) = &mut gen.rolling {
        rolls.held_off = false;
    }
    if gen.rng.chance(10) {
        gen.call(card::Call::Tick(5, gen.rng.pick(&[1_000_000, 0xFFFF_FFFF])));
    }
    gen.tick_to(time);
}

/// A call of a rolling stream. Ticks of the plain episodes become this card's calls.
pub fn call(gen: &mut Gen, call: card::Call) {
    match call {
        card::Call::Tick(seconds, micros) => brought(gen, seconds, micros),
        call => push(gen, Call::Plain(call)),
    }
}

fn push(gen: &mut Gen, call: Call) {
    let Some(rolls) = &mut gen.rolling else {
        return;
    };
    rolls.calls.push(call.clone());
    gen.calls += 1;
    let splicer = std::mem::replace(&mut gen.model, Splicer::fresh(&card::channel_name()).0);
    let mut card = Rolling { splicer, last: rolls.last, counting: &rules::rolling::COUNTING };
    card.shown(&call);
    (gen.model, rolls.last) = (card.splicer, card.last);
}

/// The last reading, once the instant was given, and whether steps keep whole microseconds.
fn state(gen: &Gen) -> (Option<u32>, bool, bool) {
    let rolls = gen.rolling.as_ref();
    let last = rolls.and_then(|rolls| rolls.last);
    let whole = rolls.is_some_and(|rolls| rolls.whole);
    (last, whole, rolls.is_some_and(|rolls| rolls.held_off))
}

/// A step of the counter.
fn step(gen: &mut Gen, ticks: u32) {
    let (last, _, _) = state(gen);
    push(gen, Call::Reading(last.unwrap_or(0).wrapping_add(ticks)));
}

/// In place of a tick to this time: the instant, or readings up to it or a little past it.
fn brought(gen: &mut Gen, seconds: u32, micros: u32) {
    let (last, whole, held_off) = state(gen);
    if held_off {
        let reading = gen.rng.pick(&[0, 1, gen.rng.next() as u32]);
        return push(gen, Call::Reading(reading));
    }
    if last.is_none() || micros > 999_999 {
        // near the rollover, so that it comes in mid-stream
        let far = [10_000_000, 1_000_000][usize::from(gen.at_the_top)];
        let near = 0u32.wrapping_sub(gen.rng.between(1, gen.rng.pick(&[1, 10, far / 10, far, far])) as u32);
        let reading = gen.rng.pick(&[near, near, near, near, near, gen.rng.next() as u32]);
        return push(gen, Call::Instant { seconds, micros, reading });
    }
    let (target, clock) = (ninths(seconds, micros), gen.model.clock);
    if target < clock {
        let back = ((clock - target) / TICK + 1).min(1 << 30) as u32;
        return step(gen, 0u32.wrapping_sub(back));
    }
    let unit = if whole { 9 } else { 1 };
    let mut ticks = (target - clock) / TICK / unit + gen.rng.below(2);
    ticks *= unit;
    for _ in 0..8 {
        if ticks <= u64::from(LIMIT) {
            break;
        }
        step(gen, LIMIT);
        ticks -= u64::from(LIMIT);
    }
    step(gen, ticks.min(u64::from(LIMIT)) as u32);
}

/// Steps around the limit and through the counter, mostly refused.
fn edges(gen: &mut Gen) {
    let (_, whole, _) = state(gen);
    for _ in 0..gen.rng.between(1, 3) {
        let any = [0, 1, LIMIT - 1, LIMIT, LIMIT + 1, 1 << 31, u32::MAX, LIMIT + 2, 1];
        let kept = [0, 9, LIMIT, LIMIT + 1, LIMIT + 2, 1 << 31, u32::MAX];
        let ticks = if whole { gen.rng.pick(&kept) } else { gen.rng.pick(&any) };
        step(gen, ticks);
    }
    let conn = gen.conn();
    gen.alive(conn);
}

/// Small steps, with a look at the clock behind each, or an abort.
fn small(gen: &mut Gen) {
    let (_, whole, _) = state(gen);
    for _ in 0..gen.rng.between(1, 4) {
        let ticks = gen.rng.pick(&[1, 2, 5, 9, 90]);
        step(gen, if whole { ticks * 9 } else { ticks });
        let conn = gen.conn();
        gen.alive(conn);
    }
    if let Some(session) = gen.some(None, &[State::OnAir]) {
        if gen.rng.chance(50) {
            gen.abort(session.conn, session.id);
        }
    }
}

/// A second instant, good or bad by itself; before the first one it is that.
fn second(gen: &mut Gen) {
    let now = gen.seconds() as u32;
    let (last, _, held_off) = state(gen);
    let micros = gen.rng.pick(&[0, 999_999, 1_000_000, 0xFFFF_FFFF]);
    if last.is_none() && (held_off || micros <= 999_999) {
        return;
    }
    let seconds = gen.rng.pick(&[0, now, now.saturating_add(100), u32::MAX]);
    let reading = last.unwrap_or(0).wrapping_add(5);
    push(gen, Call::Instant { seconds, micros, reading });
}

/// A timed request whose start, or end, is a ninth before, on or behind a reading of the counter: its
/// readings are 100 ninths apart, and a start is a whole number of 9.
fn aimed(gen: &mut Gen) {
    let (last, whole, _) = state(gen);
    if last.is_none() {
        return;
    }
    let off = if whole { 1 } else { gen.rng.below(3) };
    let clock = gen.model.clock;
    // the first such start 3 s or more ahead: clock + 100 k + off - 1
    let mut start = clock + 3 * SECOND + off - 1;
    start += (TICK - 3 * SECOND % TICK) % TICK;
    let unit = if whole { 9 * TICK } else { TICK };
    while !start.is_multiple_of(MICROSECOND) || !(start + 1 - off - clock).is_multiple_of(unit) {
        start += TICK;
        if start > clock + 4 * SECOND {
            return;
        }
    }
    let conn = gen.conn();
    let ask = Ask {
        id: gen.free_id(conn),
        prior: NONE,
        at: start / MICROSECOND,
        duration: gen.rng.pick(&[9, 90, 900, 1, 2]),
        access: gen.rng.below(10) as u8,
        overrides: gen.rng.below(2) as u8,
    };
    gen.ask(conn, &ask);
    let ticks = (start + 1 - off).saturating_sub(gen.model.clock) / TICK;
    step(gen, ticks as u32);
    gen.alive(conn);
    // its end is as far from a reading as its start
    let duration = if whole { ask.duration.next_multiple_of(9) } else { ask.duration };
    step(gen, duration);
    if gen.rng.chance(50) {
        step(gen, if whole { 9 } else { 1 });
    }
}

/// A request less than a microsecond short of 3 s, or past it.
fn late(gen: &mut Gen) {
    let (_, whole, _) = state(gen);
    if !whole && gen.model.clock.is_multiple_of(MICROSECOND) {
        step(gen, 1);
    }
    let conn = gen.conn();
    let limit = gen.model.clock + 3 * SECOND;
    let at = limit / MICROSECOND + gen.rng.below(2);
    let ask = gen.timed(conn, at);
    gen.ask(conn, &ask);
}

/// One on air for some ticks, then aborted between two microseconds.
fn on_air(gen: &mut Gen) {
    let (last, whole, _) = state(gen);
    if last.is_none() {
        return;
    }
    let conn = gen.conn();
    let at = gen.ahead(1);
    let mut ask = gen.timed(conn, at);
    ask.access = 9;
    ask.overrides = 1;
    ask.duration = 900_000;
    gen.ask(conn, &ask);
    gen.tick_to(at);
    let ticks = gen.rng.between(1, 30) as u32;
    step(gen, if whole { ticks * 9 } else { ticks });
    gen.abort(conn, ask.id);
}

/// One session alone on air, whose end a step of a good length would reach if time did not end before it.
fn past_the_end(gen: &mut Gen) {
    (0..4).for_each(|conn| gen.call(card::Call::Close(conn)));
    gen.ready(0);
    let at = gen.ahead(0);
    let mut ask = gen.timed(0, at);
    ask.duration = ((HORIZON - at * MICROSECOND) / TICK + gen.rng.between(1, 100_000)) as u32;
    gen.ask(0, &ask);
    gen.tick_to(at);
    step(gen, 9);
    (1..4).for_each(|conn| gen.ready(conn));
}

/// Near the end of time: the last tick before it, and one more.
fn last(gen: &mut Gen) {
    let (given, whole, _) = state(gen);
    let left = (HORIZON - 1 - gen.model.clock) / TICK;
    if given.is_none() || left > 4 * u64::from(LIMIT) {
        return alive(gen);
    }
    let unit = if whole { 9 } else { 1 };
    if left <= u64::from(LIMIT) && gen.rng.chance(30) {
        step(gen, (left / unit * unit) as u32);
        alive(gen);
    }
    let left = (HORIZON - 1 - gen.model.clock) / TICK;
    let over = (left / unit * unit + unit).min(u64::from(LIMIT)) as u32;
    let ticks = gen.rng.pick(&[over, LIMIT]);
    step(gen, ticks);
    alive(gen);
}

fn alive(gen: &mut Gen) {
    let conn = gen.conn();
    gen.alive(conn);
}

/// Readings every 90 s, over one or two rollovers, with requests on the way.
fn long_run(gen: &mut Gen) {
    for turn in 0..gen.rng.between(560, 1_100) {
        step(gen, LIMIT);
        if turn % 40 == 7 {
            on_air(gen);
        }
    }
}

/// If the counter has not rolled over in this stream, it does now, if it is near.
fn rolled_over(gen: &mut Gen) {
    for _ in 0..3 {
        let (last, whole, _) = state(gen);
        let before = 0u32.wrapping_sub(last.unwrap_or(0));
        if before == 0 || before > 3 * LIMIT {
            return;
        }
        let unit = if whole { 9 } else { 1 };
        let ticks = (before / unit * unit + unit).min(LIMIT);
        step(gen, ticks);
        alive(gen);
    }
}

/// One session alone that starts a tick behind the longest step, and then one that starts as far on as a reading may be, or at
/// the range's end.
fn at_the_limit(gen: &mut Gen) {
    (0..4).for_each(|conn| gen.call(card::Call::Close(conn)));
    for ticks in [LIMIT + 1, LIMIT] {
        gen.ready(0);
        let at = (gen.model.clock + u64::from(ticks) * TICK) / MICROSECOND;
        let ask = gen.timed(0, at.min(TOP));
        gen.ask(0, &ask);
        step(gen, 0);
        gen.abort(0, if ticks == LIMIT { NONE } else { ask.id });
    }
    step(gen, LIMIT);
}

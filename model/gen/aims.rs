//! The seeded generator of card input for an engine that only remembers (02, CR 12): streams that aim at where its
//! log is full, by calls and by bytes, and go on behind that.

use crate::gen::chains::{inits, long_chain, played};
use crate::gen::draw::{Gen, Rng};
use crate::gen::filling::{beyond, exactly, full, good, opened, oversize, refused, sized};
use crate::gen::themes::{self, Episode};
use crate::gen::{damage, episodes, queues, stacks};
use crate::people::card::Call;
use crate::people::recall::{LEAST_FREE, LOG, MOST};
use crate::rules::LARGEST_SIZE;

type Aim = fn(&mut Gen);

/// What a stream aims at, in turn.
const AIMS: &[Aim] = &[
    ordinary,
    by_calls,
    |gen| by_bytes(gen, 4_097, true),
    many,
    chains,
    |gen| by_bytes(gen, 4_098, true),
    deep,
    configs,
    both,
    |gen| by_bytes(gen, 4_099, true),
    short,
    small,
    refusals,
    lately,
    near,
    largest,
    |gen| by_bytes(gen, 4_098, false),
    ordinary,
];

/// How many streams have all aims once.
pub const ROUND: u64 = AIMS.len() as u64;

/// One stream. The same seed and index give the same on every machine.
pub fn stream(seed: u64, index: u64) -> Vec<u8> {
    let mixed = Rng::new(seed ^ 0x1200);
    let rng = Rng::new(mixed.next() ^ index.wrapping_mul(0xD1B5_4A32_D192_ED03));
    let mut gen = Gen::new(rng);
    AIMS[(index % ROUND) as usize](&mut gen);
    damage::tail(&mut gen);
    gen.bytes
}

/// Episodes until so many calls are kept or so many bytes.
fn until(gen: &mut Gen, list: &[Episode], kept: u64, bytes: usize) {
    while gen.kept < kept && gen.kept_bytes < bytes && gen.calls < 2_000 {
        gen.rng.pick(list)(gen);
    }
}

/// Plain episodes: a theme's and any others.
fn plain(gen: &mut Gen, kept: u64, bytes: usize) {
    let themes = themes::THEMES;
    let theme = &themes[gen.rng.below(themes.len() as u64) as usize];
    gen.at_the_top = theme.at_the_top;
    gen.begin();
    let list = [theme.favourites, theme.favourites, themes::ALL].concat();
    until(gen, &list, kept, bytes);
}

/// Plain episodes until the log is full, and behind that.
fn ordinary(gen: &mut Gen) {
    plain(gen, MOST as u64, LOG - LEAST_FREE + 1);
    beyond(gen);
}

/// Plain episodes that do not fill it, and an oversize header.
fn short(gen: &mut Gen) {
    let kept = gen.rng.between(20, 140);
    plain(gen, kept, 30_000);
    oversize(gen);
}

/// Up to 255 kept, one at a time, refused ones between; some refused, the 256th, and behind that.
fn by_calls(gen: &mut Gen) {
    let kept = gen.rng.between(80, 160);
    plain(gen, kept, 40_000);
    to_255(gen);
    for _ in 0..gen.rng.between(1, 8) {
        refused(gen);
    }
    good(gen);
    beyond(gen);
}

fn to_255(gen: &mut Gen) {
    while gen.kept + 1 < MOST as u64 {
        match gen.rng.below(5) {
            0 => refused(gen),
            1 => {
                gen.tick_to(gen.now());
            }
            2 if gen.model.open.contains(&true) => {
                let conn = opened(gen);
                gen.alive(conn);
            }
            _ => good(gen),
        }
    }
}

/// So many bytes left, some refused, the largest message or another if it is answered, more until it is full, and behind that.
fn by_bytes(gen: &mut Gen, left: usize, largest: bool) {
    let kept = gen.rng.between(10, 120);
    plain(gen, kept, 30_000);
    let least = (LOG - left - gen.kept_bytes).div_ceil(10 + LARGEST_SIZE) as u64;
    let calls = gen.kept + least + gen.rng.between(1, 20);
    exactly(gen, calls.min(MOST as u64 - 2), LOG - left);
    for _ in 0..gen.rng.between(1, 5) {
        refused(gen);
    }
    let conn = opened(gen);
    while !full(gen) {
        match largest {
            true => sized(gen, conn, LARGEST_SIZE),
            false => good(gen),
        }
    }
    beyond(gen);
}

/// A little more left than must be.
fn near(gen: &mut Gen) {
    let left = gen.rng.between(4_098, 4_160);
    let largest = gen.rng.chance(50);
    by_bytes(gen, left as usize, largest);
}

/// 255 kept and 4,098 bytes left: the largest message is the last.
fn both(gen: &mut Gen) {
    let kept = gen.rng.between(30, 100);
    plain(gen, kept, 30_000);
    exactly(gen, MOST as u64 - 1, LOG - LEAST_FREE);
    for _ in 0..gen.rng.between(1, 5) {
        refused(gen);
    }
    let conn = opened(gen);
    sized(gen, conn, LARGEST_SIZE);
    beyond(gen);
    oversize(gen);
}

/// All places taken, over and over, and one tick over it all.
fn many(gen: &mut Gen) {
    gen.begin();
    until(gen, &[queues::fill_all], 130, LOG / 2);
    if let Some(last) = gen.model.sessions.iter().map(|s| s.end).max() {
        gen.tick_to(last.div_ceil(9));
    }
    let list = [queues::fill_all, queues::many_ends, episodes::collide];
    until(gen, &list, MOST as u64, LOG - LEAST_FREE + 1);
    beyond(gen);
}

/// Long chains of followers, and the head of each ends.
fn chains(gen: &mut Gen) {
    gen.begin();
    let list = [long_chain, long_chain, episodes::evict, stacks::failing];
    until(gen, &list, MOST as u64, LOG - LEAST_FREE + 1);
    beyond(gen);
}

/// Up to ten started, one over the other.
fn deep(gen: &mut Gen) {
    gen.begin();
    let list = [stacks::stack, stacks::stack, stacks::equals, stacks::covered];
    until(gen, &list, MOST as u64, LOG - LEAST_FREE + 1);
    beyond(gen);
}

/// Init_Requests good and failed, one after the other, closes and opens between, and what is kept of them asked for.
fn configs(gen: &mut Gen) {
    gen.begin();
    let list = [inits, inits, damage::config, damage::init, episodes::alive];
    until(gen, &list, MOST as u64, LOG - LEAST_FREE + 1);
    beyond(gen);
}

/// What ended lately, of connections closed and opened again too.
fn lately(gen: &mut Gen) {
    gen.begin();
    let list = [episodes::lately, queues::many_ends, episodes::close_one, played, episodes::request, damage::extended];
    until(gen, &list, MOST as u64, LOG - LEAST_FREE + 1);
    beyond(gen);
}

/// The shortest records: 256 of them leave most of the log free.
fn small(gen: &mut Gen) {
    gen.begin();
    while gen.kept < MOST as u64 {
        let conn = gen.rng.below(4) as u8;
        match gen.rng.below(8) {
            0..=2 => gen.call(Call::Open(conn)),
            3..=4 => gen.call(Call::Close(conn)),
            5 => gen.send(conn, 0x0000, Vec::new()),
            6 => gen.send(conn, 0x000A, Vec::new()),
            _ => {
                gen.tick_to(gen.now() + gen.rng.below(3));
            }
        }
    }
    beyond(gen);
}

/// Hundreds of refused ones, and not so many good ones that it is full.
fn refusals(gen: &mut Gen) {
    let kept = gen.rng.between(40, 150);
    plain(gen, kept, 30_000);
    for _ in 0..3 {
        for _ in 0..gen.rng.between(60, 150) {
            refused(gen);
        }
        good(gen);
        let conn = opened(gen);
        gen.alive(conn);
    }
}

/// The largest messages only: sixteen fill the log.
fn largest(gen: &mut Gen) {
    gen.begin();
    for conn in 0..4 {
        gen.ready(conn);
    }
    while !full(gen) {
        let conn = opened(gen);
        match gen.rng.below(4) {
            0 => damage::largest(gen),
            1 => refused(gen),
            _ => sized(gen, conn, LARGEST_SIZE),
        }
    }
    beyond(gen);
}

#[cfg(test)]
mod tests {
    use super::*;
    use crate::people::recall;

    #[test]
    fn exactly_is_exact() {
        for (kept, bytes) in [(20, 61_438), (255, 61_438), (16, 61_439), (30, 302)] {
            let mut gen = Gen::new(Rng::new(kept));
            gen.call(Call::Open(0));
            exactly(&mut gen, kept, bytes);
            assert_eq!((gen.kept, gen.kept_bytes), (kept, bytes));
            let log = recall::run(&gen.bytes).log;
            assert_eq!(recall::list(&log).used, bytes);
        }
    }

    #[test]
    fn streams_come_to_13_where_they_aim() {
        for index in 0..ROUND {
            // all but short and refusals
            let fills = ![10, 12].contains(&index);
            let run = recall::run(&stream(5, index));
            assert_eq!(run.first_13().is_some(), fills, "stream {index}");
        }
    }
}

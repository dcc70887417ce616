//! Cue calls (02, CR 7) between the plain ones; sections whole, cut and damaged.

use crate::gen::draw::{Gen, Rng, TOP};
use crate::gen::sections::{plainest, section};
use crate::gen::themes;
use crate::people::card;
use crate::people::cue_call::{judged, Comes, Given, HORIZON, WRAP};
use crate::people::driver_call::{Act, Call};
use crate::people::section_bytes::{closed, remade};
use crate::rules::{MICROSECOND, ROOM, TICK};
use rules::sections;

/// One stream. The same seed and index give the same on every machine.
pub fn stream(seed: u64, index: u64) -> Vec<Act> {
    let mixed = Rng::new(seed ^ 0x7000);
    let rng = Rng::new(mixed.next() ^ index.wrapping_mul(0xD1B5_4A32_D192_ED03));
    let mut gen = Gen::new(rng);
    gen.begin();
    let mut list = Vec::new();
    taken(&mut gen, &mut list);
    let length = gen.rng.between(200, 300);
    for _ in 0..length {
        match gen.rng.below(100) {
            0..=3 => connection(&mut gen),
            4..=6 => gen.rng.pick(themes::ALL)(&mut gen),
            _ => {}
        }
        taken(&mut gen, &mut list);
        let given = given(&mut gen.rng);
        let room = gen.rng.below(ROOM as u64) as usize;
        let room = match gen.rng.below(40) {
            0 => ROOM - 1,
            1 => room,
            2 => ROOM + 1,
            _ => ROOM,
        };
        list.push(Act::plain(Call::Cue(given), room));
    }
    list
}

/// The plain calls that the episodes made since.
fn taken(gen: &mut Gen, list: &mut Vec<Act>) {
    let bytes = std::mem::take(&mut gen.bytes);
    let mut at = 0;
    while let Ok((call, length)) = card::next_call(&bytes[at..]) {
        list.push(Act::plain(call.into(), ROOM));
        at += length;
    }
}

/// A connection closed, opened and left so, or made ready.
fn connection(gen: &mut Gen) {
    let conn = gen.rng.below(4) as u8;
    match gen.rng.below(4) {
        0 => gen.call(card::Call::Close(conn)),
        1 => {
            gen.call(card::Call::Close(conn));
            gen.call(card::Call::Open(conn));
        }
        2 => (0..4).for_each(|conn| gen.ready(conn)),
        _ => gen.ready(conn),
    }
}

/// A cue call: a section good or damaged, and a PTS and an instant that are drawn around it.
pub fn given(rng: &mut Rng) -> Given {
    let section = section(rng);
    let cue = cue_of(&section).unwrap_or(rng.below(WRAP));
    let pts = pts(rng, cue);
    let (seconds, micros) = instant(rng, sections::ticks(cue, pts));
    Given { section, pts, seconds, micros }
}

/// A PTS at, around and far from the cue's, and around 2^33.
fn pts(rng: &mut Rng, cue: u64) -> u64 {
    let (far, near) = (rng.below(WRAP), rng.below(100_000_000));
    let turns = WRAP * rng.between(1, 1000);
    let any = rng.next();
    rng.pick(&[
        cue,
        (cue + 1) % WRAP,
        (cue + WRAP - 1) % WRAP,
        (cue + WRAP - near) % WRAP,
        (cue + WRAP - near) % WRAP,
        (cue + WRAP - near) % WRAP,
        (cue + near) % WRAP,
        far,
        far,
        0,
        WRAP - 1,
        WRAP,
        cue + turns,
        (cue + turns).wrapping_add(1),
        any,
        u64::MAX,
    ])
}

/// An instant: any, or one from which so many ticks lead to the end of the range.
fn instant(rng: &mut Rng, ticks: u64) -> (u32, u32) {
    let drawn = rng.below(2_000_000_000) * 1_000_000 + rng.below(1_000_000);
    let off = rng.below(40);
    let last = (HORIZON - TICK * ticks) / MICROSECOND;
    let time = match rng.below(20) {
        0 => 0,
        1 => TOP,
        2 => TOP - rng.below(100_000_000_000),
        3 | 4 => last.saturating_sub(1),
        5 => last,
        6 => last + 1,
        7 => last + 12 - off.min(24),
        8 => last.saturating_sub(1_000_000 * off),
        9 => return (drawn as u32, rng.pick(&[1_000_000, 0xFFFF_FFFF])),
        _ => drawn,
    };
    let time = time.min(TOP);
    ((time / 1_000_000) as u32, (time % 1_000_000) as u32)
}

/// Every cut and every changed bit of the plainest sections, with and without the CRC_32 made again, and
/// every value of both lengths around the right one. The PTS is one tick before the cue's.
pub fn systematic() -> Vec<Given> {
    let mut list = Vec::new();
    for section in plainest() {
        let whole = section.bytes();
        list.push(whole.clone());
        for end in 0..whole.len() {
            list.push(whole[..end].to_vec());
            list.push(remade(whole[..end].to_vec()));
        }
        for bit in 0..8 * whole.len() {
            let mut bytes = whole.clone();
            bytes[bit / 8] ^= 0x80 >> (bit % 8);
            list.push(bytes.clone());
            list.push(closed(bytes));
        }
        for length in (0..32).chain([0xFFE, 0xFFF]) {
            let mut other = section.clone();
            other.length = Some(length);
            list.push(other.bytes());
            other.stuffing = vec![0xAA; 8];
            list.push(other.bytes());
        }
        for length in 0..12 {
            let mut other = section.clone();
            other.stuffing = vec![0x55; 8];
            other.loop_length = Some(length);
            list.push(other.bytes());
        }
    }
    list.into_iter().map(aimed).collect()
}

fn aimed(section: Vec<u8>) -> Given {
    let pts = cue_of(&section).map_or(0, |cue| (cue + WRAP - 1) % WRAP);
    Given { section, pts, seconds: 1_000, micros: 999_989 }
}

/// The cue's PTS of a section that passes.
fn cue_of(section: &[u8]) -> Option<u64> {
    if !sections::RIGHT.fits(section) {
        return None;
    }
    match judged(section).0 {
        Comes::At(cue) => Some(cue),
        _ => None,
    }
}

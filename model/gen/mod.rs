//! The seeded generator of card input. The same seed gives the same streams on every machine.

pub mod aims;
pub mod broken;
pub mod chains;
pub mod changed;
pub mod cue_streams;
pub mod damage;
pub mod data;
pub mod draw;
pub mod edges;
pub mod episodes;
pub mod filling;
pub mod foreign;
pub mod logs;
pub mod queues;
pub mod recall_calls;
pub mod rng;
pub mod rolling_streams;
pub mod sections;
pub mod splice_bounds;
pub mod stacks;
pub mod themes;
pub mod whole_drivers;

use crate::config::MOST_HARDWARE;
use crate::people::card::{self, Call};
use crate::people::scenario::message;
use draw::{Gen, Rng};

/// One stream of card input.
pub fn stream(seed: u64, index: u64) -> Vec<u8> {
    let mixed = Rng::new(seed);
    let rng = Rng::new(mixed.next() ^ index.wrapping_mul(0xD1B5_4A32_D192_ED03));
    let mut gen = Gen::new(rng);
    let themes = themes::THEMES;
    let theme = &themes[(index % themes.len() as u64) as usize];
    gen.at_the_top = theme.at_the_top;
    gen.begin();
    let length = gen.rng.between(200, 1000);
    while gen.calls < length {
        let list = if gen.rng.chance(60) { theme.favourites } else { themes::ALL };
        gen.rng.pick(list)(&mut gen);
    }
    damage::tail(&mut gen);
    gen.bytes
}

/// A stream that asks for far more output than the card program's buffer holds before its input has ended: an Init
/// with the longest Hardware_Config (02, CR 6), and 4,000 requests that are each answered with all of it.
pub fn filling() -> Vec<u8> {
    let mut init = vec![0; 66];
    init[1] = 2;
    init[2..5].copy_from_slice(b"CH1");
    init[34..41].copy_from_slice(b"SPLICER");
    let length = MOST_HARDWARE - 2;
    init.extend((length as u16).to_be_bytes());
    init.extend((0..length).map(|at| at as u8));
    let mut bytes = card::input_bytes(&Call::Open(0));
    bytes.extend(card::input_bytes(&Call::Message(0, message(0x0001, init))));
    let ask = card::input_bytes(&Call::Message(0, message(0x000A, Vec::new())));
    bytes.extend(ask.repeat(4_000));
    bytes
}

#[cfg(test)]
mod tests {
    use super::*;

    #[test]
    fn the_filling_stream_fills_the_output() {
        let input = filling();
        assert_eq!(input.len(), 40_334);
        assert_eq!(card::run(&input).output().len(), 1_192_044);
    }

    #[test]
    fn the_same_seed_gives_the_same_stream() {
        assert_eq!(stream(7, 3), stream(7, 3));
        assert_ne!(stream(7, 3), stream(8, 3));
        assert_ne!(stream(7, 3), stream(7, 3 + themes::THEMES.len() as u64));
    }

    #[test]
    fn a_stream_is_long() {
        for index in 0..themes::THEMES.len() as u64 {
            let calls = card::run(&stream(1, index)).calls.len();
            assert!(calls >= 200, "stream {index}: {calls} calls");
        }
    }
}

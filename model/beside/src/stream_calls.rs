//! The calls of a stream: those of the second program's generator, and between them calls that the card program cannot make.

use model::gen;
use model::gen::cue_streams;
use model::gen::draw::Rng;
pub use model::gen::foreign::LONGEST;
use model::gen::foreign::{foreign, is_init, lent};
use model::people::card;
use model::people::driver_call::{Act, Call};
use splicer::{NAME, OUT};

/// A channel's name and its calls.
pub struct Stream {
    pub index: u64,
    pub name: [u8; NAME],
    pub acts: Vec<Act>,
}

/// The same seed and index give the same stream on every machine.
pub fn stream(seed: u64, index: u64) -> Stream {
    let bytes = gen::stream(seed, index);
    let mut rng = Rng::new(seed ^ index.wrapping_mul(0x2545_F491_4F6C_DD1D));
    let name = name(&mut rng, index);
    let mut cues = Rng::new(seed ^ 0x7002 ^ index.wrapping_mul(0x9E37_79B9_7F4A_7C15));
    let mut acts = Vec::new();
    let mut at = 0;
    while let Ok((call, length)) = card::next_call(&bytes[at..]) {
        at += length;
        let call = named(Call::from(call), &name);
        foreign(&mut rng, &call, &mut acts);
        if cues.chance(8) {
            acts.push(cue(&mut cues));
        }
        acts.push(lent(&mut rng, call));
    }
    Stream { index, name, acts }
}

/// A cue call (02, CR 7): the card program has no mark of it.
fn cue(rng: &mut Rng) -> Act {
    let call = Call::Cue(cue_streams::given(rng));
    let room = rng.pick(&[OUT, OUT, OUT, OUT, OUT + 1, LONGEST, OUT - 1]);
    Act::plain(call, room)
}

/// Half of the streams have the card program's name; the others one with bytes behind its end, one
/// of 31 bytes, none, or one without a zero byte.
fn name(rng: &mut Rng, index: u64) -> [u8; NAME] {
    let mut name = splicer::name(b"CH1");
    match index % 8 {
        1 => name[4..].fill(rng.pick(&[1, 0x41, 0xFF])),
        3 => name[..31].fill(b'N'),
        5 => name[0] = 0,
        7 => name.fill(rng.pick(&[1, 0x41, 0xFF])),
        _ => {}
    }
    name
}

/// The generator's servers know the name "CH1": they get this channel's instead, so that a stream goes on as it was meant to.
fn named(mut call: Call, name: &[u8; NAME]) -> Call {
    let Call::Message(_, bytes) = &mut call else {
        return call;
    };
    if is_init(bytes) && bytes[10..14] == *b"CH1\0" {
        // The splicer of a name without a zero byte has the empty name.
        let end = name.iter().position(|b| *b == 0).unwrap_or(0);
        bytes[10..10 + end].copy_from_slice(&name[..end]);
        bytes[10 + end] = 0;
    }
    call
}

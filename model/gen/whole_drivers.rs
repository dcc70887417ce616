//! Recordings of whole drivers: names, sections that change, cues and rolling cards between the plain calls.

use crate::gen::draw::Rng;
use crate::gen::{cue_streams, rolling_streams, stream};
use crate::people::card;
use crate::people::driver_call::Call;
use crate::people::make_recording;
use crate::referee::player::{cue_bytes, rolling_bytes, section_bytes};
use crate::referee::{is_call, Card, Marks, Player};

/// An entry that is no record, and the records that are due behind it.
#[derive(Clone, Debug, PartialEq, Eq)]
pub struct Turn {
    pub entry: Vec<u8>,
    pub records: Vec<Vec<u8>>,
}

pub fn bytes_of(turns: &[Turn]) -> Vec<u8> {
    let each = |turn: &Turn| [&turn.entry[..], &turn.records.concat()].concat();
    turns.iter().flat_map(each).collect()
}

/// How many of these are calls.
pub fn calls(turns: &[Turn]) -> u64 {
    turns.iter().filter(|turn| is_call(turn.entry[0])).count() as u64
}

/// What the rules give behind each of these entries.
pub fn recorded(entries: &[Vec<u8>]) -> Vec<Turn> {
    let mut player = Player::fresh(&card::channel_name());
    let mut turn = |entry: &Vec<u8>| {
        let made = player.make(entry);
        let records = make_recording::entries(&made).0.iter().map(|record| record.bytes.to_vec()).collect();
        Turn { entry: entry.clone(), records }
    };
    entries.iter().map(&mut turn).collect()
}

/// The random numbers of a stream.
pub fn rng_of(seed: u64, index: u64) -> Rng {
    let mixed = Rng::new(seed ^ 0x4E4C);
    Rng::new(mixed.next() ^ index.wrapping_mul(0x9E6C_63D0_876A_9A63))
}

/// A driver's entries, at most so many calls of a stream and what stands between them. The same seed and index give the same.
pub fn entries(seed: u64, index: u64, marks: Marks) -> Vec<Vec<u8>> {
    let mut rng = rng_of(seed, index);
    let longest = rng.pick(&[12, 40, 80, 150, 400]);
    let most = rng.between(8, longest) as usize;
    let list = match (marks, index % 3) {
        (Marks::Plain, _) | (_, 0) => plain(seed, index),
        (_, 1) => cued(seed, index),
        _ => rolling(seed, index),
    };
    let list: Vec<Vec<u8>> = list.into_iter().take(most).collect();
    match marks {
        Marks::Plain => list,
        Marks::Further => {
            let list = between(&mut rng, list);
            named(&mut rng, list)
        }
    }
}

fn plain(seed: u64, index: u64) -> Vec<Vec<u8>> {
    let input = stream(seed, index);
    let (mut list, mut at) = (Vec::new(), 0);
    while let Ok((call, length)) = card::next_call(&input[at..]) {
        list.push(card::input_bytes(&call));
        at += length;
    }
    list
}

fn cued(seed: u64, index: u64) -> Vec<Vec<u8>> {
    cue_streams::stream(seed, index).iter().filter_map(|act| entry(&act.call)).collect()
}

/// A call as a recording has it; a log that is cleared is none.
fn entry(call: &Call) -> Option<Vec<u8>> {
    let byte = |conn: &u32| (*conn).min(255) as u8;
    let made = match call {
        Call::Fresh => return None,
        Call::Cue(given) => return Some(cue_bytes(given)),
        Call::Open(conn) => card::Call::Open(byte(conn)),
        Call::Close(conn) => card::Call::Close(byte(conn)),
        Call::Message(conn, bytes) => card::Call::Message(byte(conn), bytes.clone()),
        Call::Tick(seconds, micros) => card::Call::Tick(*seconds, *micros),
    };
    Some(card::input_bytes(&made))
}

fn rolling(seed: u64, index: u64) -> Vec<Vec<u8>> {
    rolling_streams::stream(seed, index).calls.iter().map(rolling_bytes).collect()
}

/// Sections, requests for the configuration and cues among the calls; second bytes that are not read drawn.
fn between(rng: &mut Rng, list: Vec<Vec<u8>>) -> Vec<Vec<u8>> {
    let mut made = Vec::new();
    for mut entry in list {
        if rng.chance(12) {
            made.push(section(rng));
        }
        if rng.chance(10) {
            made.push(config(rng));
        }
        if rng.chance(6) {
            made.push(cue_bytes(&cue_streams::given(rng)));
        }
        if matches!(entry[0], 0x54 | 0x51 | 0x49 | 0x57) && rng.chance(15) {
            entry[1] = rng.next() as u8;
        }
        made.push(entry);
    }
    made
}

/// A section of any length that is taken; one over 1,024 bytes makes every message 10 until it is gone.
pub fn section(rng: &mut Rng) -> Vec<u8> {
    let some = rng.below(300) as usize;
    let length = rng.pick(&[0, 1, 2, 16, some, some, some, 255, 256, 1_023, 1_024, 1_025]);
    let length = if length > 1_024 && rng.chance(60) { 3 } else { length };
    let bytes: Vec<u8> = (0..length).map(|_| rng.next() as u8).collect();
    section_bytes(rng.below(2) as u8, &bytes)
}

/// GetConfig_Request, which shows the section on air.
pub fn config(rng: &mut Rng) -> Vec<u8> {
    vec![0x4D, rng.below(4) as u8, 0x00, 0x0A, 0, 0, 0xFF, 0xFF, 0xFF, 0xFF]
}

/// At times a name at the front, and every Init_Request for "CH1" asks for it.
fn named(rng: &mut Rng, list: Vec<Vec<u8>>) -> Vec<Vec<u8>> {
    if rng.chance(40) {
        return list;
    }
    let (name, asked) = name(rng);
    let mut made = vec![[&[0x4E, rng.next() as u8][..], &name].concat()];
    for mut entry in list {
        let init = entry[0] == 0x4D && entry.len() >= 44 && entry[2..4] == [0, 1] && entry[12..16] == *b"CH1\0";
        if init && !rng.chance(3) {
            entry[12..44].copy_from_slice(&asked);
        }
        made.push(entry);
    }
    made
}

/// A name, and the one that it counts as.
fn name(rng: &mut Rng) -> ([u8; 32], [u8; 32]) {
    let text: &[u8] = rng.pick(&[&b"SPORT"[..], b"CH1", b"", b"a name of one and thirty bytes."]);
    let mut name: [u8; 32] = std::array::from_fn(|at| text.get(at).copied().unwrap_or(0));
    let asked = name;
    if rng.chance(40) {
        name[text.len() + 1..].fill_with(|| rng.next() as u8);
    }
    // "one without a zero byte counts as the empty name"
    if rng.chance(15) {
        return ([b'X'; 32], [0; 32]);
    }
    (name, asked)
}

/// A mark of this card alone, as a whole entry.
pub fn of_card(rng: &mut Rng, card: Card) -> Vec<u8> {
    let bytes: Vec<u8> = (0..12).map(|_| rng.next() as u8).collect();
    match (card, rng.chance(50)) {
        (Card::Utc, _) => [&[0x54, 0][..], &bytes[..8]].concat(),
        (_, true) => [&[0x49, 0][..], &bytes].concat(),
        (_, false) => [&[0x57, 0][..], &bytes[..4]].concat(),
    }
}

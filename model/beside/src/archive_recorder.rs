//! Whole drivers over the archive, recorded by its recorder: the second program's referee finds every recording in order, and each is,
//! entry by entry, what the second program writes of the same calls.

use model::gen::whole_drivers::{bytes_of, calls, entries, recorded};
use model::people::card::channel_name;
use model::referee::judge::refereed;
use model::referee::{Kind, Marks};
use splicer::recorder::{Channel, Feed, Recorder, Sink};
use splicer::{Maps, RollingSplicer, Splicer, OUT};

/// A card of either kind.
enum Card {
    Utc(Box<Splicer>),
    Rolling(Box<RollingSplicer>),
}

/// The driver's side: its card, and the sections that it lends.
struct Driver {
    card: Card,
    lent: [Vec<u8>; 2],
}

fn word(entry: &[u8], at: usize) -> u32 {
    u32::from_be_bytes([entry[at], entry[at + 1], entry[at + 2], entry[at + 3]])
}

/// The calls that both cards have.
fn common<S: Sink>(card: &mut impl Channel, lent: &[Vec<u8>; 2], entry: &[u8], recorder: &mut Recorder<S>) {
    let (mut out, conn) = ([0; OUT], u32::from(entry[1]));
    let _ = match entry[0] {
        0x4F => recorder.open(card, conn).map(|()| 0),
        0x43 => recorder.close(card, conn, &mut out).map(<[u8]>::len),
        0x51 => {
            let end = entry.len() - 16;
            let pts = u64::from(word(entry, end)) << 32 | u64::from(word(entry, end + 4));
            let given = (pts, word(entry, end + 8), word(entry, end + 12));
            recorder.cue(card, &entry[4..end], given, &mut out).map(<[u8]>::len)
        }
        _ => {
            let maps = Maps { primary: &lent[0], insertion: &lent[1] };
            recorder.message_with(card, conn, &entry[2..], maps, &mut out).map(|handled| handled.consumed)
        }
    };
}

impl Driver {
    fn fresh(name: &[u8; 32], rolling: bool) -> Driver {
        let card = match rolling {
            true => Card::Rolling(Box::new(RollingSplicer::fresh(name).0)),
            false => Card::Utc(Box::new(Splicer::fresh(name).0)),
        };
        Driver { card, lent: Default::default() }
    }

    fn make<S: Sink>(&mut self, entry: &[u8], recorder: &mut Recorder<S>) {
        let mut out = [0; OUT];
        match (&mut self.card, entry[0]) {
            (_, 0x4C) => {
                let which = usize::from(entry[1]);
                self.lent[which] = entry[4..].to_vec();
                recorder.section([Feed::Primary, Feed::Insertion][which], &self.lent[which]);
            }
            (Card::Utc(card), 0x54) => {
                let _ = recorder.tick(card, word(entry, 2), word(entry, 6), &mut out);
            }
            (Card::Rolling(card), 0x49) => {
                let _ = recorder.instant(card, word(entry, 2), word(entry, 6), word(entry, 10), &mut out);
            }
            (Card::Rolling(card), 0x57) => {
                let _ = recorder.reading(card, word(entry, 2), &mut out);
            }
            (Card::Utc(card), _) => common(&mut **card, &self.lent, entry, recorder),
            (Card::Rolling(card), _) => common(&mut **card, &self.lent, entry, recorder),
        }
    }
}

/// What the archive's recorder writes of these entries.
fn driven(list: &[Vec<u8>]) -> Vec<u8> {
    let mut kept = Vec::new();
    let mut recorder = Recorder::new(|bytes: &[u8]| kept.extend_from_slice(bytes));
    let rolling = list.iter().any(|entry| matches!(entry[0], 0x49 | 0x57));
    let mut rest = list;
    let mut name = channel_name();
    if let Some(first) = list.first().filter(|entry| entry[0] == 0x4E) {
        name = std::array::from_fn(|at| first[2 + at]);
        recorder.name(&name);
        rest = &list[1..];
    }
    let mut driver = Driver::fresh(&name, rolling);
    rest.iter().for_each(|entry| driver.make(entry, &mut recorder));
    drop(recorder);
    kept
}

/// Second bytes that are not read are zeros, as the recorder writes them.
fn as_recorded(mut list: Vec<Vec<u8>>) -> Vec<Vec<u8>> {
    list.iter_mut().filter(|entry| b"NQIWT".contains(&entry[0])).for_each(|entry| entry[1] = 0);
    list
}

/// N drivers.
pub fn everything(seed: u64, n: u64) -> Vec<bool> {
    let (mut bytes, mut differ, mut made) = (0, 0, [0u64; 4]);
    for index in 0..n {
        let list = as_recorded(entries(seed, index, Marks::Further));
        let (kept, own) = (driven(&list), recorded(&list));
        bytes += kept.len();
        for (place, mark) in [0x4E, 0x4C, 0x51, 0x57].iter().enumerate() {
            made[place] += u64::from(list.iter().any(|entry| entry[0] == *mark));
        }
        let verdict = refereed(&kept, &channel_name(), Marks::Further);
        if kept != bytes_of(&own) || verdict.kind != Kind::InOrder || verdict.good != calls(&own) {
            differ += 1;
            println!("seed {seed}, driver {index}: {}", verdict.words());
        }
    }
    println!(
        "beside: seed {seed}, {n} drivers recorded, {bytes} bytes; with names, sections, cues, readings {made:?}; {differ} differ"
    );
    vec![differ == 0 && (n < 30 || !made.contains(&0))]
}

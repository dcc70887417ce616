//! Logs of an engine that only remembers (02, CR 12), as they were kept, changed and made up, of every length, and
//! calls on them. "any 65,536 bytes are a list of calls".

use crate::gen::aims;
use crate::gen::changed::{Desk, KINDS};
use crate::gen::draw::Rng;
use crate::gen::recall_calls::{foreign_acts, History};
use crate::people::card::{self, Call as Kept};
use crate::people::driver_call::{Act, Call};
use crate::people::recall::{LEAST_FREE, LOG, MOST};
use crate::rules::ROOM;

/// A stream to take logs from: its calls, and whether each was good.
struct Base {
    calls: Vec<Kept>,
    good: Vec<bool>,
}

impl Base {
    fn of(input: &[u8]) -> Base {
        let run = card::run(input);
        let whole = run.calls.iter().filter(|d| !card::is_too_large(&d.call));
        let (calls, outputs): (Vec<Kept>, Vec<&[u8]>) = whole.map(|d| (d.call.clone(), &d.output[..])).unzip();
        let good = outputs.iter().map(|o| o.first() != Some(&0x45)).collect();
        Base { calls, good }
    }

    /// The records of the good ones among the first calls, and how many calls these are: at most so many
    /// records, and not so many bytes that the log is full.
    fn kept(&self, most: usize) -> (Vec<Vec<u8>>, usize) {
        let (mut list, mut bytes) = (Vec::new(), 0);
        for (at, call) in self.calls.iter().enumerate() {
            let record = card::input_bytes(call);
            if list.len() == most || bytes + record.len() > LOG - LEAST_FREE {
                return (list, at);
            }
            if self.good[at] {
                bytes += record.len();
                list.push(record);
            }
        }
        (list, self.calls.len())
    }
}

/// The logs of a stream, each with some calls. The same seed and index give the same on every machine.
pub fn histories(seed: u64, index: u64) -> Vec<History> {
    let mixed = Rng::new(seed ^ 0x1212);
    let mut rng = Rng::new(mixed.next() ^ index.wrapping_mul(0x9E6C_63D0_876A_9A63));
    let base = Base::of(&aims::stream(seed, index));
    let mut list = Vec::new();
    for (kind, make) in KINDS {
        let (mut kept, at) = base.kept(rng.between(1, 250) as usize);
        if kept.is_empty() {
            kept.push(vec![0x4F, 0]);
        }
        let log = make(&mut Desk { rng: &mut rng, kept });
        let mut acts = foreign_acts(&mut rng, &base.calls[at..], 8);
        if rng.chance(25) {
            acts.insert(rng.below(acts.len() as u64) as usize, Act::plain(Call::Fresh, ROOM));
        }
        list.push(History { kind, log, acts });
    }
    list
}

/// A whole stream from a log that fresh clears, with calls between that the card program cannot make, up to some
/// behind the first 13.
pub fn whole(seed: u64, index: u64) -> History {
    let mut rng = Rng::new(seed ^ 0x1221 ^ index.wrapping_mul(0x2545_F491_4F6C_DD1D));
    let input = aims::stream(seed, index);
    let base = Base::of(&input);
    let (_, at) = base.kept(MOST);
    let to = base.calls.len().min(at + 12);
    let mut acts = vec![Act::plain(Call::Fresh, ROOM)];
    acts.extend(foreign_acts(&mut rng, &base.calls[..to], usize::MAX));
    let log = (0..LOG).map(|_| rng.next() as u8).collect();
    let kind = "a stream";
    History { kind, log, acts }
}

#[cfg(test)]
mod tests {
    use super::*;
    use crate::gen::recall_calls::{differing, not_the_cards};
    use crate::hold::lapses::Lapsed;
    use crate::people::recall::{self, Recall};

    /// The number that stands before or behind this word.
    fn number(kind: &str, word: &str) -> Option<usize> {
        let words: Vec<&str> = kind.split(' ').collect();
        let at = words.iter().position(|own| own.trim_end_matches(',') == word)?;
        let near = [words.get(at + 1), words.get(at.wrapping_sub(1))];
        let mut near = near.into_iter().flatten();
        near.find_map(|own| own.replace(',', "").parse().ok())
    }

    #[test]
    fn logs_are_as_said() {
        for history in (0..6).flat_map(|index| histories(5, index)) {
            let list = recall::list(&history.log);
            let (kind, length) = (history.kind, history.log.len());
            let (kept, free) = (list.calls.len(), length - list.used);
            assert_eq!(number(kind, "length").unwrap_or(LOG), length, "{kind}");
            assert_eq!(number(kind, "kept").unwrap_or(kept), kept, "{kind}");
            assert_eq!(number(kind, "free").unwrap_or(free), free, "{kind}");
        }
        let numbers = ["length", "kept", "free"].map(|word| number("255 kept and 4,098 free", word));
        assert_eq!(numbers, [None, Some(255), Some(4_098)]);
    }

    #[test]
    fn without_a_mistake_it_is_the_engine() {
        for history in histories(5, 1) {
            let differs = differing(&history, &Lapsed(None), &Recall);
            assert_eq!(differs, None, "{}", history.kind);
            assert_eq!(not_the_cards(&Recall, &history), None, "{}", history.kind);
        }
    }
}

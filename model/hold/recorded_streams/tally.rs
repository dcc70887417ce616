//! How often each kind of recording and each finding came.

use super::kinds::KINDS;
use super::turns::Made;
use crate::hold::check_mistakes::checked;
use crate::hold::watch::table::Hits;
use crate::people::check::{check, Finding, Judged};
use crate::people::make_recording::{entries, is_call, End};

/// What was found in all of them, with floors for 20 streams.
const OUTCOMES: &[(&str, u64)] = &[
    ("every byte of a recording as its end", 500),
    ("length 65,535", 2),
    ("length 65,536", 2),
    ("length 65,537", 2),
    ("32,768 calls", 1),
    ("found none", 100),
    ("found none, cut in a call", 25),
    ("found none, cut in a record", 25),
    ("found none, cut, with due records missing", 10),
    ("found call 0", 10),
    ("found the first call", 2),
    ("found the last call", 10),
    ("found the last call though cut", 5),
    ("found a call before the last, cut", 10),
    ("found a call between", 100),
    ("found a call behind an oversize one", 2),
    ("found a call that is refused", 5),
    ("found call above 255", 5),
    ("refused 14 at 0", 15),
    ("refused 14 at the last byte", 15),
    ("refused 14 behind a finding", 15),
    ("refused 14", 5),
    ("refused 15", 2),
    ("scenario", 0),
];

/// How often each kind and outcome came.
#[derive(Default)]
pub struct Tally {
    hits: Hits,
}

impl Tally {
    fn hit(&mut self, name: &'static str) {
        self.hits.hit(name);
    }

    /// Counts a recording and what was found in it.
    pub fn count(&mut self, made: &Made) {
        self.hit(made.kind);
        let (finding, calls) = checked(&made.bytes, None);
        let (list, end) = entries(&made.bytes);
        match finding {
            Finding::None => {
                self.hit("found none");
                if let End::Cut { at, .. } = end {
                    let kinds = ["found none, cut in a record", "found none, cut in a call"];
                    self.hit(kinds[usize::from(is_call(made.bytes[at]))]);
                    let last = &calls[calls.len() - 1];
                    if last.found.len() < last.due.len() {
                        self.hit("found none, cut, with due records missing");
                    }
                }
            }
            Finding::Call(number) => self.found(&calls, number, matches!(end, End::Cut { .. })),
            Finding::Unknown(0) => self.hit("refused 14 at 0"),
            Finding::Unknown(at) => {
                let before = &made.bytes[..list.last().map_or(0, |e| e.at + e.bytes.len())];
                self.hit(match check(before) {
                    _ if at + 1 == made.bytes.len() => "refused 14 at the last byte",
                    Finding::Call(_) => "refused 14 behind a finding",
                    _ => "refused 14",
                });
            }
            Finding::Longer => self.hit("refused 15"),
        }
    }

    /// Which call was found, and what is behind it.
    fn found(&mut self, calls: &[Judged], number: usize, cut: bool) {
        let last = number + 1 == calls.len();
        self.hit(match (number, last, cut) {
            (0, ..) => "found call 0",
            (_, true, true) => "found the last call though cut",
            (_, true, false) => "found the last call",
            (1, ..) => "found the first call",
            (_, false, true) => "found a call before the last, cut",
            _ => "found a call between",
        });
        let oversize = |e: &[u8]| e[0] == 0x4D && e[4..6] > [0x0F, 0xF8][..];
        let before = calls[..number].iter().filter_map(|judged| judged.call);
        if before.into_iter().any(oversize) {
            self.hit("found a call behind an oversize one");
        }
        if calls[number].due.first().is_some_and(|d| d[0] == 0x45) {
            self.hit("found a call that is refused");
        }
        if number > 255 {
            self.hit("found call above 255");
        }
    }

    pub fn of(&self, name: &str) -> u64 {
        self.hits.of(name)
    }

    pub fn reached(&self, table: bool, hold: bool) -> bool {
        self.hits.reached(&floors(), table, hold)
    }
}

/// Every kind and outcome with its floor.
fn floors() -> Vec<(&'static str, u64)> {
    let kinds = KINDS.iter().map(|(name, floor, _)| (*name, *floor));
    kinds.chain(OUTCOMES.iter().copied()).collect()
}

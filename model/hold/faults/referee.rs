//! Mistakes of the referee.

use super::mistakes::mistakes;
use crate::referee::judge::{self, here, Judging, Kind, Referee, Verdict, JUDGING};
use crate::referee::marks::{self, Before};
use rules::bytes::half;
use rules::recording::First;
use std::sync::OnceLock;

mistakes! { Misjudged, MISJUDGED, Judging, JUDGING;
    DueOverlooked: "what is still due at the next call is overlooked", |r| r.call = due_overlooked;
    DueOverlookedAtTheEnd: "what is still due at the end is overlooked", |r| r.end = due_overlooked_at_the_end;
    JudgedEarly: "a call is judged before its records are whole", |r| r.piece = judged_early;
    CutJudged: "a cut last entry is judged", |r| r.end = cut_judged;
    CutDemandsAll: "a cut last entry lets nothing off", |r| r.end = cut_demands_all;
    CountedFromZero: "calls are counted from 0", |r| r.wrong = counted_from_zero;
    Unsaid: "further bytes unsay it", |r| r.piece = unsaid;
    LentBefore: "a section is lent to the call before", |r| r.section = lent_before;
    SectionLetsOff: "at a section what is still due is let off", |r| r.section = section_lets_off;
    SectionCounted: "a section is counted as a call", |r| r.section = section_counted;
    SectionsSwapped: "0 is the insertion's", |r| r.section = sections_swapped;
    SectionOnce: "a section is lent to one call", |r| r.call = section_once;
    RecordBehindSection: "a record behind a section is passed over", |r| r.record = record_behind_section;
    ZeroNotJudged: "records before any call are passed over", |r| r.record = zero_not_judged;
    MarkBeforeCall: "an unknown mark is told before what is still due", |r| r.unknown = mark_before_call;
    NameAnywhere: "a name may stand anywhere", |r| r.first = |rest, before| marks::first(rest, &Before { entries: false, ..*before });
    AnyCard: "both cards' marks are taken", |r| r.first = |rest, before| marks::first(rest, &Before { card: None, ..*before });
    AnySection: "another second byte of a section is taken", |r| {
        r.first = any_section;
        r.section = any_lent;
    };
    LongestLess: "1,025 bytes of a section are too many", |r| r.first = |rest, before| longest(rest, before, 0x4C, 1_024);
    CueLess: "513 bytes of a cue are too many", |r| r.first = |rest, before| longest(rest, before, 0x51, 512);
    LengthLate: "a length above the most is told when the entry is whole", |r| r.first = length_late;
    PlaceOfRecord: "the place is that of the record", |r| r.wrong = |referee| Verdict { place: referee.at, ..judge::wrong(referee) };
    GoodToo: "the wrong call is one of the good ones", |r| r.wrong = |referee| Verdict { good: referee.number, ..judge::wrong(referee) };
}

impl Misjudged {
    /// Whether it is about the further marks alone.
    pub fn is_further(self) -> bool {
        use Misjudged::*;
        #[rustfmt::skip]
        let further = [
            LentBefore, SectionLetsOff, SectionCounted, SectionsSwapped, SectionOnce, RecordBehindSection, NameAnywhere, AnyCard,
            AnySection, LongestLess, CueLess, LengthLate,
        ];
        further.contains(&self)
    }

    pub fn judging(self) -> &'static Judging {
        self.made()
    }
}

fn due_overlooked(referee: &mut Referee, entry: &[u8]) {
    referee.due.clear();
    judge::call(referee, entry);
}

fn due_overlooked_at_the_end(referee: &Referee) -> Verdict {
    match judge::end(referee) {
        told if referee.told.is_some() => told,
        Verdict { kind: Kind::Call, .. } => here(referee, Kind::InOrder),
        told => told,
    }
}

fn judged_early(referee: &mut Referee, bytes: &[u8]) {
    judge::piece(referee, bytes);
    if referee.told.is_none() && !referee.due.is_empty() {
        referee.tell();
    }
}

/// The beginning of a record is held to the beginning of what is due.
fn cut_judged(referee: &Referee) -> Verdict {
    let record = matches!(referee.rest.first(), Some(0x52 | 0x45));
    match referee.told {
        None if record && !referee.due.starts_with(&referee.rest) => judge::wrong(referee),
        _ => judge::end(referee),
    }
}

fn cut_demands_all(referee: &Referee) -> Verdict {
    match referee.told {
        None if !referee.due.is_empty() => judge::wrong(referee),
        _ => judge::end(referee),
    }
}

fn counted_from_zero(referee: &Referee) -> Verdict {
    let right = judge::wrong(referee);
    Verdict { number: right.number.saturating_sub(1), ..right }
}

fn unsaid(referee: &mut Referee, bytes: &[u8]) {
    if referee.told.take().is_some() {
        referee.due.clear();
    }
    judge::piece(referee, bytes);
}

/// The section in an answer that is still due becomes the new one.
fn lent_before(referee: &mut Referee, entry: &[u8]) {
    let insertion = referee.player.driven.splicer.on_air().is_some();
    let config = referee.due.len() >= 10 && referee.due[0] == 0x52 && half(&referee.due, 2) == 0x000B;
    if config && insertion == (entry[1] == 1) {
        let length = referee.due.len() - referee.player.lent[usize::from(entry[1])].len();
        referee.due.truncate(length);
        referee.due.extend(&entry[4..]);
        let size = (referee.due.len() - 10) as u16;
        referee.due[4..6].copy_from_slice(&size.to_be_bytes());
    } else if !referee.due.is_empty() {
        return referee.tell();
    }
    referee.player.make(entry);
}

fn section_lets_off(referee: &mut Referee, entry: &[u8]) {
    referee.due.clear();
    judge::section(referee, entry);
}

fn section_counted(referee: &mut Referee, entry: &[u8]) {
    judge::section(referee, entry);
    if referee.told.is_none() {
        referee.number += 1;
        referee.call_at = referee.at;
    }
}

fn sections_swapped(referee: &mut Referee, entry: &[u8]) {
    let mut entry = entry.to_vec();
    entry[1] = 1 - entry[1];
    judge::section(referee, &entry);
}

fn section_once(referee: &mut Referee, entry: &[u8]) {
    judge::call(referee, entry);
    if entry[0] == 0x4D {
        referee.player.lent = Default::default();
    }
}

/// What is due stays empty at a section, so a record that nothing is due of is taken as one behind it.
fn record_behind_section(referee: &mut Referee, entry: &[u8]) {
    let behind = referee.due.is_empty() && referee.player.lent.iter().any(|lent| !lent.is_empty());
    if !behind {
        judge::record(referee, entry);
    }
}

fn zero_not_judged(referee: &mut Referee, entry: &[u8]) {
    if referee.number > 0 {
        judge::record(referee, entry);
    }
}

fn mark_before_call(referee: &mut Referee) {
    referee.told = Some(here(referee, Kind::Unknown));
}

fn any_section(rest: &[u8], before: &Before) -> First {
    let mut read = rest.to_vec();
    if read.len() > 1 && read[0] == 0x4C {
        read[1] &= 1;
    }
    marks::first(&read, before)
}

fn any_lent(referee: &mut Referee, entry: &[u8]) {
    let mut entry = entry.to_vec();
    entry[1] &= 1;
    judge::section(referee, &entry);
}

fn longest(rest: &[u8], before: &Before, mark: u8, most: u16) -> First {
    match rest.len() >= 4 && rest[0] == mark && half(rest, 2) > most {
        true => First::Unknown,
        false => marks::first(rest, before),
    }
}

fn length_late(rest: &[u8], before: &Before) -> First {
    let needs = 4 + usize::from(if rest.len() < 4 { 0 } else { half(rest, 2) });
    match marks::first(rest, before) {
        First::Unknown if matches!(rest[0], 0x4C | 0x51) && rest.len() >= 4 && rest.len() < needs => First::Cut { needs },
        other => other,
    }
}

//! The checker of 02, CR 14, for people; and once more, with every mistake that one may make.

use crate::hold::faults::mistakes;
use rules::check::by_call;
pub use rules::check::{check, Finding, Judged, LONGEST};
use rules::recording::{entries, is_call, End, Entry};

// of a checker
mistakes! { Lapse, LAPSES;
    CutCompared: "a cut record is compared",
    CutCallEndsCall: "a cut call lets nothing off",
    CutLetsOffAll: "a cut entry lets off the records of every call",
    CutSkipsLast: "behind a cut entry the last call is not judged",
    LenientWithoutCut: "the last call needs only a beginning without a cut",
    ZeroNotJudged: "records before any call are passed over",
    CountedFromZero: "calls are counted from 0",
    WholeDueCompared: "each record is compared with all that is due",
    DueOverlooked: "what is still due at the next call is overlooked",
    RefusedNotMade: "nothing is due of a refused call",
    FindingBeforeMark: "a finding before an unknown mark is told in its place",
    MarkBefore: "14 with the place of the entry before",
    LoneMarkCut: "an unknown mark as the last byte is a cut entry",
    FullRefused: "65,536 bytes are refused",
    LongerRead: "a longer recording is read",
    MarkBeforeLength: "14 before 15",
    OversizeRecordRead: "an oversize record is read to its MessageSize",
    StopsAtOversize: "nothing is read behind an oversize call",
    ConnectionUnread: "a record's connection is not compared",
    ExtensionUnread: "a record's Result_Extension is not compared",
    SetCompared: "the order of a call's records is not compared",
}

/// What a checker with this mistake says, and the calls that it was found from.
pub fn checked(recording: &[u8], lapse: Option<Lapse>) -> (Finding, Vec<Judged<'_>>) {
    let lapsed = |own: Lapse| lapse == Some(own);
    let (list, end) = read(recording, lapse);
    let end = match end {
        End::Unknown { at } if lapsed(Lapse::LoneMarkCut) && at + 1 == recording.len() => End::Cut { at, needs: 2 },
        end => end,
    };
    let unknown = match (refused(recording, &list, end, lapse), lapsed(Lapse::FindingBeforeMark)) {
        (Some(Finding::Unknown(at)), true) => Finding::Unknown(at),
        (Some(refusal), _) => return (refusal, Vec::new()),
        (None, _) => Finding::None,
    };
    let mut calls = by_call(&match lapse {
        Some(Lapse::StopsAtOversize) => until_oversize(&list),
        _ => list,
    });
    if let (End::Cut { at, .. }, true, Some(last)) = (end, lapsed(Lapse::CutCompared), calls.last_mut()) {
        if !is_call(recording[at]) {
            last.found.push(&recording[at..]);
        }
    }
    play(&mut calls, lapse);
    let cut = match end {
        End::Cut { at, .. } if lapsed(Lapse::CutCallEndsCall) => !is_call(recording[at]),
        End::Cut { .. } => true,
        _ => lapsed(Lapse::LenientWithoutCut),
    };
    let finding = match first_wrong(&calls, cut, lapse) {
        None => unknown,
        Some(call) if lapsed(Lapse::CountedFromZero) => Finding::Call(call.max(1) - 1),
        Some(call) => Finding::Call(call),
    };
    (finding, calls)
}

/// "house number 15 for a longer recording; then 14 for an unknown mark anywhere, with its place; both before any finding"
fn refused(recording: &[u8], list: &[Entry], end: End, lapse: Option<Lapse>) -> Option<Finding> {
    let lapsed = |own: Lapse| lapse == Some(own);
    let most = LONGEST - usize::from(lapsed(Lapse::FullRefused));
    let longer = (recording.len() > most && !lapsed(Lapse::LongerRead)).then_some(Finding::Longer);
    let before = list.last().map_or(0, |entry| entry.at);
    let unknown = match end {
        End::Unknown { .. } if lapsed(Lapse::MarkBefore) => Some(Finding::Unknown(before)),
        End::Unknown { at } => Some(Finding::Unknown(at)),
        _ => None,
    };
    match lapsed(Lapse::MarkBeforeLength) {
        true => unknown.or(longer),
        false => longer.or(unknown),
    }
}

/// The whole entries and how the recording ends.
fn read(recording: &[u8], lapse: Option<Lapse>) -> (Vec<Entry<'_>>, End) {
    let (mut list, mut end) = entries(recording);
    if lapse == Some(Lapse::OversizeRecordRead) {
        let oversize = |e: &Entry| e.bytes[0] == 0x52 && e.bytes[4..6] > [0x0F, 0xF8][..];
        if let Some(place) = list.iter().position(oversize) {
            let Entry { at, bytes } = list[place];
            list.truncate(place);
            let needs = 10 + usize::from(u16::from_be_bytes([bytes[4], bytes[5]]));
            if at + needs > recording.len() {
                return (list, End::Cut { at, needs });
            }
            let bytes = &recording[at..at + needs];
            list.push(Entry { at, bytes });
            let behind = entries(&recording[at + needs..]);
            let moved = |e: &Entry<'_>| e.at + at + needs;
            for entry in &behind.0 {
                let bytes = &recording[moved(entry)..moved(entry) + entry.bytes.len()];
                list.push(Entry { at: moved(entry), bytes });
            }
            end = match behind.1 {
                End::Unknown { at: place } => End::Unknown { at: place + at + needs },
                End::Cut { at: place, needs: n } => End::Cut { at: place + at + needs, needs: n },
                End::Whole => End::Whole,
            };
        }
    }
    (list, end)
}

/// The calls up to an oversize one.
fn until_oversize<'r>(list: &[Entry<'r>]) -> Vec<Entry<'r>> {
    let oversize = |entry: &Entry| entry.bytes[0] == 0x4D && entry.bytes[4..6] > [0x0F, 0xF8][..];
    let end = list.iter().position(oversize).map_or(list.len(), |place| place + 1);
    list[..end].to_vec()
}

/// What is due of each call.
fn play(calls: &mut [Judged], lapse: Option<Lapse>) {
    rules::check::play(calls);
    if lapse == Some(Lapse::RefusedNotMade) {
        for judged in calls {
            judged.due.retain(|due| due[0] != 0x45);
        }
    }
}

/// The first call whose records are not exactly its due ones, in order. "A cut last record is
/// dropped, and the last call before it then needs only the beginning of its due records."
fn first_wrong(calls: &[Judged], cut: bool, lapse: Option<Lapse>) -> Option<usize> {
    let last = calls.len() - 1;
    let wrong = |number: &usize| {
        let judged = &calls[*number];
        let (found, due) = (&judged.found, &judged.due);
        if *number == 0 && lapse == Some(Lapse::ZeroNotJudged) {
            return false;
        }
        if *number == last && cut && lapse == Some(Lapse::CutSkipsLast) {
            return false;
        }
        let beginning = match lapse {
            Some(Lapse::CutLetsOffAll) => cut,
            Some(Lapse::DueOverlooked) => *number != last || cut,
            _ => *number == last && cut,
        };
        let least = if beginning { found.len() } else { due.len() };
        let enough = found.len() >= least && found.len() <= due.len();
        !enough || !same(found, &due[..found.len()], lapse)
    };
    (0..calls.len()).find(wrong)
}

/// Records are compared whole.
fn same(found: &[&[u8]], due: &[Vec<u8>], lapse: Option<Lapse>) -> bool {
    let unread = match lapse {
        Some(Lapse::ConnectionUnread) => 1..2,
        Some(Lapse::ExtensionUnread) => 8..10,
        Some(Lapse::WholeDueCompared) if found.len() > 1 => return false,
        Some(Lapse::SetCompared) => {
            let (mut one, mut other) = (found.to_vec(), due.to_vec());
            one.sort();
            other.sort();
            return one == other;
        }
        _ => 0..0,
    };
    let read = |bytes: &[u8]| -> Vec<u8> {
        let kept = |(at, byte): (usize, &u8)| (!unread.contains(&at)).then_some(*byte);
        bytes.iter().enumerate().filter_map(kept).collect()
    };
    let pairs = found.iter().zip(due);
    pairs.into_iter().all(|(f, d)| read(f) == read(d))
}

//! The wrapper of the referee: on recordings whose findings were worked out by hand, in every cut, and on
//! verdicts worked out by hand from 02, CR 14.
#![cfg(feature = "bench")]

use splicer::bench::raw::RefereeState;
use splicer::bench::{check, Finding, Kind, Referee, Verdict};
use splicer::recorder::Recorder;
use splicer::{name, Refusal, Splicer, NAME, OUT};
use std::fs;
use std::path::Path;

fn fresh() -> Referee {
    Referee::fresh(&name(b"CH1")).0
}

/// What is told of a recording in these pieces.
fn told<'p>(pieces: impl IntoIterator<Item = &'p [u8]>) -> Verdict {
    let mut referee = fresh();
    for piece in pieces {
        referee.feed(piece);
    }
    referee.end()
}

fn verdict(kind: Kind, number: u64, place: u64, good: u64) -> Verdict {
    Verdict {
        kind,
        number,
        place,
        good,
    }
}

/// The recordings whose verdicts were worked out by hand, with the referee's line of each. In two of them
/// the checker refuses a mark, and the referee tells the call before it.
fn by_hand() -> Vec<(Vec<u8>, String)> {
    let folder = Path::new(env!("CARGO_MANIFEST_DIR")).join("../examples/recordings");
    let rows = fs::read_to_string(folder.join("verdicts")).unwrap();
    let row = |row: &str| {
        let (file, line) = row.split_once(' ').unwrap();
        (fs::read(folder.join(file)).unwrap(), line.to_string())
    };
    rows.lines().map(row).collect()
}

#[test]
fn findings_by_hand() {
    let all = by_hand();
    assert!(all.len() > 20);
    for (recording, wanted) in all {
        let found = told([&recording[..]]);
        let line = match found.kind {
            Kind::InOrder | Kind::Cut => "none".to_string(),
            Kind::Call => format!("call {}", found.number),
            Kind::Unknown => format!("refused 14 at {}", found.place),
        };
        assert_eq!(line, wanted);
    }
}

#[test]
fn cuts_alike() {
    for (recording, wanted) in by_hand() {
        let whole = told([&recording[..]]);
        assert_eq!(told(recording.chunks(1)), whole, "{wanted}");
        for at in 0..=recording.len() {
            assert_eq!(
                told([&recording[..at], &recording[at..]]),
                whole,
                "{wanted}"
            );
        }
    }
}

#[test]
fn verdicts_by_hand() {
    // nothing, an open, a cut open, an open and a cut close
    assert_eq!(told([&[][..]]), verdict(Kind::InOrder, 0, 0, 0));
    assert_eq!(told([&[0x4F, 0][..]]), verdict(Kind::InOrder, 1, 2, 1));
    assert_eq!(told([&[0x4F][..]]), verdict(Kind::Cut, 0, 0, 0));
    assert_eq!(told([&[0x4F, 0, 0x43][..]]), verdict(Kind::Cut, 1, 2, 1));
    // a second open, which is refused with 6: with it, without it, with another, and with a further one
    let twice = [0x4F, 0, 0x4F, 0];
    let with = |more: &[u8]| told([&twice[..], more]);
    assert_eq!(with(&[0x45, 6]), verdict(Kind::InOrder, 2, 6, 2));
    assert_eq!(with(&[]), verdict(Kind::Call, 2, 2, 1));
    assert_eq!(with(&[0x45, 7]), verdict(Kind::Call, 2, 2, 1));
    assert_eq!(with(&[0x45, 6, 0x45, 6]), verdict(Kind::Call, 2, 2, 1));
    // an unknown mark behind what is whole, and where the refusal is still due
    assert_eq!(with(&[0x45, 6, b'?']), verdict(Kind::Unknown, 2, 6, 2));
    assert_eq!(with(b"?"), verdict(Kind::Call, 2, 2, 1));
    // a record before any call
    assert_eq!(told([&[0x45, 6][..]]), verdict(Kind::Call, 0, 0, 0));
}

#[test]
fn told_for_good() {
    let mut referee = fresh();
    let wrong = referee.feed(&[0x4F, 0, 0x4F, 0, 0x45, 7]);
    assert_eq!(wrong, verdict(Kind::Call, 2, 2, 1));
    assert_eq!(referee.due(), [0x45, 6]);
    assert_eq!(referee.feed(&[0x45, 6, 0x43, 0]), wrong);
    assert_eq!((referee.end(), referee.due()), (wrong, &[0x45, 6][..]));
    assert!(wrong.is_wrong() && !told([&[0x4F][..]]).is_wrong());
}

#[test]
fn in_words() {
    assert_eq!(told([&[0x4F, 0][..]]).to_string(), "none");
    assert_eq!(told([&[0x4F][..]]).to_string(), "none, cut at byte 0");
    let strange = "refused 14: unknown mark in the recording, at byte 2";
    assert_eq!(told([&b"O\0?"[..]]).to_string(), strange);
    assert_eq!(told([&b"O\0O\0"[..]]).to_string(), "call 2");
}

/// The name is in the answer to an Init_Request, so one referee's good recording is wrong for another.
#[test]
fn names() {
    let own = name(b"SPORT");
    // Init_Request: revision 2, ChannelName, SplicerName, Hardware_Config of one of each
    let mut init = vec![0, 1, 0, 76, 0xFF, 0xFF, 0xFF, 0xFF, 0, 2];
    init.extend(own);
    init.extend([0; 32]);
    init.extend([0, 8, 0, 1, 0, 1, 0, 1, 0, 0]);
    let mut recording = Vec::new();
    let mut recorder = Recorder::new(|bytes: &[u8]| recording.extend_from_slice(bytes));
    let (mut card, mut out) = (Splicer::fresh(&own).0, [0; OUT]);
    recorder.open(&mut card, 0).unwrap();
    recorder.message(&mut card, 0, &init, &mut out).unwrap();
    let of = |name: &[u8; NAME]| {
        let (mut referee, named) = Referee::fresh(name);
        referee.feed(&recording);
        (referee.end().kind, named)
    };
    assert_eq!(of(&own), (Kind::InOrder, Ok(())));
    assert_eq!(of(&name(b"CH1")), (Kind::Call, Ok(())));
    assert_eq!(of(&[b'X'; NAME]), (Kind::Call, Err(Refusal::BadName)));
}

/// Three times what the checker reads, of ticks, in pieces of any length; then one tick that goes back
/// and is not refused.
#[test]
fn longer_than_the_checker_reads() {
    let tick = |n: u32| [&[0x54, 0][..], &n.to_be_bytes(), &[0; 4]].concat();
    let ticks: Vec<u8> = (1..=20_000).flat_map(tick).collect();
    assert_eq!(check(&ticks), Finding::Longer);
    assert_eq!(
        told(ticks.chunks(4099)),
        verdict(Kind::InOrder, 20_000, 200_000, 20_000)
    );
    let back = tick(19_999);
    let late = told(ticks.chunks(777).chain([&back[..]]));
    assert_eq!(late, verdict(Kind::Call, 20_001, 200_000, 20_000));
}

/// As the header's comment says; alone in memory, so a clone is another one.
#[test]
fn its_state() {
    assert_eq!(size_of::<RefereeState>(), 14_800);
    let mut one = fresh();
    one.feed(&[0x4F, 0]);
    let mut other = one.clone();
    assert!(other.feed(&[0x4F, 0, 0x43, 0]).is_wrong());
    assert_eq!(one.end(), verdict(Kind::InOrder, 1, 2, 1));
}

//! The referee, by recordings worked by hand, and what holds of every one.

use crate::gen::broken::of_stream;
use crate::hold::referee_streams::judged;
use crate::hold::worked::{parse, wrong};
use crate::people::card::channel_name;
use crate::people::check::{check, Finding};
use crate::people::driver_recording::of_steps;
use crate::people::record_lines::Line;
use crate::people::scenario;
use crate::referee::judge::refereed;
use crate::referee::{Kind, Marks, Referee, JUDGING};

#[test]
fn worked_recordings() {
    let files = [
        (include_str!("../../scenarios/recordings/names.txt"), 8),
        (include_str!("../../scenarios/recordings/sections.txt"), 10),
        (include_str!("../../scenarios/recordings/cues.txt"), 7),
        (include_str!("../../scenarios/recordings/rolling.txt"), 5),
        (include_str!("../../scenarios/recordings/ends.txt"), 12),
    ];
    for (text, count) in files {
        let cases = parse(text).unwrap();
        assert_eq!(cases.len(), count, "{}", text.lines().next().unwrap());
        for case in &cases {
            assert_eq!(wrong(case), None);
        }
    }
}

#[test]
fn a_wrong_line_of_a_worked_recording_is_named() {
    for text in ["= none", "> 4", "> 00*x", "4F 00"] {
        assert!(parse(text).unwrap_err().contains("line 1"), "{text}");
    }
}

/// "`refereed` of a recording without further marks is the first one", and CR 14's checker finds the same, but where an unknown mark
/// stands behind something that is found before it.
#[test]
fn as_the_checker_without_further_marks() {
    let mut seen = [0; 4];
    for made in (0..6).flat_map(|index| crate::hold::recorded_streams::of_stream(77, index)) {
        let verdict = refereed(&made.bytes, &channel_name(), Marks::Plain);
        let further = made.bytes.iter().any(|byte| b"NLQIW".contains(byte));
        if !further {
            assert_eq!(refereed(&made.bytes, &channel_name(), Marks::Further), verdict, "{}", made.kind);
        }
        match (check(&made.bytes), verdict.kind) {
            (Finding::Longer, _) => seen[0] += 1,
            (Finding::Unknown(_), Kind::Call) => seen[1] += 1,
            (finding, _) => {
                assert_eq!(finding.line(), verdict.line(), "{}", made.kind);
                seen[2 + usize::from(further)] += 1;
            }
        }
    }
    assert!(seen.iter().all(|count| *count > 0), "{seen:?}");
}

/// Every scenario is a recording by hand: those of cues and of rolling cards too. A raw line may hold several calls.
#[test]
fn every_scenario_is_in_order() {
    let (mut cued, mut rolled, mut all) = (0, 0, 0);
    for file in std::fs::read_dir(concat!(env!("CARGO_MANIFEST_DIR"), "/scenarios")).unwrap() {
        let path = file.unwrap().path().display().to_string();
        let text = std::fs::read_to_string(&path).unwrap_or_default();
        if !path.ends_with(".txt") || text.contains("> raw") {
            continue;
        }
        let steps = scenario::parse(&text).unwrap();
        let verdict = refereed(&of_steps(&steps), &channel_name(), Marks::Further);
        assert_eq!(verdict.kind, Kind::InOrder, "{path}: {}", verdict.words());
        (cued, rolled) = (cued + usize::from(scenario::is_cued(&steps)), rolled + usize::from(scenario::is_rolling(&steps)));
        all += 1;
    }
    assert!(cued >= 5 && rolled >= 5 && all > 80, "{cued} {rolled} {all}");
}

/// In every two pieces and byte by byte the same, and once told it stays.
#[test]
fn cuts_alike() {
    for index in 0..3 {
        for (way, bytes, known) in of_stream(5, index, Marks::Further) {
            let bytes = &bytes[..bytes.len().min(1_500)];
            let (whole, due, _) = judged(bytes, &[], Marks::Further, &JUDGING);
            assert!(bytes.len() == 1_500 || known.is_none_or(|known| known == whole), "{way}");
            for at in (0..bytes.len()).step_by(7) {
                let (verdict, rest, said) = judged(bytes, &[at], Marks::Further, &JUDGING);
                assert_eq!((verdict, &rest), (whole, &due), "{way} at {at}");
                assert!(said[0].is_none() || said[0] == said[1], "{way} at {at}");
            }
            let each: Vec<usize> = (1..bytes.len()).collect();
            assert_eq!(judged(bytes, &each, Marks::Further, &JUDGING).0, whole, "{way} by bytes");
        }
    }
}

/// Numbers and places are counted modulo 2^64.
#[test]
fn counted_modulo_two_to_the_64() {
    let mut referee = Referee::fresh(&channel_name(), Marks::Further);
    (referee.at, referee.number) = (u64::MAX - 1, u64::MAX);
    referee.feed(&[0x4F, 0, 0x4F, 0, 0x4F, 1]);
    let verdict = referee.end();
    assert_eq!((verdict.kind, verdict.number, verdict.place), (Kind::Call, 1, 0));
}

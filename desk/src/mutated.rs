//! Mutated inputs: whatever a recording, a capture or a cue is, it is read or refused, and nothing
//! panics. A thousand of each; MUTATED_N and MUTATED_SEED give others (tools/mutate.sh).

#[path = "../../tools/mutate/mutator.rs"]
mod mutator;

use crate::json::Form;
use crate::options::Options;
use crate::recording::{items, Call, Recording};
use crate::ruled::Held;
use crate::view::View;
use crate::{asrun, list, page, pcap, sqlite, timeline};
use mutator::Mutator;
use std::panic::{catch_unwind, AssertUnwindSafe};

const CH1: [u8; 32] = {
    let mut name = [0; 32];
    (name[0], name[1], name[2]) = (b'C', b'H', b'1');
    name
};

fn asked(name: &str, or: u64) -> u64 {
    let value = std::env::var(name).ok();
    value.and_then(|value| value.parse().ok()).unwrap_or(or)
}

/// Runs it on so many inputs; says which one it does not survive. Gives how many it took as good.
fn survives(make: impl Fn(&mut Mutator) -> Vec<u8>, run: impl Fn(&[u8]) -> bool) -> u64 {
    let (seed, count) = (asked("MUTATED_SEED", 1), asked("MUTATED_N", 1_000));
    let mut good = 0;
    for number in 0..count {
        let input = make(&mut Mutator::of(seed, number));
        let ran = catch_unwind(AssertUnwindSafe(|| run(&input)));
        match ran {
            Ok(taken) => good += u64::from(taken),
            Err(_) => panic!("seed {seed}, input {number}: {input:02X?}"),
        }
    }
    println!("{count} mutated inputs, {good} of them read");
    good
}

/// Messages of every kind, with cues (wireshark/messages.txt).
fn messages() -> Vec<u8> {
    let text = include_str!("../../wireshark/messages.txt");
    model::make_recording::of_steps(&model::scenario::parse(text).unwrap())
}

fn recordings() -> Vec<Vec<u8>> {
    let day = include_bytes!("../recordings/example-day.rec");
    let incident = include_bytes!("../recordings/incident.rec").to_vec();
    vec![
        day[..600].to_vec(),
        incident[..330].to_vec(),
        messages()[..500].to_vec(),
        include_bytes!("../recordings/whole.rec").to_vec(),
        rolling(),
    ]
}

/// A rolling card's: a session that starts behind the rollover of its counter.
fn rolling() -> Vec<u8> {
    let text = include_str!("../../model/scenarios/02-rolling-rollover.txt");
    let steps = model::scenario::parse(text).unwrap();
    let calls = model::scenario::rolling_calls(&steps).unwrap();
    let entry = |(call, step): (&_, &model::scenario::Step)| {
        let call = model::referee::player::rolling_bytes(call);
        [call, step.expected.clone()].concat()
    };
    let all: Vec<u8> = calls.iter().zip(&steps).flat_map(entry).collect();
    all[..all.len().min(600)].to_vec()
}

/// Every list of it.
fn shown(held: Held) {
    let options = Options {
        middle: held.unheld > 0,
        ..Options::default()
    };
    let view = View::of(held, &options);
    let mut out = Vec::new();
    for broken in [false, true] {
        list::text(&view, broken, &mut out).unwrap();
        list::rows(&view, broken, Form::Json, &mut out).unwrap();
    }
    asrun::list(&view).write(Form::Csv, &mut out).unwrap();
    let texts = [
        asrun::text(&view),
        asrun::json(&view),
        sqlite::sql(&asrun::list(&view)),
        timeline::bars(&view, &timeline::DIGITS),
        page::page(&view),
    ];
    assert!(texts.iter().all(|text| !text.is_empty()) && !out.is_empty());
}

#[test]
fn mutated_recordings() {
    let from = recordings();
    let good = survives(
        |mutator| mutator.mutated(&from),
        |input| match Recording::read("it", input.to_vec()) {
            Ok(recording) => {
                let bytes = pcap::capture(&recording, 7);
                assert!(bytes.len() >= 24);
                shown(Held::of(recording, &CH1, input.len() % 2 == 0));
                true
            }
            Err(_) => false,
        },
    );
    assert!(good > 100, "{good}");
}

#[test]
fn mutated_card_files() {
    let from = recordings();
    let split = |bytes: &[u8]| {
        let Ok(recording) = Recording::read("it", bytes.to_vec()) else {
            return (Vec::new(), Vec::new());
        };
        let calls = recording.entries().flat_map(|e| e.bytes.to_vec()).collect();
        let found = recording.entries().flat_map(|e| e.found.to_vec()).collect();
        (calls, found)
    };
    let (calls, found): (Vec<Vec<u8>>, Vec<Vec<u8>>) = from.iter().map(|b| split(b)).unzip();
    let good = survives(
        |mutator| {
            let mut both = mutator.mutated(&calls);
            both.extend([0xEE; 4]);
            both.extend(mutator.mutated(&found));
            both
        },
        |input| {
            let at = input.windows(4).position(|w| w == [0xEE; 4]).unwrap_or(0);
            let (calls, found) = (&input[..at], &input[at..][4..]);
            match Recording::of_card(("in", calls), ("out", found), &CH1) {
                Ok(recording) => {
                    shown(Held::of(recording, &CH1, false));
                    true
                }
                Err(_) => false,
            }
        },
    );
    assert!(good > 100, "{good}");
}

#[test]
fn mutated_captures() {
    let live = include_bytes!("../recordings/live.pcap");
    let slow = include_bytes!("../recordings/live-slow.pcapng");
    let short = |bytes: Vec<u8>| pcap::capture(&Recording::read("it", bytes).unwrap(), 1_460);
    let incident = include_bytes!("../recordings/incident.rec").to_vec();
    let [incident, messages] = [incident, messages()].map(short);
    let from = vec![
        live[..2_400].to_vec(),
        slow[..2_800].to_vec(),
        incident,
        messages,
    ];
    let good = survives(
        |mutator| mutator.mutated(&from),
        |input| match pcap::recorded("it", input, &CH1) {
            Ok(back) => !Held::of(back.recording, &CH1, back.middle)
                .recording
                .bytes()
                .is_empty(),
            Err(_) => false,
        },
    );
    assert!(good > 100, "{good}");
}

/// The words of `model cue` for an input whose first byte says how it is given: in a file of a transport
/// stream or of records, as it is, as base64, within words that make a section, with a time, as digits.
fn cue_words(input: &[u8], path: &str) -> Vec<String> {
    let (kind, bytes) = (input[0], &input[1..]);
    let text = String::from_utf8_lossy(bytes).to_string();
    let hex = crate::message::hex(bytes);
    let pts = (bytes.len() * 77).to_string();
    let words = match kind {
        0 => vec!["--ts", path],
        1 => vec!["--records", path],
        2 => vec![&text[..]],
        3 => return vec![model::cue_command::to_base64(bytes)],
        4 => return vec!["--make".into(), "insert".into(), format!("event={text}")],
        5 => vec![&hex[..], "--pts", &pts, "--at", "1700000000.5"],
        _ => vec![&hex[..]],
    };
    words.into_iter().map(str::to_string).collect()
}

#[test]
fn mutated_cues() {
    let sections = (0..40).map(|n| model::gen::sections::good(n, 1).concat());
    let sections: Vec<Vec<u8>> = sections.collect();
    let streams = vec![model::carriage::stream(&sections[..3]), messages()];
    let file = std::env::temp_dir().join(format!("mutated-cue-{}", std::process::id()));
    let path = file.to_str().unwrap().to_string();
    let make = |mutator: &mut Mutator| {
        let kind = mutator.below(16) as u8;
        let mut input = match kind {
            0 | 1 => mutator.mutated(&streams),
            _ => mutator.mutated(&sections),
        };
        input.insert(0, kind);
        input
    };
    let good = survives(make, |input| {
        if input[0] < 2 {
            std::fs::write(&path, &input[1..]).unwrap();
        }
        model::cue_command::command(&cue_words(input, &path), model::gen::sections::good).is_ok()
    });
    let _ = std::fs::remove_file(file);
    assert!(good > 100, "{good}");
}

/// For the dissector (tools/dissector.sh): a capture of so many connections with mutated messages, from a
/// number on, in pieces of any size.
#[test]
#[ignore = "writes the file that MUTATED_CAPTURE names"]
fn a_capture_for_the_dissector() {
    let path = std::env::var("MUTATED_CAPTURE").expect("MUTATED_CAPTURE names a file");
    let (first, count) = (asked("MUTATED_FIRST", 0), asked("MUTATED_N", 1_000));
    let recording = Recording::read("it", messages()).unwrap();
    let (mut requests, mut answers) = (Vec::new(), Vec::new());
    for entry in recording.entries() {
        if let Some(Call::Message(_, bytes)) = entry.call() {
            requests.push(bytes.to_vec());
        }
        let found = items(entry.found, 0);
        answers.extend(
            found
                .iter()
                .filter_map(|item| Some(item.bytes.get(2..)?.to_vec())),
        );
    }
    let mut to = pcap::Connections::default();
    for number in first..first + count {
        let mutator = &mut Mutator::of(asked("MUTATED_SEED", 1), number);
        let [asks, says] = [&requests, &answers].map(|list| {
            let all = (0..1 + mutator.below(3)).flat_map(|_| mutator.mutated(list));
            all.collect::<Vec<u8>>()
        });
        let most = [8, 60, 400, 1_400][mutator.below(4)];
        to.add(&asks, &says, 1 + mutator.below(most));
    }
    std::fs::write(path, to.bytes()).unwrap();
}

//! Streams that are mostly cue calls (02, CR 7), through both; every cut and changed bit of the plainest
//! sections; and the mistakes that must be noticed.

use crate::calls::{ask_core, Act, Call, Desk};
use crate::pair::Pair;
use crate::run::{self, Plan};
use crate::stream_calls::{Stream, LONGEST};
use crate::tell;
use crate::wrong::{self, Wrong};
use crate::{booked, noticed};
use model::gen::{cue_streams, sections};
use model::hold::watch::CUE_FLOORS as FLOORS;
use model::people::card;
use model::people::cue_call::Given;
use model::people::scenario::message;
use splicer::{Splicer, OUT};

/// A mistake must be noticed within this many streams.
const FOR_A_MISTAKE: u64 = 30;

/// The calls of a generated stream of cues.
pub fn stream(seed: u64, index: u64) -> Stream {
    Stream { index, name: card::channel_name(), acts: cue_streams::stream(seed, index) }
}

pub fn streams(seed: u64) -> Vec<Stream> {
    (0..FOR_A_MISTAKE).map(|index| stream(seed, index)).collect()
}

/// The comparison on N streams and on the plainest sections, then every mistake, by the comparison and by the records alone.
pub fn everything(plan: &Plan, n: u64) -> Vec<bool> {
    let mut results = vec![compared(plan, n), plainest()];
    let list = streams(plan.seed);
    let all = wrong::cues();
    for wrong in &all {
        results.push(noticed(plan, &list, *wrong));
    }
    let models = all.iter().filter(|wrong| matches!(wrong, Wrong::Cue(_)));
    for wrong in models {
        results.push(booked(&list, *wrong));
    }
    let unnoticed = results[2..].iter().filter(|good| !**good).count();
    println!(
        "beside: {} mistakes about cues, {} of them by the records alone too: {unnoticed} not noticed",
        all.len(),
        results.len() - 2 - all.len()
    );
    results
}

fn compared(plan: &Plan, n: u64) -> bool {
    let plan = Plan { n, make: stream, ..*plan };
    let tally = run::run(&plan);
    let never = if n < 100 { Vec::new() } else { tally.hits.never(FLOORS) };
    let line = format!("{} cue streams, {} calls, {} cues", tally.streams, tally.calls, tally.cues);
    tell::compared(&line, plan.seed, "cue ", &tally.differences, &never)
}

/// Connections 0 and 2 initialised, 1 open.
fn ready() -> Vec<Act> {
    let name = card::channel_name();
    // a Hardware_Config of Length 0
    let init = [&[0, 2], &name[..], &[0; 34]].concat();
    let calls = [
        Call::Open(0),
        Call::Open(1),
        Call::Open(2),
        Call::Message(0, message(0x0001, init.clone())),
        Call::Message(2, message(0x0001, init)),
    ];
    calls.map(|call| Act::plain(call, OUT)).to_vec()
}

fn plainest() -> bool {
    let list = cue_streams::systematic();
    let cue = |given: &Given| Act::plain(Call::Cue(given.clone()), OUT);
    let acts = ready().into_iter().chain(list.iter().map(cue));
    let mut desk = Desk::new(LONGEST);
    let mut pair = match Pair::fresh(&card::channel_name(), Wrong::Nothing) {
        Ok(pair) => pair,
        Err(text) => {
            println!("{text}");
            return false;
        }
    };
    let mut differ = 0;
    for act in acts {
        if let Err(text) = pair.call(&act, &mut desk, Wrong::Nothing) {
            differ += 1;
            if differ <= 3 {
                println!("{}\n{text}", act.line());
            }
        }
    }
    println!("beside: {} cut and changed sections, {differ} differences", list.len());
    differ == 0
}

/// The core's own Cue_Requests, for programs that read them.
pub fn write_records(seed: u64, path: &str) -> Result<bool, String> {
    let (mut core, _) = Splicer::fresh(&card::channel_name());
    let mut out = vec![0; OUT];
    for act in ready() {
        ask_core(&mut core, &act.call, &mut out);
    }
    let mut written = Vec::new();
    for section in sections::good(seed ^ 1, 600) {
        let call = Call::Cue(Given { section, pts: 0, seconds: 1_700_000_000, micros: 0 });
        written.extend(ask_core(&mut core, &call, &mut out).written);
    }
    std::fs::write(path, &written).map_err(|e| format!("{path}: {e}"))?;
    println!("{} bytes of records", written.len());
    Ok(true)
}

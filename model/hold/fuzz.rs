//! The commands `gen`, `fuzz` and `faults`.

use crate::gen;
use crate::hold::compare;
use crate::hold::demand3;
use crate::hold::faults::{told, FAULTS};
use crate::hold::primary::History;
use crate::hold::run;
use crate::hold::watch::floors::floors;
use crate::hold::watch::table::Hits;
use crate::people::card::{self, Run};
use crate::people::decode::{agreement, call_line, differing, time_text};
use crate::people::record_lines::{self, Line};
use crate::rules::Splicer;

/// Writes N streams as files.
pub fn write_streams(seed: u64, n: u64, dir: &str) -> Result<bool, String> {
    std::fs::create_dir_all(dir).map_err(|e| format!("{dir}: {e}"))?;
    for index in 0..n {
        let path = format!("{dir}/stream-{seed}-{index:05}.in");
        std::fs::write(&path, gen::stream(seed, index)).map_err(|e| format!("{path}: {e}"))?;
    }
    println!("gen: {n} streams in {dir}");
    Ok(true)
}

pub struct Fuzz {
    pub seed: u64,
    pub n: u64,
    pub card: Option<String>,
    pub table: bool,
    pub floors: bool,
}

/// Runs the second program, and the card program if given, on N streams.
pub fn fuzz(plan: &Fuzz) -> Result<bool, String> {
    let mut counts = Hits::default();
    let (mut calls, mut differ, mut broken) = (0, 0, 0);
    for index in 0..plan.n {
        let input = gen::stream(plan.seed, index);
        let (run, seen) = run::counted(&input);
        calls += run.calls.len();
        counts.add(&seen.counts);
        for fault in demand3::broken(&run.calls) {
            println!("demand 3 broken, stream {index}, {fault}");
            broken += 1;
        }
        // 02, CR 13
        for fault in History::of(&run.calls).wrong(run.splicer.primary) {
            println!("a moment of nobody, stream {index}, {fault}");
            broken += 1;
        }
        if let Some(text) = against_card(plan, index, &input, &run)? {
            differ += 1;
            if differ == 1 {
                print!("{text}");
            }
        }
    }
    if let Some(command) = &plan.card {
        differ += u64::from(!fills(command)?);
    }
    let reached = counts.reached(&floors(), plan.table, plan.floors);
    println!("fuzz: {}", counts.totals(&floors()));
    println!("fuzz: {} streams, {calls} calls, {differ} differ", plan.n);
    Ok(differ == 0 && broken == 0 && reached)
}

/// Whether the card program writes all that the filling stream asks for.
fn fills(command: &str) -> Result<bool, String> {
    let input = gen::filling();
    let output = compare::run_command(command, &input)?;
    let same = output.trouble.is_none() && output.bytes == card::run(&input).output();
    let (bytes, word) = (output.bytes.len(), ["differs", "agrees"][usize::from(same)]);
    println!("fuzz: the filling stream, {} bytes in, {bytes} out: {word}", input.len());
    Ok(same)
}

/// The difference to the card program on this stream, if there is one.
fn against_card(plan: &Fuzz, index: u64, input: &[u8], run: &Run) -> Result<Option<String>, String> {
    let Some(command) = &plan.card else {
        return Ok(None);
    };
    let output = compare::run_command(command, input)?;
    let (agreed, at, same) = agreement(run, &output.bytes);
    if same && output.trouble.is_none() {
        return Ok(None);
    }
    let seed = plan.seed;
    let mut text = format!("seed {seed} stream {index} (model gen --seed {seed} --n {}", index + 1);
    text += &format!(" --out DIR writes it as stream-{seed}-{index:05}.in)\n");
    if let Some(trouble) = output.trouble {
        text += &format!("{trouble}\n");
    }
    if !same {
        text += &last_calls(run, agreed);
        text += &held_before(run, agreed);
        text += &differing(run, agreed, &output.bytes[at..]);
    }
    Ok(Some(text))
}

/// The last calls before this one, with their records.
fn last_calls(run: &Run, call: usize) -> String {
    let mut text = format!("the last calls before call {}:\n", call + 1);
    for done in &run.calls[call.saturating_sub(12)..call] {
        text += &format!("           > {}\n", call_line(&done.call));
        let items = record_lines::items(&done.output);
        for item in items.iter().take(8) {
            text += &format!("           < {}\n", item.line());
        }
        if items.len() > 8 {
            text += &format!("           < ... and {} more\n", items.len() - 8);
        }
    }
    text
}

/// The clock and the sessions that the second program holds before this call.
fn held_before(run: &Run, call: usize) -> String {
    let (mut splicer, _) = Splicer::fresh(&card::channel_name());
    for done in &run.calls[..call] {
        card::make(&mut splicer, &done.call);
    }
    let mut text = format!("held before it, clock {}:\n", time_text(splicer.clock));
    splicer.sessions.sort_by_key(|s| (s.conn, s.start));
    for s in &splicer.sessions {
        text += &format!(
            "  connection {} session {} {:?} {} to {} access {} override {} prior {}\n",
            s.conn,
            s.id,
            s.state,
            time_text(s.start),
            time_text(s.end),
            s.access,
            s.overrides as u8,
            record_lines::number(s.prior)
        );
    }
    text
}

/// Runs the clean program against each faulty one on the generated streams.
pub fn faults(seed: u64, n: u64) -> Result<bool, String> {
    let streams: Vec<Vec<u8>> = (0..n).map(|index| gen::stream(seed, index)).collect();
    let clean: Vec<Run> = streams.iter().map(|input| card::run(input)).collect();
    let mut unnoticed = 0;
    for (fault, text) in FAULTS {
        let name = fault.name();
        let mut first = None;
        for (index, input) in streams.iter().enumerate() {
            let faulty = run::by(input, Some(*fault));
            let (agreed, _, same) = agreement(&clean[index], &faulty.output());
            let read = clean[index].calls.iter().zip(&faulty.calls);
            // What is read shows in no record.
            let other = read.take(agreed).position(|(own, found)| own.read != found.read);
            if !same || other.is_some() {
                first = Some((index, other.unwrap_or(agreed) + 1));
                break;
            }
            // By the records alone: the primary sum is none of the answers.
            if !History::of(&faulty.calls).wrong(faulty.splicer.primary).is_empty() {
                first = Some((index, agreed));
                break;
            }
        }
        let place = first.map(|(stream, call)| format!("stream {stream} at call {call}"));
        unnoticed += usize::from(!told(&name, text, place));
    }
    println!("faults: {} faults, {unnoticed} not noticed", FAULTS.len());
    Ok(unnoticed == 0)
}

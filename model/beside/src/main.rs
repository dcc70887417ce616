//! The second program and the proved core, called side by side in one process. After every call the
//! refusal, the bytes consumed and written, the places moved, the waiting counts, the value on air, the page
//! of what ended lately, the map section on air and the rest of the memory are compared.

mod alike;
mod archive_recorder;
mod books;
mod calls;
mod cue_streams;
mod cuebooks;
mod intervals;
mod lists;
mod looks;
mod maps;
mod pages;
mod pair;
mod recall_streams;
mod recorded_streams;
mod rolling_streams;
mod run;
mod run_scenarios;
mod second;
mod stream_calls;
mod tell;
mod wrong;

use model::hold::faults::{Fault, FAULTS};
use model::option;
use run::{Plan, Tally};
use stream_calls::Stream;
use wrong::Wrong;

const HELP: &str = "\
beside [--seed S] [--n N] [--first I] [--threads T]   N streams through both, then every fault
       [--recordings R]                               and recordings of R streams through both checkers
       [--rolling R]                                  and R streams of a rolling card through both
       [--cues R]                                     and R streams of cue calls through both
       [--recalls R]                                  and R streams, and logs of each, through the second engine
beside --cue-records FILE [--seed S]                  writes Cue_Requests of the core
beside --fault NAME [--seed S]                        one deliberate fault, by its name
";

/// A fault must be noticed within this many streams.
const FOR_A_FAULT: u64 = 64;

/// Faults of the second program that the records alone do not give away: they hold no order of records and no field that is
/// read in another place to a sentence. All others must be noticed with no program to compare.
#[rustfmt::skip]
const UNBOOKED: &[Fault] = &[
    Fault::LowestEndsFirst, Fault::StartBeforeEnds, Fault::WholeNameCompared, Fault::CoveredAbortCompletes,
    Fault::CloseWaitingFirst, Fault::LinkedMicrosChecked, Fault::FollowersOfStarted, Fault::FollowersLastFirst,
    Fault::NextStructureTooFar, Fault::TailAt18, Fault::UnknownRateRefused, Fault::CloseByNewState,
    Fault::NameBeginsAlike,
];

fn main() {
    model::unwritten("beside");
    match model::words().and_then(command) {
        Ok(true) => {}
        Ok(false) => std::process::exit(1),
        Err(text) => {
            eprintln!("beside: {text}; --help says what it takes");
            std::process::exit(2);
        }
    }
}

/// How many streams of the further kinds.
struct More {
    recordings: u64,
    rolling: u64,
    cues: u64,
    recalls: u64,
}

fn command(mut args: Vec<String>) -> Result<bool, String> {
    if args.iter().any(|word| word == "--help" || word == "-h") {
        print!("{HELP}");
        return Ok(true);
    }
    let fault = option(&mut args, "--fault")?;
    let plan = Plan {
        seed: number(&mut args, "--seed", 280)?,
        first: number(&mut args, "--first", 0)?,
        n: number(&mut args, "--n", 760)?,
        threads: number(&mut args, "--threads", 2)?,
        make: stream_calls::stream,
    };
    let more = More {
        recordings: number(&mut args, "--recordings", 40)?,
        rolling: number(&mut args, "--rolling", 300)?,
        cues: number(&mut args, "--cues", 420)?,
        recalls: number(&mut args, "--recalls", 36)?,
    };
    let cue_records = option(&mut args, "--cue-records")?;
    if let Some(word) = args.first() {
        return Err(format!("unknown word {word}"));
    }
    if plan.n == 0 || plan.threads == 0 {
        return Err("--n 0 and --threads 0 compare nothing".to_string());
    }
    if let Some(path) = cue_records {
        return cue_streams::write_records(plan.seed, &path);
    }
    let results = match fault {
        Some(name) => vec![one(&plan, wrong::named(&name).ok_or(format!("no fault {name}"))?)],
        None => all(&plan, &more),
    };
    let passed = results.iter().filter(|good| **good).count();
    let failed = results.len() - passed;
    println!("{passed} passed, {failed} failed");
    Ok(failed == 0)
}

/// One fault.
fn one(plan: &Plan, wrong: Wrong) -> bool {
    match wrong::cues().contains(&wrong) {
        true => noticed(plan, &cue_streams::streams(plan.seed), wrong),
        false => noticed(plan, &run::streams(plan.seed, 0, FOR_A_FAULT), wrong),
    }
}

/// The comparison of every kind of stream, and every fault.
fn all(plan: &Plan, more: &More) -> Vec<bool> {
    let mut results = everything(plan, &run::streams(plan.seed, 0, FOR_A_FAULT));
    results.extend(recorded_streams::everything(plan.seed, more.recordings));
    results.extend(archive_recorder::everything(plan.seed, more.recordings));
    results.extend(rolling_streams::everything(plan.seed, more.rolling));
    results.extend(cue_streams::everything(plan, more.cues));
    results.extend(recall_streams::everything(plan.seed, more.recalls));
    results
}

/// The comparison, and every fault.
fn everything(plan: &Plan, list: &[Stream]) -> Vec<bool> {
    let mut results = vec![compared(plan), lists::run(plan.seed), run_scenarios::run()];
    let alike = results.len();
    for wrong in wrong::all() {
        results.push(noticed(plan, list, wrong));
    }
    results.extend(lists::FAULTS.map(|fault| lists::noticed(plan.seed, fault)));
    let booked_too = FAULTS.iter().filter(|(fault, _)| !UNBOOKED.contains(fault));
    let faults = booked_too.map(|(fault, _)| Wrong::Model(*fault));
    let by_records: Vec<Wrong> = faults.chain(wrong::reporting()).collect();
    for wrong in &by_records {
        results.push(booked(list, *wrong));
    }
    let unnoticed = results[alike..].iter().filter(|good| !**good).count();
    println!(
        "beside: {} faults, and {} of them by the records alone: {unnoticed} not noticed",
        wrong::all().len(),
        by_records.len()
    );
    results
}

fn number(args: &mut Vec<String>, name: &str, usual: u64) -> Result<u64, String> {
    match option(args, name)? {
        None => Ok(usual),
        Some(text) => text.parse().map_err(|_| format!("{name}: no number: {text}")),
    }
}

/// The comparison itself.
fn compared(plan: &Plan) -> bool {
    let tally = run::run(plan);
    println!("refusals from 1 on: {:?}", &tally.refusals[1..]);
    let [air, covered, none, reached, not] = tally.read;
    println!("read: {air} with one on air, {covered} with a covered one; {none} nothing due, {reached} reached, {not} by no tick");
    let line = format!("{} streams, {} calls ({} cues)", tally.streams, tally.calls, tally.cues);
    let unread = plan.n >= 200 && tally.read.contains(&0);
    tell::compared(&line, plan.seed, "", &tally.differences, &never(plan, &tally)) && !unread
}

/// The branches of the second program's table that no call took. Few streams need not take all.
fn never(plan: &Plan, tally: &Tally) -> Vec<&'static str> {
    if plan.n < 200 {
        return Vec::new();
    }
    let never = tally.counts.never(&model::hold::watch::floors::floors());
    // These are the card program's own reading.
    never.into_iter().filter(|name| !name.starts_with("card ")).collect()
}

/// Shows that the comparison notices a fault.
pub fn noticed(plan: &Plan, list: &[Stream], wrong: Wrong) -> bool {
    let found = run::noticed(plan.seed, list, wrong);
    tell::noticed(&wrong.line(), found.as_deref().map(tell::place), "")
}

/// Shows that the books notice a fault by themselves.
pub fn booked(list: &[Stream], wrong: Wrong) -> bool {
    tell::noticed(&wrong.line(), run::booked(list, wrong).as_deref(), " by the records alone")
}

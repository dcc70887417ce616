//! The command `recalls`: an engine that only remembers (02, CR 12). The second program's is held to what the card's
//! calls and answers alone say; the program `remember` to it; and the card program to both up to the first 13, also
//! when it is fed with the log.

use crate::gen::aims::{self, ROUND};
use crate::gen::logs::{histories, whole};
use crate::gen::recall_calls::{differing, not_the_cards, History};
use crate::hold::compare;
use crate::hold::due::{due, Due, FLOORS};
use crate::hold::faults::{told, Fault};
use crate::hold::lapses::{Lapse, Lapsed, LAPSES};
use crate::hold::run;
use crate::hold::watch::table::{Floors, Hits};
use crate::people::card::{self, Stop};
use crate::people::decode::{agreement, call_line};
use crate::people::recall::{self, Recall, FULL};
use crate::people::record_lines::{self, Line};
use crate::people::scenario;

/// Branches of the rules that must be taken before the first 13, with floors for 36 streams.
const RULES: &Floors = &[
    ("tick over 100 instants or more", 2),
    ("Splice f moved 10 to 62", 15),
    ("stack 10 deep", 6),
    ("start over an equal one, ten deep", 1),
    ("Abort waiting with two followers or more", 2),
    ("eviction with two followers or more", 4),
    ("failed start with two followers or more", 10),
    ("start over an equal one with two followers or more", 5),
    ("Close with 10 waiting or more", 5),
    ("GetConfig 100 behind another good Init", 100),
    ("GetConfig 100 behind a failed later Init", 40),
    ("GetConfig 100 with its own on air", 1),
    ("GetConfig 100 with another's on air", 3),
    ("ExtendedData 100 of a 100", 25),
    ("ExtendedData 100 of a 109", 1),
    ("ExtendedData 100 of a 116, played 0", 30),
    ("ExtendedData 100 from before its connection was opened again", 20),
];

/// How many of all branches of the rules must be taken before the first 13.
const TAKEN: usize = 290;

/// Faults of the rules that the streams must show before the first 13, as if they were in the second engine alone.
#[rustfmt::skip]
const MUST_SHOW: &[Fault] = &[
    Fault::LowestEndsFirst, Fault::OnlyDirectFollower, Fault::CountedAfterEviction, Fault::EqualStartsWithoutFlag,
    Fault::PlayedInMicroseconds, Fault::StartBeforeEnds, Fault::CoveredAbortCompletes, Fault::CloseWaitingFirst,
    Fault::CoveredEnd100, Fault::NeverOnAirAgain, Fault::OnePool, Fault::TwentyOneWaiting, Fault::EvictedAfterAnswer,
    Fault::FollowersElsewhere, Fault::FailedInitUndoes, Fault::EvictionLeavesFollowers, Fault::AbortedFollowers109,
    Fault::CoveredTimePlayed, Fault::ReopenedInitialised, Fault::FollowersLastFirst, Fault::LowestOnAirAgain,
    Fault::CloseByNewState, Fault::InstantLeftOver, Fault::FailureLeavesFollowers, Fault::EqualCovered,
    Fault::EqualResumed, Fault::EqualFollowers109, Fault::EqualLeavesFollowers, Fault::EqualEndsBehindStart,
    Fault::FifteenKept, Fault::NewestDropped, Fault::CoveredPlayedLost, Fault::CloseDropsEnded, Fault::OpenDropsEnded,
    Fault::AnothersEndFound, Fault::OldestEndFound, Fault::HeldAgain121, Fault::FailedInitKept,
    Fault::FirstHardwareKept, Fault::OneHardware,
];

/// What the program writes, with a mistake.
fn program(input: &[u8], lapse: Option<Lapse>) -> Vec<u8> {
    let run = recall::run_by(&Lapsed(lapse), input);
    let output = run.output();
    let Some(first) = run.first_13() else {
        return output;
    };
    let to = run.calls[first].to;
    let until = || -> Vec<u8> {
        let before = run.calls[..=first].iter().map(|done| &done.output[..]);
        before.collect::<Vec<_>>().concat()
    };
    match lapse {
        Some(Lapse::StopsAtThirteen) => until(),
        Some(Lapse::FreshAtThirteen) => [until(), program(&input[to..], lapse)].concat(),
        Some(Lapse::OversizeGoesOn) if run.stop == Stop::TooLarge => {
            let last = run.calls.last().map_or(0, |done| done.to);
            let more = recall::run(&input[last..]).calls.len();
            [output, [0x45, FULL].repeat(more)].concat()
        }
        _ => output,
    }
}

/// What `recalls` is asked for.
pub struct Plan {
    pub seed: u64,
    pub n: u64,
    /// The program `remember`.
    pub remember: Option<String>,
    pub card: Option<String>,
    /// A folder for the streams and what is due of them.
    pub out: Option<String>,
    pub table: bool,
    pub floors: bool,
    /// Scenario files, whose calls are streams too.
    pub files: Vec<String>,
}

/// What came of all streams.
#[derive(Default)]
struct Sum {
    streams: u64,
    calls: u64,
    logs: u64,
    /// Those that came to a 13.
    full: u64,
    differ: u64,
    hits: Hits,
    rules: Hits,
    taken: std::collections::BTreeSet<&'static str>,
}

/// Runs N streams, and logs of each, through the second program's engine and those given.
pub fn recalls(plan: &Plan) -> Result<bool, String> {
    let mut sum = Sum::default();
    for path in &plan.files {
        if let Some(input) = of_scenario(path)? {
            sum.stream(plan, path, &input)?;
        }
    }
    // the branches and floors are those of the streams
    (sum.hits, sum.rules) = Default::default();
    sum.taken.clear();
    for index in 0..plan.n {
        let name = format!("seed {} stream {index}", plan.seed);
        let input = aims::stream(plan.seed, index);
        if let Some(dir) = &plan.out {
            written(dir, &format!("recall-{}-{index:05}", plan.seed), &input)?;
        }
        sum.stream(plan, &name, &input)?;
        sum.logs(plan.seed, index);
    }
    Ok(sum.told(plan))
}

/// A scenario's calls as card input.
fn of_scenario(path: &str) -> Result<Option<Vec<u8>>, String> {
    let text = std::fs::read_to_string(path).map_err(|e| format!("{path}: {e}"))?;
    let steps = scenario::parse(&text).map_err(|e| format!("{path}: {e}"))?;
    // a rolling card's calls and cues are none of this engine
    let marked = !scenario::is_rolling(&steps) && !scenario::is_cued(&steps);
    Ok(marked.then(|| scenario::input_of(&steps)))
}

/// Writes a stream, and what is due of it.
fn written(dir: &str, name: &str, input: &[u8]) -> Result<(), String> {
    std::fs::create_dir_all(dir).map_err(|e| format!("{dir}: {e}"))?;
    for (end, bytes) in [("in", input), ("out", &due(input).output())] {
        let path = format!("{dir}/{name}.{end}");
        std::fs::write(&path, bytes).map_err(|e| format!("{path}: {e}"))?;
    }
    Ok(())
}

impl Sum {
    fn stream(&mut self, plan: &Plan, name: &str, input: &[u8]) -> Result<(), String> {
        let due = due(input);
        let cut = &input[..due.cut.unwrap_or(input.len())];
        self.streams += 1;
        self.calls += due.calls.len() as u64;
        self.full += u64::from(due.cut.is_some());
        self.hits.add(&due.hits);
        self.count_rules(&run::counted(cut).1.counts);
        for text in wrong(plan, input, cut, &due)? {
            println!("{name}: {text}");
            self.differ += 1;
        }
        Ok(())
    }

    fn count_rules(&mut self, counts: &Hits) {
        for (name, _) in RULES {
            self.rules.more(name, counts.of(name));
        }
        for (name, floor) in crate::hold::watch::floors::floors() {
            if floor > 0 && counts.of(name) > 0 {
                self.taken.insert(name);
            }
        }
    }

    /// Logs of a stream, changed and made up: the card program's answer behind each.
    fn logs(&mut self, seed: u64, index: u64) {
        for history in histories(seed, index) {
            self.logs += 1;
            if let Some((call, text)) = not_the_cards(&Recall, &history) {
                let (kind, line) = (history.kind, history.acts[call].line());
                println!("seed {seed} log of stream {index}, {kind}: {line}: {text}");
                self.differ += 1;
            }
        }
    }

    fn told(&self, plan: &Plan) -> bool {
        if plan.table {
            print!("{}{}", self.hits.table(FLOORS), self.rules.table(RULES));
        }
        let mut missing = Vec::new();
        if plan.floors {
            missing = [self.hits.missing(FLOORS), self.rules.missing(RULES)].concat();
            let taken = self.taken.len();
            missing.extend((taken < TAKEN).then(|| format!("all branches: {taken} of {TAKEN}")));
        }
        for line in &missing {
            println!("below its floor: {line}");
        }
        let all = crate::hold::watch::floors::floors().into_iter().filter(|(_, f)| *f > 0);
        if self.differ > 0 {
            let (seed, n) = (plan.seed, plan.n);
            println!("model recalls --seed {seed} --n {n} --out DIR writes the streams and what is due");
        }
        println!(
            "recalls: {} of {} branches of the rules before the first 13, {} branches of the log",
            self.taken.len(),
            all.count(),
            FLOORS.len()
        );
        println!(
            "recalls: {} streams, {} calls, {} logs, {} with a 13, {} differ",
            self.streams, self.calls, self.logs, self.full, self.differ
        );
        self.differ == 0 && missing.is_empty()
    }
}

/// What differs on a stream.
fn wrong(plan: &Plan, input: &[u8], cut: &[u8], due: &Due) -> Result<Vec<String>, String> {
    let own = recall::run(input);
    let mut list = Vec::new();
    list.extend(other_output("the second program", due, &own.output()));
    if own.log != due.log {
        list.push("the second program keeps another log".to_string());
    }
    if let Some(command) = &plan.remember {
        let output = compare::run_command(command, input)?;
        list.extend(output.trouble);
        list.extend(other_output(command, due, &output.bytes));
    }
    let (before, kept) = due.before();
    // what the good calls are, fed with the log, and what they were among the refused ones
    for (what, input, wanted) in [("until 13", cut, &before), ("the log", &due.log, &kept)] {
        let output = match &plan.card {
            Some(command) => compare::run_command(command, input)?,
            None => compare::Output { bytes: card::run(input).output(), trouble: None },
        };
        list.extend(output.trouble);
        if output.bytes != *wanted {
            list.push(format!("the card writes something else, fed with {what}"));
        }
    }
    Ok(list)
}

/// The first call whose output is not the due one.
fn other_output(who: &str, due: &Due, output: &[u8]) -> Option<String> {
    let lines = |bytes: &[u8]| {
        let items: Vec<String> = record_lines::items(bytes).iter().map(|i| i.line()).collect();
        items.join("; ")
    };
    let mut rest = output;
    for (at, (call, wanted)) in due.calls.iter().enumerate() {
        if !rest.starts_with(wanted) {
            let (call, wanted) = (call_line(call), lines(wanted));
            let found = lines(&rest[..rest.len().min(200)]);
            return Some(format!("{who}: call {}: {call}\n  due: {wanted}\n  from there on: {found}", at + 1));
        }
        rest = &rest[wanted.len()..];
    }
    (!rest.is_empty()).then(|| format!("{who} writes {} bytes too many", rest.len()))
}

/// Shows that each deliberate mistake is noticed: of the log and the calls on it, of the program, and of the rules.
pub fn faults(seed: u64, n: u64) -> Result<bool, String> {
    let logs: Vec<History> = (0..n).flat_map(|index| histories(seed, index)).collect();
    let seen = |(lapse, text): &&(Lapse, &str)| told(&format!("{lapse:?}"), text, noticed(seed, n, &logs, *lapse));
    let inputs: Vec<Vec<u8>> = (0..2 * ROUND).map(|index| until_13(seed, index)).collect();
    let must = |fault: &&Fault| told(&fault.name(), fault.text(), shown(&inputs, **fault));
    let good = LAPSES.iter().filter(seen).count() + MUST_SHOW.iter().filter(must).count();
    let all = LAPSES.len() + MUST_SHOW.len();
    let unnoticed = all - good;
    println!("recalls: {all} mistakes, {unnoticed} not noticed");
    Ok(unnoticed == 0)
}

/// Where a mistake of the engine or the program shows.
fn noticed(seed: u64, n: u64, logs: &[History], lapse: Lapse) -> Option<String> {
    let engine = Lapsed(Some(lapse));
    for history in logs {
        if let Some((call, _)) = differing(history, &engine, &Recall) {
            return Some(format!("a log, {}, at call {}", history.kind, call + 1));
        }
    }
    for index in 0..n {
        let input = aims::stream(seed, index);
        if program(&input, Some(lapse)) != recall::run(&input).output() {
            return Some(format!("stream {index}"));
        }
        if differing(&whole(seed, index), &engine, &Recall).is_some() {
            return Some(format!("stream {index} with other calls between"));
        }
    }
    None
}

/// A stream, cut before the first call that gets 13.
fn until_13(seed: u64, index: u64) -> Vec<u8> {
    let mut input = aims::stream(seed, index);
    let to = due(&input).cut.unwrap_or(input.len());
    input.truncate(to);
    input
}

/// Where a fault of the rules shows in these.
fn shown(inputs: &[Vec<u8>], fault: Fault) -> Option<String> {
    for (index, input) in inputs.iter().enumerate() {
        let faulty = run::by(input, Some(fault)).output();
        let (agreed, _, same) = agreement(&card::run(input), &faulty);
        if !same {
            return Some(format!("stream {index} at call {}", agreed + 1));
        }
    }
    None
}

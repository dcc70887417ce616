//! Scenario files run through the second program and the card program.

use crate::hold::compare;
use crate::people::card::{self, Call, Run};
use crate::people::looks::Reads;
use crate::people::record_lines::{self, Line};
use crate::people::rolling;
use crate::people::scenario::{input_of, is_cued, is_rolling, parse, rolling_calls, shown, Step};
use crate::rules::{Splicer, ROOM};

/// Holds what is read after the calls so far to the scenario. The text tells the first difference.
pub fn read_difference(steps: &[Step], run: &Run) -> Option<String> {
    let (mut at, fresh) = (0, Reads::of(&Splicer::fresh(&card::channel_name()).0));
    for step in steps {
        at += step.input.len();
        let made = run.calls.iter().take_while(|done| done.to <= at);
        if let Some(text) = misread(step, made.last().map_or(&fresh, |done| &done.read)) {
            return Some(text);
        }
    }
    None
}

/// Holds what is read here to one line of a scenario.
fn misread(step: &Step, reads: &Reads) -> Option<String> {
    let found = step.misread(reads)?;
    Some(format!("  line {}: {}\n    the second program reads {found}\n", step.line, step.text))
}

/// Holds one output to the scenario. The text tells the first difference.
pub(crate) fn difference(steps: &[Step], who: &str, output: &[u8]) -> Option<String> {
    let mut at = 0;
    for step in steps {
        let to = at + step.expected.len();
        if output.get(at..to) != Some(&step.expected[..]) {
            let text = format!("line {}: {}", step.line, step.text);
            return Some(told(&text, who, &step.expected, &output[at.min(output.len())..]));
        }
        at = to;
    }
    if output.len() > at {
        return Some(told("after the last call", who, &[], &output[at..]));
    }
    None
}

fn told(call: &str, who: &str, expected: &[u8], got: &[u8]) -> String {
    let mut text = format!("  {call}\n");
    let wanted = record_lines::items(expected);
    for item in &wanted {
        text += &format!("    expected  {}\n", item.line());
    }
    if expected.is_empty() {
        text += "    expected  nothing\n";
    }
    text += &format!("    {who} wrote from here on\n");
    let found = record_lines::items(got);
    for item in found.iter().take(wanted.len() + 3) {
        text += &format!("    got       {}\n", item.line());
    }
    if found.is_empty() {
        text += "    got       nothing\n";
    }
    text
}

/// Runs a rolling card's scenario through the second program.
pub(crate) fn run_rolling(steps: &[Step]) -> Result<(), String> {
    let calls = rolling_calls(steps).map_err(|e| format!("  {e}\n"))?;
    let (mut card, _) = rolling::Rolling::fresh(&card::channel_name());
    for (step, call) in steps.iter().zip(&calls) {
        let output = card.shown(call);
        if let Some(text) = difference(std::slice::from_ref(step), "the second program", &output) {
            return Err(text);
        }
    }
    Ok(())
}

/// Runs a scenario with cue calls (02, CR 7) through the second program, call by call.
pub(crate) fn run_cued(steps: &[Step]) -> Result<usize, String> {
    let (mut splicer, _) = Splicer::fresh(&card::channel_name());
    for step in steps {
        let output = match &step.cue {
            Some(given) => shown(splicer.cue(given, ROOM)),
            None => calls_of(&step.input).iter().flat_map(|call| card::make(&mut splicer, call)).collect(),
        };
        if let Some(text) = difference(std::slice::from_ref(step), "the second program", &output) {
            return Err(text);
        }
        if let Some(text) = misread(step, &Reads::of(&splicer)) {
            return Err(text);
        }
    }
    Ok(steps.iter().filter(|step| step.is_read()).count())
}

/// The calls of a step's input.
fn calls_of(input: &[u8]) -> Vec<Call> {
    let (mut list, mut at) = (Vec::new(), 0);
    while let Ok((call, length)) = card::next_call(&input[at..]) {
        list.push(call);
        at += length;
    }
    list
}

/// Runs one scenario file through the second program and, if given, the card program; says if it did
/// not run there. Gives the number of its lines that read too.
fn run_file(path: &str, card: Option<&str>) -> Result<(usize, &'static str), String> {
    let text = std::fs::read_to_string(path).map_err(|e| format!("  {e}\n"))?;
    let steps = parse(&text).map_err(|e| format!("  {e}\n"))?;
    if is_rolling(&steps) {
        run_rolling(&steps)?;
        return Ok((0, " (a rolling card: the second program, not the card program)"));
    }
    if is_cued(&steps) {
        let reads = run_cued(&steps)?;
        return Ok((reads, " (cues: the second program, not the card program)"));
    }
    let input = input_of(&steps);
    let run = card::run(&input);
    if let Some(text) = difference(&steps, "the second program", &run.output()) {
        return Err(text);
    }
    if let Some(text) = read_difference(&steps, &run) {
        return Err(text);
    }
    if let Some(command) = card {
        let output = compare::run_command(command, &input).map_err(|e| format!("  {e}\n"))?;
        if let Some(text) = difference(&steps, "the card program", &output.bytes) {
            return Err(text);
        }
        if let Some(text) = output.trouble {
            return Err(format!("  {text}\n"));
        }
    }
    let reads = steps.iter().filter(|step| step.is_read()).count();
    Ok((reads, ""))
}

/// Which of the programs took part. The card program has no call that reads a value.
fn who_ran(card: bool, reads: usize) -> String {
    let with = if card { " and the card program" } else { "" };
    let without = match (card, reads) {
        (true, 1..) => format!(" ({reads} lines that read: the second program only)"),
        (_, 0) => String::new(),
        _ => format!(" ({reads} lines that read)"),
    };
    format!("run: the second program{with}{without}; the archive by beside")
}

/// All files; true if all passed.
pub fn run_files(paths: &[String], card: Option<&str>) -> bool {
    let (mut failed, mut reads_made) = (0, 0);
    for path in paths {
        let name = path.rsplit('/').next().unwrap_or(path);
        match run_file(path, card) {
            Ok((reads, which)) => {
                reads_made += reads;
                println!("ok {name}{which}");
            }
            Err(text) => {
                failed += 1;
                print!("FAILED {name}\n{text}");
            }
        }
    }
    println!("{}", who_ran(card.is_some(), reads_made));
    println!("{} passed, {failed} failed", paths.len() - failed);
    failed == 0
}

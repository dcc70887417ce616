//! Scenario files: calls and the records they must write, written by hand.

mod calls;
mod expected;
mod look_lines;
mod words;

use crate::people::card::{self, Call};
use crate::people::cue_call::Given;
use crate::people::looks::Reads;
use crate::people::record_lines::{self, Record};
use crate::people::rolling;
pub(crate) use calls::call_bytes;
pub use calls::message;
pub(crate) use expected::expected_bytes;
pub use words::{hex_bytes, time, wide};
use words::{number, words_of, Fields};

/// One call of a scenario, its bytes, and the bytes it must write.
#[derive(Debug, PartialEq, Eq)]
pub struct Step {
    pub line: usize,
    pub text: String,
    pub input: Vec<u8>,
    pub expected: Vec<u8>,
    /// A call that only a rolling card has (02, CR 9): there is no card input of it.
    pub rolling: Option<rolling::Call>,
    /// A cue call (02, CR 7): the card program has no mark of it.
    pub cue: Option<Given>,
    /// `> mux N` and the like: no call of the card program, but what is read here.
    pub read: Option<String>,
}

impl Step {
    /// Whether it is no call, but something that is read.
    pub fn is_read(&self) -> bool {
        self.read.is_some()
    }

    /// What is read here, if it is not what the line says.
    pub fn misread(&self, reads: &Reads) -> Option<String> {
        let wanted = self.read.as_ref()?;
        let found = reads.text(wanted.split(' ').next().unwrap_or_default());
        (found != *wanted).then_some(found)
    }
}

/// Reads a scenario file's text. An error names the line.
pub fn parse(text: &str) -> Result<Vec<Step>, String> {
    let mut steps: Vec<Step> = Vec::new();
    for (index, line) in text.lines().enumerate() {
        let line = line.trim();
        let at = |error: String| format!("line {}: {error}: {line}", index + 1);
        if line.is_empty() || line.starts_with('#') {
            continue;
        }
        if let Some(rest) = line.strip_prefix('>') {
            steps.push(step_of(rest.trim(), index + 1, line).map_err(at)?);
        } else if let Some(rest) = line.strip_prefix('<') {
            let bytes = expected_bytes(rest.trim()).map_err(at)?;
            match steps.last_mut() {
                Some(step) if step.is_read() => {
                    return Err(at("a read writes no record".to_string()));
                }
                Some(step) => step.expected.extend(bytes),
                None => return Err(at("a record before any call".to_string())),
            }
        } else {
            return Err(at("neither > nor < nor #".to_string()));
        }
    }
    Ok(steps)
}

/// A call, or something that is read.
fn step_of(call: &str, line: usize, text: &str) -> Result<Step, String> {
    let (rolling, cue, read) = (rolling_call(call)?, cue_call(call)?, look_lines::wanted(call)?);
    let input = match (&rolling, &cue, &read) {
        (None, None, None) => call_bytes(call)?,
        _ => Vec::new(),
    };
    Ok(Step { line, text: text.to_string(), input, expected: Vec::new(), rolling, cue, read })
}

/// `instant TIME reading=N` or `reading N`.
pub(crate) fn rolling_call(line: &str) -> Result<Option<rolling::Call>, String> {
    let words = words_of(line)?;
    let rest = words.get(2..).unwrap_or_default();
    match (words.first().map(String::as_str), words.get(1)) {
        (Some("instant"), Some(text)) => {
            let (seconds, micros) = time(text)?;
            let mut fields = Fields::new(rest)?;
            let reading = fields.required("reading")?;
            fields.done()?;
            Ok(Some(rolling::Call::Instant { seconds, micros, reading }))
        }
        (Some("reading"), Some(text)) => {
            Fields::new(rest)?.done()?;
            Ok(Some(rolling::Call::Reading(number(text)?)))
        }
        _ => Ok(None),
    }
}

/// `cue HEX pts=N at=TIME`: a section, a PTS and the instant that belongs to it.
pub(crate) fn cue_call(line: &str) -> Result<Option<Given>, String> {
    let words = words_of(line)?;
    let Some(("cue", rest)) = words.split_first().map(|(w, rest)| (w.as_str(), rest)) else {
        return Ok(None);
    };
    let named = rest.iter().position(|word| word.contains('='));
    let (section, fields) = rest.split_at(named.unwrap_or(rest.len()));
    let mut fields = Fields::new(fields)?;
    let pts = wide(&fields.take("pts").ok_or("pts= is missing")?)?;
    let (seconds, micros) = time(&fields.take("at").ok_or("at= is missing")?)?;
    fields.done()?;
    Ok(Some(Given { section: hex_bytes(&section.concat())?, pts, seconds, micros }))
}

/// Whether the scenario has cue calls, so that it is none of the card program.
pub fn is_cued(steps: &[Step]) -> bool {
    steps.iter().any(|step| step.cue.is_some())
}

/// Whether the scenario is one of a rolling card.
pub fn is_rolling(steps: &[Step]) -> bool {
    steps.iter().any(|step| step.rolling.is_some())
}

/// The calls of a rolling card's scenario.
pub fn rolling_calls(steps: &[Step]) -> Result<Vec<rolling::Call>, String> {
    let call = |step: &Step| match &step.rolling {
        Some(call) => Ok(call.clone()),
        None if step.cue.is_some() => Err(format!("line {}: no cue of a rolling card", step.line)),
        None if step.is_read() => Err(format!("line {}: no read of a rolling card", step.line)),
        None => match card::next_call(&step.input) {
            Ok((Call::Tick(..), _)) => Err(format!("line {}: a rolling card has no tick", step.line)),
            Ok((call, length)) if length == step.input.len() => Ok(rolling::Call::Plain(call)),
            _ => Err(format!("line {}: not one call", step.line)),
        },
    };
    steps.iter().map(call).collect()
}

/// The card input of a scenario.
pub fn input_of(steps: &[Step]) -> Vec<u8> {
    steps.iter().flat_map(|s| s.input.clone()).collect()
}

/// What a call writes, as the card program would show it.
pub fn shown(result: Result<Vec<Record>, u8>) -> Vec<u8> {
    match result {
        Ok(list) => record_lines::all_bytes(&list),
        Err(number) => vec![0x45, number],
    }
}

//! The checker of 02, CR 14, for people.

use crate::people::aside::{aside, Step};
use crate::people::card;
use crate::people::decode::{call_line, time_text};
use crate::people::record_lines::{self, Line};
pub use rules::check::{check, checked, Finding, Judged, LONGEST};
use rules::recording::{entries, End};

/// The checker's line, without its end.
impl Line for Finding {
    fn line(&self) -> String {
        match self {
            Finding::None => "none".to_string(),
            Finding::Call(number) => format!("call {number}"),
            Finding::Unknown(place) => format!("refused 14 at {place}"),
            Finding::Longer => "refused 15".to_string(),
        }
    }
}

/// What `model check` writes: the checker's line, then for people the call, and the due records and those found side by side.
pub fn told(recording: &[u8]) -> (String, bool) {
    let (finding, calls) = rules::check::checked(recording);
    let mut text = finding.line() + "\n";
    match finding {
        Finding::None => text += &summary(recording, &calls),
        Finding::Call(number) => text += &aside_text(number, &calls[number]),
        Finding::Unknown(place) => {
            let mark = recording[place];
            text += &format!("  0x{mark:02X} stands where an entry begins and is no mark\n");
        }
        Finding::Longer => {
            text += &format!("  {} bytes, more than {LONGEST}\n", recording.len());
        }
    }
    if let (Finding::None | Finding::Call(_), (_, End::Cut { at, needs })) = (finding, entries(recording)) {
        let there = recording.len() - at;
        text += &format!("  the last entry, at {at}, is cut and dropped: {there} of {needs} bytes\n");
    }
    (text, finding == Finding::None)
}

fn summary(recording: &[u8], calls: &[Judged]) -> String {
    let records: usize = calls.iter().map(|judged| judged.found.len()).sum();
    let (bytes, calls) = (recording.len(), calls.len() - 1);
    format!("  {calls} calls, {records} records and refusals, {bytes} bytes\n")
}

/// A record or refusal as a line.
fn line_of(bytes: &[u8]) -> String {
    let lines: Vec<String> = record_lines::items(bytes).iter().map(|i| i.line()).collect();
    lines.join(" ")
}

/// The call, and its records: `=` the same, `|` another, `<` missing, `>` not due.
fn aside_text(number: usize, judged: &Judged) -> String {
    let call = match judged.call.map(card::next_call) {
        Some(Ok((call, _))) => call_line(&call),
        _ => "before any call".to_string(),
    };
    let clock = time_text(judged.clock);
    let mut text = format!("  call {number} at byte {}, clock {clock}: {call}\n", judged.at);
    let due: Vec<&[u8]> = judged.due.iter().map(|d| &d[..]).collect();
    let mut rows = vec![("due".to_string(), "", "found".to_string())];
    let mut steps = aside(&due, &judged.found).into_iter().peekable();
    while let Some(step) = steps.next() {
        rows.push(match (step, steps.peek().copied()) {
            (Step::Same { due: d, found: f }, _) => (line_of(due[d]), "=", line_of(judged.found[f])),
            (Step::Missing { due: d }, Some(Step::Extra { found: f })) => {
                steps.next();
                (line_of(due[d]), "|", line_of(judged.found[f]))
            }
            (Step::Missing { due: d }, _) => (line_of(due[d]), "<", String::new()),
            (Step::Extra { found: f }, _) => (String::new(), ">", line_of(judged.found[f])),
        });
    }
    let width = rows.iter().map(|(due, ..)| due.len()).max().unwrap_or(0);
    for (due, mark, found) in rows {
        let row = format!("  {due:<width$} {mark:^3} {found}");
        text += &format!("{}\n", row.trim_end());
    }
    text
}

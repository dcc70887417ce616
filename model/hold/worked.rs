//! Worked recordings (`scenarios/recordings`): bytes, and the verdict by hand.

use crate::people::card::channel_name;
use crate::people::scenario::hex_bytes;
use crate::referee::{Kind, Marks, Referee};

/// A recording, its verdict in words, and what was wanted and found if it is a call's.
#[derive(Debug, Default, PartialEq, Eq)]
pub struct Case {
    pub line: usize,
    pub bytes: Vec<u8>,
    pub verdict: String,
    /// The verdict by CR 14's marks alone, if it is another.
    pub plain: Option<String>,
    pub wanted: Vec<u8>,
    pub found: Vec<u8>,
}

/// Words of hexadecimal digits, and `BYTE*TIMES`.
fn bytes_of(text: &str) -> Result<Vec<u8>, String> {
    let mut bytes = Vec::new();
    for word in text.split_whitespace() {
        match word.split_once('*') {
            None => bytes.extend(hex_bytes(word)?),
            Some((byte, times)) => {
                let times = times.parse().map_err(|_| format!("no number: {times}"))?;
                bytes.extend(hex_bytes(byte)?.repeat(times));
            }
        }
    }
    Ok(bytes)
}

/// Reads such a file. An error names the line.
pub fn parse(text: &str) -> Result<Vec<Case>, String> {
    let (mut cases, mut open): (Vec<Case>, bool) = (Vec::new(), false);
    for (index, line) in text.lines().enumerate() {
        let at = |error: String| format!("line {}: {error}: {line}", index + 1);
        if let Some(hex) = line.strip_prefix('>') {
            if !open {
                cases.push(Case { line: index + 1, ..Case::default() });
            }
            open = true;
            let bytes = bytes_of(hex).map_err(at)?;
            cases.last_mut().ok_or("no case")?.bytes.extend(bytes);
        } else if let Some(words) = line.strip_prefix("= ") {
            open = false;
            let case = cases.last_mut().ok_or_else(|| at("no bytes before it".to_string()))?;
            match words.split(' ').next() {
                Some("wanted") => case.wanted = bytes_of(&words[6..]).map_err(at)?,
                Some("found") => case.found = bytes_of(&words[5..]).map_err(at)?,
                Some("plain:") => case.plain = Some(words[7..].to_string()),
                _ => case.verdict = words.to_string(),
            }
        } else if !line.is_empty() && !line.starts_with('#') {
            return Err(at("neither > nor = nor #".to_string()));
        }
    }
    Ok(cases)
}

/// What the second program says otherwise: in one piece and byte by byte, by all marks and by CR 14's.
pub fn wrong(case: &Case) -> Option<String> {
    let plain = case.plain.as_ref().unwrap_or(&case.verdict);
    for (marks, verdict) in [(Marks::Further, &case.verdict), (Marks::Plain, plain)] {
        for length in [1, case.bytes.len().max(1)] {
            let mut referee = Referee::fresh(&channel_name(), marks);
            case.bytes.chunks(length).for_each(|piece| {
                referee.feed(piece);
            });
            let said = referee.end();
            if said.words() != *verdict {
                return Some(format!("line {}: {marks:?}, pieces of {length}: {}, not {verdict}", case.line, said.words()));
            }
            if said.kind == Kind::Call && marks == Marks::Further && (&referee.due, &referee.found) != (&case.wanted, &case.found) {
                return Some(format!("line {}: wanted {:02X?}, found {:02X?}", case.line, referee.due, referee.found));
            }
        }
    }
    None
}

//! The referee's words: its line as the checker's, and what was wanted and found.

use crate::people::record_lines::Line;
use crate::referee::{Kind, Referee, Verdict};

/// The checker's line, without its end; a cut last entry is none.
impl Line for Verdict {
    fn line(&self) -> String {
        match self.kind {
            Kind::InOrder | Kind::Cut => "none".to_string(),
            Kind::Call => format!("call {}", self.number),
            Kind::Unknown => format!("refused 14 at {}", self.place),
        }
    }
}

impl Verdict {
    /// All of it, as the worked recordings have it.
    pub fn words(&self) -> String {
        let Verdict { number, place, good, .. } = self;
        match self.kind {
            Kind::InOrder => format!("in order, {good} good"),
            Kind::Call => format!("call {number} at {place}, {good} good"),
            Kind::Unknown => format!("unknown mark at {place}, {good} good"),
            Kind::Cut => format!("cut at {place}, {good} good"),
        }
    }
}

fn digits(bytes: &[u8]) -> String {
    bytes.iter().map(|b| format!("{b:02X}")).collect()
}

/// `wanted HEX` and `found HEX`, each without a space behind the word if there is nothing.
pub fn wanted_found(referee: &Referee) -> String {
    let line = |word: &str, bytes: &[u8]| format!("{word} {}", digits(bytes)).trim_end().to_string() + "\n";
    line("wanted", &referee.due) + &line("found", &referee.found)
}

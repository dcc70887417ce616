//! What is read of a splicer between its calls, in the words of a scenario: `mux`, `map`, `rows`, `air`, `due` and `sessions`.

use rules::lately::KEPT;
use rules::state::{Due, Row, Session, Splicer, State};

/// All that is read of a splicer.
#[derive(Clone, Debug, PartialEq, Eq)]
pub struct Reads {
    /// The muxpriority value of the one on air (02, CR 5).
    pub mux: u8,
    /// Whether the insertion's map section is the one on air (02, CR 6).
    pub insertion: bool,
    /// The desk's page (02, CR 8).
    pub rows: [Row; KEPT],
    pub air: Option<Session>,
    pub due: Option<Due>,
    pub sessions: Vec<Session>,
}

impl Reads {
    pub fn of(s: &Splicer) -> Reads {
        Reads { mux: s.mux(), insertion: s.insertion(), rows: s.rows(), air: s.air(), due: s.due(), sessions: s.sessions() }
    }

    /// What a line with this word would say.
    pub fn text(&self, word: &str) -> String {
        let list = match word {
            "mux" => vec![self.mux.to_string()],
            "map" => vec![["primary", "insertion"][usize::from(self.insertion)].to_string()],
            "rows" => rows_text(&self.rows),
            "air" => vec![self.air.as_ref().map_or("none".to_string(), air_text)],
            "due" => due_text(&self.due),
            _ => self.sessions.iter().map(session_text).collect(),
        };
        [vec![word.to_string()], list].concat().join(" ")
    }
}

/// A number as a line has it.
pub fn number(value: u64) -> String {
    match value {
        0xFFFF_FFFF => "0xFFFFFFFF".to_string(),
        value => value.to_string(),
    }
}

fn joined(numbers: &[u64]) -> String {
    numbers.iter().map(|value| number(*value)).collect::<Vec<_>>().join(":")
}

/// `C:ID:EVENT:RESULT:PLAYED` of each, the newest first; the empty ones behind are left out.
fn rows_text(rows: &[Row]) -> Vec<String> {
    let used = rows.iter().rposition(Option::is_some).map_or(0, |last| last + 1);
    let text = |row: &Row| match row {
        Some(row) => joined(&[row.conn.into(), row.id.into(), row.event.into(), row.result.into(), row.played.into()]),
        None => "-".to_string(),
    };
    rows[..used].iter().map(text).collect()
}

/// `C:ID:EVENT:ACCESS:MUX:START:END:PLAYED`, the times in ninths.
fn air_text(s: &Session) -> String {
    joined(&[s.conn.into(), s.id.into(), s.event.into(), s.access.into(), s.mux.into(), s.start, s.end, s.played])
}

/// `none`, or the instant in ninths and the first tick that reaches it, or `never`.
fn due_text(due: &Option<Due>) -> Vec<String> {
    match due {
        None => vec!["none".to_string()],
        Some((instant, None)) => vec![number(*instant), "never".to_string()],
        Some((instant, Some((seconds, micros)))) => vec![number(*instant), format!("{seconds}.{micros:06}")],
    }
}

/// `STATE:C:ID:EVENT:PRIOR:ACCESS:OVERRIDE:MUX:START:END:PLAYED`.
fn session_text(s: &Session) -> String {
    let state = match s.state {
        State::OnAir => "air",
        State::Covered => "covered",
        State::Waiting => "waiting",
    };
    let asked = [s.conn.into(), s.id.into(), s.event.into(), s.prior.into(), s.access.into(), s.overrides.into(), s.mux.into()];
    format!("{state}:{}:{}", joined(&asked), joined(&[s.start, s.end, s.played]))
}

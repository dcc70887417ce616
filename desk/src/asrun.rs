//! `desk asrun`: every Splice_Request with its times and how it ended, and the sums.

use crate::day::{Answer, Row};
use crate::json::{Form, Table, Value};
use crate::lines;
use crate::time::{seconds, TICK};
use crate::view::View;

const COLUMNS: &[&str] = &[
    "call",
    "connection",
    "session",
    "event",
    "source",
    "access",
    "override",
    "scheduled",
    "length_seconds",
    "length_ticks",
    "answer",
    "began",
    "ended",
    "on_air_seconds",
    "on_air_ticks",
    "result",
    "outcome",
    "by_the_rules",
];

fn answer(row: &Row) -> Value {
    match row.answer {
        Answer::Splice(n) | Answer::General(n) => Value::number(n),
        Answer::House(n) => Value::number(n),
        Answer::None => Value::None,
    }
}

/// What the rules say of a request, if it is something else.
fn by_the_rules(view: &View, row: &Row) -> Option<String> {
    let other = lines::other(row, &view.ruled)?;
    let outcome = lines::outcome(other);
    Some(match other.accepted() {
        true => format!("{outcome}; {}", lines::times(other, view.clock)),
        false => outcome,
    })
}

pub fn table(view: &View) -> Table {
    let time = |at: Option<u64>| at.map(|at| view.clock.text(at)).into();
    let cells = |row: &Row| {
        let ticks = row.asked.duration.map(u64::from);
        let air = row.began.map(|_| row.on_air());
        let played = row.ended.and_then(|e| e.played).map(u64::from);
        vec![
            Value::Number(row.call as u64),
            Value::number(row.conn),
            row.asked.session.into(),
            row.asked.event.into(),
            Value::Text(lines::source(row)),
            Value::number(row.asked.access),
            Value::number(u32::from(row.asked.overrides)),
            time(row.start),
            ticks.map(|t| seconds(t * TICK)).into(),
            ticks.into(),
            answer(row),
            row.began.and_then(|at| view.time(at)).into(),
            row.ended.and_then(|e| view.time(e.at)).into(),
            air.map(seconds).into(),
            played.or(air.map(|air| air / TICK)).into(),
            lines::result(row).map(u32::from).into(),
            Value::Text(lines::outcome(row)),
            by_the_rules(view, row).into(),
        ]
    };
    Table {
        columns: COLUMNS,
        rows: view.rows().map(cells).collect(),
    }
}

/// The columns of the list for other programs.
const LIST: &[&str] = &[
    "scheduled",
    "started",
    "ended",
    "connection",
    "session",
    "event",
    "length_s",
    "on_air_s",
    "ticks",
    "result",
    "outcome",
];

/// Where they stand in the whole table.
const LISTED: [usize; 11] = [7, 11, 12, 1, 2, 3, 8, 13, 14, 15, 16];

/// The list for other programs: CSV, SQL.
pub fn list(view: &View) -> Table {
    let all = table(view);
    let row = |row: &Vec<Value>| LISTED.map(|at| row[at].clone()).to_vec();
    Table {
        columns: LIST,
        rows: all.rows.iter().map(row).collect(),
    }
}

/// Time on the primary channel, that of all sessions on air, and the clock's advance: between any
/// two points the first two sum to the third (02, CR 13).
pub struct Sums {
    pub primary: u64,
    pub sessions: u64,
    pub clock: u64,
}

pub fn sums(view: &View) -> Sums {
    let (from, to) = view.reach();
    let (mut primary, mut sessions) = (0, 0);
    for (span, row) in view.found.output(from, to) {
        match row {
            Some(_) => sessions += span.to - span.from,
            None => primary += span.to - span.from,
        }
    }
    Sums {
        primary,
        sessions,
        clock: to - from,
    }
}

/// The list and the sums as JSON: an object of both.
pub fn json(view: &View) -> String {
    let (from, to) = view.reach();
    let sums = sums(view);
    let named = |(name, value): (&str, Value)| (name.to_string(), value);
    let part = |time: u64| {
        let parts = [
            ("seconds", Value::Text(seconds(time))),
            ("ticks", Value::Number(time / TICK)),
        ];
        Value::Fields(parts.map(named).to_vec())
    };
    let all = [
        ("from", Value::Text(view.clock.text(from))),
        ("to", Value::Text(view.clock.text(to))),
        ("primary", part(sums.primary)),
        ("sessions", part(sums.sessions)),
        ("clock", part(sums.clock)),
    ];
    let rows = table(view).text(Form::Json);
    let mut text = format!("{{\"requests\": {}", rows.trim_end());
    text += ",\n\"sums\": ";
    Value::Fields(all.map(named).to_vec()).json(&mut text);
    text + "}\n"
}

/// The sums as lines.
pub fn summed(view: &View) -> Vec<String> {
    let (from, to) = view.reach();
    let sums = sums(view);
    let part = |name: &str, time: u64| {
        let (seconds, ticks) = (seconds(time), time / TICK);
        format!("{name:<24} {seconds:>18} s {ticks:>14} ticks")
    };
    let reach = format!("from {} to {}", view.clock.text(from), view.clock.text(to));
    let mut list = vec![
        reach,
        part("primary channel", sums.primary),
        part("sessions on air", sums.sessions),
        part("together", sums.primary + sums.sessions),
        part("the clock went on by", sums.clock),
    ];
    for (call, conn, session) in &view.found.strays {
        list.push(format!("call {call} writes a start or end of session {session} of connection {conn}, which was never accepted"));
    }
    list
}

/// The columns that people are shown, and where they stand in the table.
pub const SHOWN: [(&str, usize); 12] = [
    ("conn", 1),
    ("SessionID", 2),
    ("event", 3),
    ("service", 4),
    ("scheduled", 7),
    ("length s", 8),
    ("began", 11),
    ("ended", 12),
    ("on air s", 13),
    ("ticks", 14),
    ("result", 15),
    ("outcome", 16),
];

/// What the rules say stands in this column.
pub const RULED: usize = 17;

/// The list as text, refused requests in their place. The outcome says the result.
pub fn text(view: &View) -> String {
    let shown: Vec<(&str, usize)> = SHOWN
        .into_iter()
        .filter(|(name, _)| *name != "result")
        .collect();
    let table = table(view);
    let cell = |value: &Value| match value {
        Value::None | Value::Number(0xFFFF_FFFF) => "-".to_string(),
        value => value.plain(),
    };
    let head: Vec<String> = shown.iter().map(|(name, _)| (*name).to_string()).collect();
    let row = |row: &Vec<Value>| shown.iter().map(|(_, at)| cell(&row[*at])).collect();
    let mut lines: Vec<Vec<String>> = vec![head];
    lines.extend(table.rows.iter().map(row));
    let width = |column: usize| lines.iter().map(|l| l[column].len()).max().unwrap_or(0);
    // the last column is as wide as it is
    let widths: Vec<usize> = (0..shown.len() - 1).map(width).collect();
    let mut text = String::new();
    for (place, line) in lines.iter().enumerate() {
        for (cell, width) in line.iter().zip(&widths) {
            text += &format!("{cell:>width$}  ");
        }
        text += &format!("{}\n", line[widths.len()]);
        let ruled = place.checked_sub(1).map(|row| &table.rows[row][RULED]);
        if let Some(Value::Text(ruled)) = ruled {
            text += &format!("      ! BY THE RULES: {ruled}\n");
        }
    }
    text + "\n" + &summed(view).join("\n") + "\n" + &view.verdict() + "\n"
}

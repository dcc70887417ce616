//! `desk list` and `desk check`: as recorded, and each break of the rules where it stands.

use crate::day::{behind, Day};
use crate::json::{Form, Rows, Value};
use crate::lines::{self, Told};
use crate::recording::{items, Aside, Item};
use crate::ruled::{aside, Step};
use crate::view::View;
use std::io::{self, Write};

#[derive(Clone, Copy, PartialEq, Eq)]
enum Kind {
    Call,
    Recorded,
    Missing,
    Unexpected,
    /// A name or a lent section: no call.
    Aside,
}

impl Kind {
    fn word(self) -> &'static str {
        match self {
            Kind::Call => "call",
            Kind::Recorded => "recorded",
            Kind::Missing => "due and missing",
            Kind::Unexpected => "found and not due",
            Kind::Aside => "no call",
        }
    }
}

struct Line {
    kind: Kind,
    at: u64,
    byte: Option<usize>,
    told: Told,
}

/// The names and sections behind a call.
fn asides<'v>(view: &'v View, call: usize, at: u64) -> impl Iterator<Item = Line> + 'v {
    let line = move |aside: &Aside| Line {
        kind: [Kind::Aside, Kind::Unexpected][usize::from(aside.between)],
        at,
        byte: Some(aside.at),
        told: lines::aside(&aside.bytes),
    };
    view.held.recording.asides(call).iter().map(line)
}

/// The lines of one call: the call, then its records as due and as found.
fn lines_of(view: &View, call: usize, clock: u64) -> Vec<Line> {
    let recording = &view.held.recording;
    let entry = recording.entry(call);
    let found = recording.found(call);
    let due = items(view.held.due(call), 0);
    let told = |item: &Item| lines::record(item, view.clock);
    let instant =
        |day: &Day, place: usize| day.instants.get(&call).map_or(clock, |list| list[place]);
    let head = Line {
        kind: Kind::Call,
        at: clock,
        byte: Some(recording.call_place(call)),
        told: lines::call(entry.call(), view.clock),
    };
    let mut list = Vec::new();
    if call > 0 || !found.is_empty() {
        list.push(head);
    }
    for step in aside(&due, &found) {
        list.push(match step {
            Step::Missing { due: place } => Line {
                kind: Kind::Missing,
                at: instant(&view.ruled, place),
                byte: None,
                told: told(&due[place]),
            },
            Step::Same { found: place, .. } | Step::Extra { found: place } => Line {
                kind: match step {
                    Step::Extra { .. } => Kind::Unexpected,
                    _ => Kind::Recorded,
                },
                at: instant(&view.found, place),
                byte: Some(recording.place(found[place].at)),
                told: told(&found[place]),
            },
        });
    }
    list.extend(asides(view, call, clock));
    list
}

/// The calls to be listed, each with its lines; call 0 only if it has records.
fn calls<'v>(view: &'v View, broken: bool) -> impl Iterator<Item = (usize, Vec<Line>)> + 'v {
    let recording = &view.held.recording;
    let mut clock = 0;
    let each = move |call: usize| {
        let entry = recording.entry(call);
        clock = behind(recording, call, entry.found).unwrap_or(clock);
        let there = call > 0 || !entry.found.is_empty() || !recording.asides(call).is_empty();
        let wanted = there && (!broken || view.held.is_broken(call));
        wanted.then(|| (call, lines_of(view, call, clock)))
    };
    (0..recording.count()).filter_map(each)
}

/// Whether a record that is missing and one that is not due have the same words: then these do not show what differs.
fn are_alike(lines: &[&Line]) -> bool {
    let told = |kind: Kind| {
        lines
            .iter()
            .filter(move |l| l.kind == kind)
            .map(|l| l.told.line())
    };
    told(Kind::Missing).any(|due| told(Kind::Unexpected).any(|found| found == due))
}

/// The lists as text. With `broken`, only the calls that break the rules.
pub fn text(view: &View, broken: bool, to: &mut dyn Write) -> io::Result<()> {
    let is_break = |line: &&Line| matches!(line.kind, Kind::Missing | Kind::Unexpected);
    for (call, all) in calls(view, broken) {
        let wanted = all.iter().filter(|l| view.wants(&l.told, l.at));
        let wanted: Vec<&Line> = wanted.collect();
        if broken && !wanted.iter().any(is_break) {
            continue;
        }
        let alike = are_alike(&wanted);
        for line in wanted {
            let mark = match line.kind {
                Kind::Recorded | Kind::Aside if broken => continue,
                Kind::Aside => "=",
                Kind::Call => ">",
                Kind::Recorded => "<",
                Kind::Missing => "! DUE, MISSING: ",
                Kind::Unexpected => "! FOUND, NOT DUE:",
            };
            let time = view.time(line.at).unwrap_or("-".to_string());
            writeln!(to, "{call:>6}  {time}  {mark} {}", line.told.line())?;
        }
        if alike {
            writeln!(to, "{call:>6}  both read alike: they differ in bytes that no field shows, as behind the zero of a name")?;
        }
    }
    writeln!(to, "{}", view.verdict())
}

const COLUMNS: &[&str] = &[
    "time",
    "call",
    "byte",
    "kind",
    "connection",
    "message",
    "result",
    "words",
    "session",
    "fields",
];

pub fn rows(view: &View, broken: bool, form: Form, to: &mut dyn Write) -> io::Result<()> {
    let mut rows = Rows::begin(COLUMNS, form, to)?;
    for (call, lines) in calls(view, broken) {
        for line in lines {
            let breaks = matches!(line.kind, Kind::Missing | Kind::Unexpected);
            if !view.wants(&line.told, line.at) || broken && !breaks {
                continue;
            }
            let told = line.told;
            let words = told.result.map(|_| told.words.to_string());
            rows.row(&[
                view.time(line.at).into(),
                Value::Number(call as u64),
                line.byte.map(|b| b as u64).into(),
                Value::text(line.kind.word()),
                told.connection.map(u32::from).into(),
                Value::Text(told.name),
                told.result.map(u32::from).into(),
                words.into(),
                told.session.into(),
                Value::Fields(told.fields),
            ])?;
        }
    }
    rows.end()
}

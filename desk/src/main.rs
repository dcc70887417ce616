//! The desk's program: recordings of a splicer as lists, as-run lists and timelines. See
//! `desk --help`.

mod asrun;
mod day;
mod json;
mod lines;
mod list;
mod message;
#[cfg(test)]
mod mutated;
mod options;
mod page;
mod pcap;
mod recording;
mod referee;
mod ruled;
mod sqlite;
#[path = "../../bindings/src/texts.rs"]
mod texts;
mod time;
mod timeline;
mod view;

use json::Form;
use options::{Asked, Command, Options};
use recording::Recording;
use ruled::{used_before, Held};
use std::io::{self, BufWriter, IsTerminal, Read, Write};
use timeline::Marks;
use view::View;

/// Good, and whether the rules were kept; or what is wrong.
type Ran = Result<Kept, Wrong>;

#[derive(Clone, Copy, PartialEq, Eq)]
enum Kept {
    Good,
    Broken,
    /// The file has more that could not be read.
    Unread,
}

enum Wrong {
    Said(String),
    /// Standard output.
    Unwritten(io::Error),
}

impl From<String> for Wrong {
    fn from(text: String) -> Wrong {
        Wrong::Said(text)
    }
}

impl From<io::Error> for Wrong {
    fn from(error: io::Error) -> Wrong {
        Wrong::Unwritten(error)
    }
}

impl Kept {
    fn of(held: &Held) -> Kept {
        match held.broken.is_empty() {
            _ if held.recording.unread => Kept::Unread,
            true => Kept::Good,
            false => Kept::Broken,
        }
    }
}

fn main() {
    let words: Vec<String> = std::env::args().skip(1).collect();
    let mut out = BufWriter::new(io::stdout().lock());
    let ran = match options::read(&words) {
        Ok(Asked::Say(text)) => said(&text, &mut out),
        Ok(Asked::Run(command, options)) => run(command, &options, &mut out),
        Err(wrong) => Err(wrong.into()),
    };
    let ran = ran.and_then(|kept| out.flush().map(|()| kept).map_err(Wrong::from));
    std::process::exit(status(ran));
}

fn said(text: &str, out: &mut dyn Write) -> Ran {
    out.write_all(text.as_bytes())?;
    Ok(Kept::Good)
}

/// A reader that went away is no failure.
fn status(ran: Ran) -> i32 {
    match ran {
        Ok(Kept::Good) => 0,
        Ok(Kept::Broken) => 1,
        Ok(Kept::Unread) => 2,
        Err(Wrong::Unwritten(e)) if e.kind() == io::ErrorKind::BrokenPipe => 0,
        Err(Wrong::Unwritten(e)) => failed(&format!("standard output: {e}")),
        Err(Wrong::Said(wrong)) => failed(&wrong),
    }
}

fn failed(wrong: &str) -> i32 {
    eprintln!("desk: {wrong}");
    2
}

/// The bytes of a file; `-` is standard input.
fn file(path: &str) -> Result<Vec<u8>, String> {
    let mut bytes = Vec::new();
    let told = |e: io::Error| format!("{path}: {e}");
    if path == "-" {
        io::stdin().read_to_end(&mut bytes).map_err(told)?;
        return Ok(bytes);
    }
    std::fs::read(path).map_err(told)
}

/// What the files hold, and what the referee says of one that is a whole recording, if it is asked.
fn recorded(options: &Options, asked: &mut Option<Judged>) -> Result<Recording, String> {
    let mut whole = |file: &str, bytes: Vec<u8>| {
        if let (Some(said), false) = (asked.as_mut(), options.middle) {
            let judged = |program| referee::judged(&program, &bytes, &options.name);
            *said = referee::program().map(judged);
        }
        Recording::read(file, bytes)
    };
    match &options.files[..] {
        [input, output] => {
            let (calls, records) = (file(input)?, file(output)?);
            Recording::of_card((input, &calls), (output, &records), &options.name)
        }
        [one] => whole(one, file(one)?),
        _ if io::stdin().is_terminal() => Err("no file, and nothing on standard input".to_string()),
        _ => whole("standard input", file("-")?),
    }
}

/// What the referee said, if it is there.
type Judged = Option<Result<referee::Said, String>>;

/// Holds it to the rules, and says on standard error what the lists do not say.
fn held(options: &Options, asked: &mut Option<Judged>) -> Result<Held, String> {
    let held = Held::of(recorded(options, asked)?, &options.name, options.middle);
    if let Some(cut) = &held.recording.cut {
        let then = if held.recording.unread {
            "shown up to it"
        } else {
            "dropped"
        };
        eprintln!("desk: {cut}: {then}");
    }
    let own = message::string(&held.recording.name().unwrap_or(options.name));
    if let Some(name) = other_name(&held, &own).filter(|_| held.recording.name().is_none()) {
        eprintln!(
            "desk: the recording is of a channel {name:?}, and was held to {own:?}: --name {name}"
        );
    }
    let before = used_before(&held.recording);
    if let (Some(conn), false) = (before.iter().position(|used| *used), options.middle) {
        eprintln!("desk: connection {conn} was in use before it was opened: --middle shows a recording that begins in the middle of a day");
    }
    Ok(held)
}

/// The name in the first Init_Response, if it is another.
fn other_name(held: &Held, own: &str) -> Option<String> {
    let entries = held.recording.entries();
    let items = entries.flat_map(|e| recording::items(e.found, 0));
    let named = |bytes: &[u8]| {
        (bytes.len() == 44 && bytes[2..4] == [0, 2]).then(|| message::string(&bytes[12..]))
    };
    let name = items.filter_map(|item| named(item.bytes)).next()?;
    (name != own).then_some(name)
}

fn run(command: &Command, options: &Options, out: &mut dyn Write) -> Ran {
    match command.name {
        "join" => return join(options, out),
        "pcap" => return captured(options, out),
        _ => {}
    }
    let mut asked = (command.name == "check").then_some(None);
    let view = View::of(held(options, &mut asked)?, options);
    let form = match (options.json, options.csv) {
        (true, _) => Some(Form::Json),
        (_, true) => Some(Form::Csv),
        _ => None,
    };
    match (command.name, form) {
        ("list" | "check", Some(form)) => list::rows(&view, command.name == "check", form, out)?,
        ("list" | "check", None) => list::text(&view, command.name == "check", out)?,
        ("asrun", _) => as_run(&view, form, out)?,
        _ => match &options.html {
            Some(path) => {
                let written = std::fs::write(path, page::page(&view));
                written.map_err(|e| format!("{path}: {e}"))?;
                writeln!(out, "{}", view.verdict())?;
            }
            None => out.write_all(timeline::bars(&view, Marks::of_locale()).as_bytes())?,
        },
    }
    let kept = Kept::of(&view.held);
    match asked.flatten() {
        None => Ok(kept),
        Some(said) => refereed(&said, &view.held, kept, form.is_none(), out),
    }
}

/// What the referee said: behind the list, or on standard error behind rows.
fn refereed(
    said: &Result<referee::Said, String>,
    held: &Held,
    kept: Kept,
    text: bool,
    out: &mut dyn Write,
) -> Ran {
    let (line, broken) = referee::beside(said, held);
    match text {
        true => writeln!(out, "{line}")?,
        false => eprintln!("desk: {line}"),
    }
    match kept {
        Kept::Good if broken => Ok(Kept::Broken),
        kept => Ok(kept),
    }
}

fn as_run(view: &View, form: Option<Form>, out: &mut dyn Write) -> Result<(), Wrong> {
    if let Some(path) = &view.options.sqlite {
        let rows = sqlite::handed(path, &asrun::list(view))?;
        writeln!(out, "{rows} requests into {path}; {}", view.verdict())?;
        return Ok(());
    }
    match form {
        Some(Form::Json) => out.write_all(asrun::json(view).as_bytes())?,
        Some(Form::Csv) => asrun::list(view).write(Form::Csv, out)?,
        None => out.write_all(asrun::text(view).as_bytes())?,
    }
    Ok(())
}

/// A recording of two files, or of a scenario's text.
fn join(options: &Options, out: &mut dyn Write) -> Ran {
    let Some(path) = &options.text else {
        let held = held(options, &mut None)?;
        out.write_all(held.recording.bytes())?;
        return Ok(Kept::of(&held));
    };
    let text = String::from_utf8(file(path)?).map_err(|e| format!("{path}: {e}"))?;
    let steps = model::scenario::parse(&text).map_err(|e| format!("{path}: {e}"))?;
    let bytes = model::make_recording::of_steps(&steps);
    let held = Held::of(Recording::read(path, bytes)?, &options.name, false);
    out.write_all(held.recording.bytes())?;
    Ok(Kept::of(&held))
}

/// A recording as a capture, or a capture as a recording.
fn captured(options: &Options, out: &mut dyn Write) -> Ran {
    let Some(path) = &options.back else {
        let held = held(options, &mut None)?;
        let pieces = options.pieces.unwrap_or(1460);
        out.write_all(&pcap::capture(&held.recording, pieces))?;
        return Ok(Kept::of(&held));
    };
    let back = pcap::recorded(path, &file(path)?, &options.name)?;
    for line in &back.notes {
        eprintln!("desk: {path}: {line}");
    }
    let held = Held::of(back.recording, &options.name, back.middle);
    out.write_all(held.recording.bytes())?;
    match back.gaps {
        true => Ok(Kept::Good),
        false => Ok(Kept::of(&held)),
    }
}

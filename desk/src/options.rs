//! The command line: one table of commands, one of options, and the help made of both.

use crate::time;

/// A command: its name, its words, what it does, and the options that it takes.
pub struct Command {
    pub name: &'static str,
    pub words: &'static str,
    pub does: &'static str,
    pub options: &'static [&'static str],
}

const ROWS: &[&str] = &[
    "--name",
    "--raw",
    "--json",
    "--csv",
    "--connection",
    "--session",
    "--result",
    "--from",
    "--to",
    "--middle",
];

const AS_RUN: &[&str] = &[
    "--name",
    "--raw",
    "--json",
    "--csv",
    "--sqlite",
    "--connection",
    "--session",
    "--result",
    "--from",
    "--to",
    "--middle",
];

pub const COMMANDS: &[Command] = &[
    Command {
        name: "list",
        words: "[RECORDING | IN OUT]",
        does: "every call and what was written for it, decoded; each break of the rules where it stands",
        options: ROWS,
    },
    Command {
        name: "asrun",
        words: "[RECORDING | IN OUT]",
        does: "every Splice_Request: when it was scheduled, what was on air and how it ended; the sums",
        options: AS_RUN,
    },
    Command {
        name: "timeline",
        words: "[RECORDING | IN OUT]",
        does: "the day as bars, in the terminal or as a page",
        options: &[
            "--name", "--raw", "--from", "--to", "--connection", "--session", "--result", "--width", "--html", "--zone", "--middle",
        ],
    },
    Command {
        name: "check",
        words: "[RECORDING | IN OUT]",
        does: "only the breaks of the rules: what was due and what was found",
        options: ROWS,
    },
    Command {
        name: "join",
        words: "IN OUT | --text SCENARIO",
        does: "writes a recording: of a card program's input and output, or of a scenario's text",
        options: &["--name", "--text"],
    },
    Command {
        name: "pcap",
        words: "[RECORDING | IN OUT] | --back CAPTURE",
        does: "writes a recording as a capture for Wireshark, TCP port 5168; or a capture as a recording",
        options: &["--name", "--back", "--pieces"],
    },
];

/// An option: its name, its value, and what it says.
const OPTIONS: &[(&str, &str, &str)] = &[
    (
        "--name",
        "NAME",
        "the channel's name, CH1 if it is not given",
    ),
    (
        "--raw",
        "",
        "times as seconds since 1970-01-01 UTC, not as ISO 8601",
    ),
    ("--json", "", "as JSON"),
    ("--csv", "", "as CSV, with a line of names"),
    ("--connection", "N", "only this connection, 0 to 3"),
    ("--session", "N", "only this SessionID"),
    ("--result", "N", "only this result code or house number"),
    (
        "--from",
        "TIME",
        "from this instant on: seconds, or ISO 8601 in UTC",
    ),
    ("--to", "TIME", "before this instant"),
    ("--width", "N", "columns of the bars, 20 to 400 (72)"),
    ("--html", "FILE", "writes the timeline as one page instead"),
    (
        "--zone",
        "NAME",
        "the zone of the page's local times, as Europe/Berlin; the reader's own if it is not given",
    ),
    (
        "--sqlite",
        "FILE",
        "adds the list to the table asrun of a database, by the program sqlite3",
    ),
    (
        "--middle",
        "",
        "the recording begins in the middle of a day: shown with what can be known",
    ),
    ("--text", "FILE", "a scenario's text, as in model/scenarios"),
    (
        "--back",
        "FILE",
        "a capture (pcap or pcapng) that becomes a recording",
    ),
    ("--pieces", "N", "bytes of a TCP segment, 1 to 1460"),
];

const EXIT: &str = "Exit status: 0 good, 1 rules broken, 2 usage or unreadable input.\n";

/// What was asked for.
#[derive(Debug, Default)]
pub struct Options {
    pub files: Vec<String>,
    pub name: [u8; 32],
    pub raw: bool,
    pub json: bool,
    pub csv: bool,
    pub connection: Option<u8>,
    pub session: Option<u32>,
    pub result: Option<u16>,
    pub from: Option<u64>,
    pub to: Option<u64>,
    pub width: Option<usize>,
    pub html: Option<String>,
    pub zone: Option<String>,
    pub sqlite: Option<String>,
    pub middle: bool,
    pub text: Option<String>,
    pub back: Option<String>,
    pub pieces: Option<usize>,
}

/// What the command line says.
pub enum Asked {
    /// A text for standard output.
    Say(String),
    Run(&'static Command, Box<Options>),
}

pub fn help() -> String {
    let mut text = "usage: desk COMMAND [OPTION..] [FILE..]\n\nRecordings of a splicer, held to the rules.\n\n".to_string();
    for command in COMMANDS {
        text += &format!("  {:<9} {}\n", command.name, command.does);
    }
    text += "\nA recording has each call in the card program's mark and what was written for it behind; IN and OUT are\n\
             the card program's input and output. Without a file, standard input is read.\n\
             desk COMMAND --help says more; desk --version gives the version.\n";
    text + EXIT
}

fn help_of(command: &Command) -> String {
    let mut text = format!(
        "usage: desk {} [OPTION..] {}\n\n{}\n\n",
        command.name, command.words, command.does
    );
    for (name, value, says) in OPTIONS {
        if command.options.contains(name) {
            text += &format!("  {:<15} {says}\n", format!("{name} {value}"));
        }
    }
    text + EXIT
}

/// Reads the command line, without the program's name.
pub fn read(words: &[String]) -> Result<Asked, String> {
    let Some((first, rest)) = words.split_first() else {
        return Err("a command is missing; desk --help lists them".to_string());
    };
    match first.as_str() {
        "--help" | "-h" | "help" => return Ok(Asked::Say(help())),
        "--version" | "-V" => {
            let version = env!("CARGO_PKG_VERSION");
            return Ok(Asked::Say(format!("desk {version}\n")));
        }
        _ => {}
    }
    let command = COMMANDS.iter().find(|c| c.name == first);
    let command = command.ok_or(format!("no command '{first}'; desk --help lists them"))?;
    if rest.iter().any(|word| word == "--help" || word == "-h") {
        return Ok(Asked::Say(help_of(command)));
    }
    let options = options(command, rest).map_err(|wrong| {
        let name = command.name;
        format!("{name}: {wrong}; desk {name} --help says what it takes")
    })?;
    Ok(Asked::Run(command, Box::new(options)))
}

fn options(command: &Command, words: &[String]) -> Result<Options, String> {
    let mut made = Options::default();
    made.name[..3].copy_from_slice(b"CH1");
    let mut words = words.iter();
    while let Some(word) = words.next() {
        if !word.starts_with("--") {
            made.files.push(word.clone());
            continue;
        }
        let (name, given) = match word.split_once('=') {
            Some((name, value)) => (name, Some(value.to_string())),
            None => (word.as_str(), None),
        };
        let known = OPTIONS.iter().find(|(own, ..)| *own == name);
        let Some((name, value, _)) = known.filter(|_| command.options.contains(&name)) else {
            return Err(format!("no option {name}"));
        };
        if value.is_empty() {
            match given {
                Some(_) => return Err(format!("{name} takes no value")),
                None => made.flag(name),
            }
            continue;
        }
        let value = given.or_else(|| words.next().cloned());
        let value = value.ok_or(format!("{name} needs a value"))?;
        made.set(name, &value)?;
    }
    made.fits(command)?;
    Ok(made)
}

/// A name of the zone database: letters, digits and what stands between them. The browser knows them.
fn zoned(value: &str) -> Result<String, String> {
    let good = |b: u8| b.is_ascii_alphanumeric() || b"/_+-".contains(&b);
    match value.bytes().all(good) && !value.is_empty() {
        true => Ok(value.to_string()),
        false => Err(format!("--zone '{value}': no name of a zone")),
    }
}

impl Options {
    fn flag(&mut self, name: &str) {
        match name {
            "--raw" => self.raw = true,
            "--json" => self.json = true,
            "--middle" => self.middle = true,
            _ => self.csv = true,
        }
    }

    fn set(&mut self, name: &str, value: &str) -> Result<(), String> {
        let no_number = || format!("{name} '{value}': no number that fits");
        let no_time = || format!("{name} '{value}': no time");
        match name {
            "--name" => self.named(value)?,
            "--connection" => {
                let number = value.parse().ok().filter(|n| *n < 4);
                self.connection = Some(number.ok_or(format!("{name} '{value}': not 0 to 3"))?);
            }
            "--session" => self.session = Some(value.parse().map_err(|_| no_number())?),
            "--result" => self.result = Some(value.parse().map_err(|_| no_number())?),
            "--from" => self.from = Some(time::read(value).ok_or_else(no_time)?),
            "--to" => self.to = Some(time::read(value).ok_or_else(no_time)?),
            "--width" => {
                let number = value.parse().ok().filter(|n| (20..=400).contains(n));
                self.width = Some(number.ok_or(format!("{name} '{value}': not 20 to 400"))?);
            }
            "--html" => self.html = Some(value.to_string()),
            "--zone" => self.zone = Some(zoned(value)?),
            "--sqlite" => self.sqlite = Some(value.to_string()),
            "--text" => self.text = Some(value.to_string()),
            "--back" => self.back = Some(value.to_string()),
            _ => {
                let number = value.parse().ok().filter(|n| (1..=1460).contains(n));
                self.pieces = Some(number.ok_or(format!("{name} '{value}': not 1 to 1460"))?);
            }
        }
        Ok(())
    }

    /// A name has a zero behind its end.
    fn named(&mut self, value: &str) -> Result<(), String> {
        if value.len() > 31 || value.bytes().any(|b| b == 0) {
            return Err(format!("--name '{value}': 31 bytes at most"));
        }
        self.name = [0; 32];
        self.name[..value.len()].copy_from_slice(value.as_bytes());
        Ok(())
    }

    /// Whether the words go together.
    fn fits(&self, command: &Command) -> Result<(), String> {
        let alone = self.text.is_some() || self.back.is_some();
        if self.json && self.csv {
            return Err("--json and --csv at once".to_string());
        }
        if self.sqlite.is_some() && (self.json || self.csv) {
            return Err("--sqlite and --json or --csv at once".to_string());
        }
        if self.zone.is_some() && self.html.is_none() {
            return Err("--zone is for --html".to_string());
        }
        if self.from.zip(self.to).is_some_and(|(from, to)| from >= to) {
            return Err("--from is not before --to".to_string());
        }
        if self.files.len() > 2 {
            return Err(format!("{} files, and two at most", self.files.len()));
        }
        if alone && !self.files.is_empty() {
            return Err(format!("a file '{}' too many", self.files[0]));
        }
        if command.name == "join" && !alone && self.files.len() != 2 {
            return Err("IN and OUT, or --text SCENARIO".to_string());
        }
        Ok(())
    }
}

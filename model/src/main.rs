//! The command `model` of the second program: one table of its commands. See `model --help`.

mod commands;

use commands as c;

/// A command: its group, its name, the words behind it, what it does, and more lines of its help.
struct Command {
    group: &'static str,
    name: &'static str,
    words: &'static [&'static str],
    does: &'static str,
    run: fn(&[String]) -> Result<bool, String>,
}

/// A row of the table.
const fn row(
    group: &'static str,
    name: &'static str,
    words: &'static [&'static str],
    does: &'static str,
    run: fn(&[String]) -> Result<bool, String>,
) -> Command {
    Command { group, name, words, does, run }
}

const PROGRAMS: &str = "programs (standard input to standard output)";
const PEOPLE: &str = "for people";
const MAKING: &str = "making";
const HOLDING: &str =
    "holding (S a seed, N a number of streams; status 1 for a difference, an unnoticed fault, a branch below its floor)";

const STREAMS: &[&str] = &["--seed S --n N [--table] [--floors off]", "--seed S --n N --faults", "--seed S --n N --show I"];

#[rustfmt::skip]
const COMMANDS: &[Command] = &[
    row(PROGRAMS, "card", &["[--fault NAME]"], "01's card program; with one deliberate fault, to try what holds it", c::card),
    row(PROGRAMS, "recall", &[""], "the engine that only remembers (02, CR 12), with the card program's input", c::recall),
    row(PROGRAMS, "referee", &["[--plain] [--name NAME]"],
        "judges a recording of any length, told as soon as it is known; --plain: CR 14's marks alone", c::referee),
    row(PROGRAMS, "states", &["", "--rolling --seed S --n N"],
        "with the card program's input: output, state and all reads after each call, as numbers; or of rolling streams", c::states),
    row(PEOPLE, "decode", &["IN OUT"], "a card program's input and output as lines", c::decode),
    row(PEOPLE, "asrun", &["IN OUT", "SCENARIO"], "the as-run list and timeline, of a scenario's calls too", c::asrun),
    row(PEOPLE, "check", &["FILE"], "02's checker (CR 14) over a recording, or a scenario (FILE.txt): the first wrong call", c::check),
    row(PEOPLE, "cue",
        &["SECTION.. [HOW]", "--ts FILE [--pid N] [HOW]", "--records FILE [HOW]", "--make COMMAND [KEY=VALUE].. [HOW]",
          "--drawn N [--seed S] [HOW]", "HOW: --pts N --at TIME | --hex | --fields NAME,.. | --out FILE.ts",
          "SECTION: hexadecimal, with 0x or without, or base64; TIME: seconds, or ISO 8601 in UTC"],
        "sections of SCTE 35 (02, CR 7): every field, the CRC, what the core does, the time", c::cue),
    row(MAKING, "record", &["FILE"], "card input, or a scenario's calls and records (FILE.txt), as a recording", c::record),
    row(MAKING, "gen", &["--seed S --n N --out DIR"], "generated streams as files of card input", c::gen),
    row(MAKING, "scenario", &["[--card CMD] FILE..", "--bytes FILE", "--tables DIR FILE.."],
        "runs scenario files; writes one's card input; or tables of antt", c::scenario),
    row(HOLDING, "fuzz", &["--seed S --n N [--card CMD] [--table] [--floors off]"], "streams, and a card program held to them", c::fuzz),
    row(HOLDING, "pieces", &["--seed S --n N --card CMD"], "a card program with its input in pieces", c::pieces),
    row(HOLDING, "faults", &["--seed S --n N"], "each deliberate fault of the rules is noticed", c::faults),
    row(HOLDING, "rolls", STREAMS, "streams of a rolling card (02, CR 9), and its mistakes", c::rolls),
    row(HOLDING, "cues",
        &["--seed S --n N [--table] [--floors off]", "--seed S --n N --faults", "--seed S --n N --show I", "--seed S --n N --rows"],
        "streams with cue calls (02, CR 7), and mistakes about them; or N calls and what comes of each", c::cues),
    row(HOLDING, "recordings",
        &["--seed S --n N [--checker CMD] [--out DIR] [--table] [--floors off] [SCENARIO..]", "--seed S --n N --faults"],
        "recordings whole, cut and damaged (02, CR 14), a checker held to them, and its mistakes", c::recordings),
    row(HOLDING, "refereed", &["--seed S --n N [--plain] [--out DIR] [--table] [--floors off]", "--seed S --n N --faults"],
        "recordings of whole drivers, damaged and in pieces, judged by the referee, and its mistakes", c::refereed),
    row(HOLDING, "recalls",
        &["--seed S --n N [--remember CMD] [--card CMD] [--out DIR] [--table] [--floors off] [SCENARIO..]", "--seed S --n N --faults"],
        "streams and logs for the engine that only remembers (02, CR 12), a program of it, and its mistakes", c::recalls),
];

fn main() {
    model::unwritten("model");
    match model::words().and_then(|args| command(&args)) {
        Ok(true) => {}
        Ok(false) => std::process::exit(1),
        Err(text) => {
            eprintln!("model: {text}");
            std::process::exit(2);
        }
    }
}

fn command(args: &[String]) -> Result<bool, String> {
    let Some((first, rest)) = args.split_first() else {
        return Err("a command is missing; model --help lists them".to_string());
    };
    if ["help", "--help", "-h"].contains(&first.as_str()) {
        let text = rest.first().map_or(Ok(table()), |name| known(name).map(usage))?;
        return c::write_out(text.as_bytes());
    }
    let known = known(first)?;
    if rest.iter().any(|word| word == "--help" || word == "-h") {
        return c::write_out(usage(known).as_bytes());
    }
    (known.run)(rest).map_err(|text| format!("{first}: {text}"))
}

fn known(name: &str) -> Result<&'static Command, String> {
    let found = COMMANDS.iter().find(|command| command.name == name);
    found.ok_or(format!("unknown command {name}; model --help lists them"))
}

/// All commands by their groups, a line each.
fn table() -> String {
    let (mut text, mut group) = ("model COMMAND [WORD..]; model COMMAND --help says what it takes\n".to_string(), "");
    for command in COMMANDS {
        if group != command.group {
            group = command.group;
            text += &format!("\n{group}\n");
        }
        text += &format!("  {:<11} {}\n", command.name, command.does);
    }
    text
}

fn usage(command: &Command) -> String {
    let mut text = format!("{}\n", command.does);
    for words in command.words {
        let line = match words.split_once(": ") {
            Some((name, _)) if name.bytes().all(|b| b.is_ascii_uppercase()) => format!("  {words}"),
            _ => format!("  model {} {words}", command.name),
        };
        text += &format!("{}\n", line.trim_end());
    }
    text
}

#[cfg(test)]
mod tests {
    use super::*;

    fn of(words: &[&str]) -> Result<bool, String> {
        command(&words.iter().map(|word| word.to_string()).collect::<Vec<_>>())
    }

    #[test]
    fn every_command_is_in_the_table_once() {
        let names: Vec<&str> = COMMANDS.iter().map(|command| command.name).collect();
        for (place, name) in names.iter().enumerate() {
            assert_eq!(names.iter().position(|other| other == name), Some(place), "{name}");
            assert!(table().contains(&format!("\n  {name} ")), "{name}");
        }
        assert_eq!(names.len(), 16 + 3);
    }

    const WRONG: &[&[&str]] = &[
        &[],
        &["zzz"],
        &["help", "zzz"],
        &["fuzz"],
        &["fuzz", "--seed", "x", "--n", "1"],
        &["fuzz", "--seed", "1", "--n"],
        &["fuzz", "--seed", "1", "--n", "1", "--floors", "on"],
        &["cue"],
        &["cue", "zzz"],
        &["cue", "0xFC3"],
        &["cue", "--make", "null", "--pts", "1", "--at", "2001-13-01"],
        &["cue", "--make", "insert", "id=0x100000000"],
        &["cue", "--make", "null", "tier=0x1000"],
        &["cue", "--make", "256"],
        &["cue", "--make", "null", "--fields", "tier,nosuch"],
        &["cue", "--ts", "no such file", "--pid", "0x2000"],
        &["decode", "one"],
        &["fuzz", "--seed", "1", "--n", "1", "--faults"],
        &["fuzz", "--seed", "1", "--n", "1", "--show", "0"],
        &["recalls", "--seed", "1", "--n", "1", "--show", "0"],
        &["rolls", "--seed", "1", "--n", "1", "--show", "0", "--faults"],
        &["cues", "--seed", "1", "--n", "1", "--rows", "--faults"],
        &["scenario", "no such file"],
        &["scenario", "."],
        &["scenario", "--card", "/no/such/program", "scenarios/01-card-cut-mark.txt"],
        &["scenario", "--tables", "."],
        &["check", "no such file"],
    ];

    #[test]
    fn wrong_words_are_one_line() {
        for words in WRONG {
            let text = of(words).expect_err(&words.join(" "));
            assert!(!text.contains('\n'), "{words:?}: {text}");
        }
    }

    #[test]
    fn the_help_of_each_has_its_words() {
        for command in COMMANDS {
            let text = usage(command);
            assert!(text.starts_with(command.does), "{text}");
            assert!(text.contains(&format!("model {}", command.name)), "{text}");
        }
    }
}

//! The commands, each from its words.

use model::gen::sections::good;
use model::hold::faults::Fault;
use model::hold::{self, cases, run, run_scenarios};
use model::option;
use model::people::card::channel_name;
use model::people::record_lines::Line;
use model::people::{self, asrun as lists, make_recording, scenario as format};
use model::referee::{Kind, Marks, Referee};
use std::io::{Read, Write};

type Told = Result<bool, String>;

pub fn card(args: &[String]) -> Told {
    let mut args = args.to_vec();
    let fault = match option(&mut args, "--fault")? {
        Some(name) => Some(Fault::named(&name).ok_or(format!("no fault {name}"))?),
        None => None,
    };
    nothing_left(&args)?;
    write_out(&run::by(&read_in()?, fault).output())
}

pub fn states(args: &[String]) -> Told {
    let mut args = args.to_vec();
    if !flag(&mut args, "--rolling") {
        nothing_left(&args)?;
        return write_out(hold::state_lines::lines(&read_in()?).as_bytes());
    }
    let (seed, n) = (required(&mut args, "--seed")?, required(&mut args, "--n")?);
    nothing_left(&args)?;
    write_out(hold::state_lines::rolling(seed, n).as_bytes())
}

pub fn recall(args: &[String]) -> Told {
    nothing_left(args)?;
    write_out(&people::recall::run(&read_in()?).output())
}

/// Standard input to its end: the line as soon as it is known, then what was wanted and found.
pub fn referee(args: &[String]) -> Told {
    let mut args = args.to_vec();
    let marks = if flag(&mut args, "--plain") { Marks::Plain } else { Marks::Further };
    let name = option(&mut args, "--name")?.map_or(Ok(channel_name()), |name| name_of(&name))?;
    nothing_left(&args)?;
    let (mut referee, mut input, mut piece, mut read) =
        (Referee::fresh(&name, marks), std::io::stdin().lock(), vec![0; 65_536], false);
    loop {
        let length = input.read(&mut piece).map_err(|e| e.to_string())?;
        read |= length > 0;
        if length == 0 || referee.feed(&piece[..length]).is_some() {
            break;
        }
    }
    let verdict = referee.end();
    let behind = if verdict.kind == Kind::Call { people::referee::wanted_found(&referee) } else { String::new() };
    write_out(format!("{}\n{behind}", verdict.line()).as_bytes())?;
    match verdict.kind {
        Kind::Unknown => Err(format!("an unknown mark at {}", verdict.place)),
        _ if !read => Err("nothing was read".to_string()),
        kind => Ok(kind != Kind::Call),
    }
}

/// A name and zeros behind it.
fn name_of(text: &str) -> Result<[u8; 32], String> {
    let bytes = text.as_bytes();
    match bytes.len() < 32 && !bytes.contains(&0) {
        true => Ok(std::array::from_fn(|at| bytes.get(at).copied().unwrap_or(0))),
        false => Err(format!("--name '{text}': 31 bytes at most")),
    }
}

fn read_in() -> Result<Vec<u8>, String> {
    let mut input = Vec::new();
    std::io::stdin().read_to_end(&mut input).map_err(|e| e.to_string())?;
    Ok(input)
}

pub fn write_out(bytes: &[u8]) -> Told {
    let mut out = std::io::stdout().lock();
    out.write_all(bytes).and_then(|()| out.flush()).map_err(|e| e.to_string())?;
    Ok(true)
}

fn read_file(path: &str) -> Result<Vec<u8>, String> {
    std::fs::read(path).map_err(|e| format!("{path}: {e}"))
}

/// The steps of a scenario file.
fn steps_of(path: &str) -> Result<(String, Vec<format::Step>), String> {
    let text = String::from_utf8(read_file(path)?).map_err(|e| format!("{path}: {e}"))?;
    let steps = format::parse(&text).map_err(|e| format!("{path}: {e}"))?;
    Ok((text, steps))
}

/// Whether the card program has no marks for some of these calls.
fn unmarked(steps: &[format::Step]) -> bool {
    format::is_rolling(steps) || format::is_cued(steps)
}

pub fn scenario(args: &[String]) -> Told {
    let mut args = args.to_vec();
    if let Some(path) = option(&mut args, "--bytes")? {
        nothing_left(&args)?;
        return match steps_of(&path)?.1 {
            steps if unmarked(&steps) => Err(format!("{path}: a rolling card's calls and cues are no card input")),
            steps => write_out(&format::input_of(&steps)),
        };
    }
    if let Some(dir) = option(&mut args, "--tables")? {
        return write_tables(&dir, &scenario_files(args)?);
    }
    let card = option(&mut args, "--card")?;
    let list = scenario_files(args)?;
    // a file that is none, and a program that does not start, is wrong input, not a failed scenario
    list.iter().try_for_each(|path| steps_of(path).map(|_| ()))?;
    card.iter().try_for_each(|command| hold::compare::run_command(command, &[]).map(|_| ()))?;
    Ok(run_scenarios::run_files(&list, card.as_deref()))
}

fn scenario_files(args: Vec<String>) -> Result<Vec<String>, String> {
    match files(args)? {
        none if none.is_empty() => Err("no scenario file".to_string()),
        list => Ok(list),
    }
}

/// A table of antt for each scenario file. A rolling card's calls and cues are none of the card program.
fn write_tables(dir: &str, list: &[String]) -> Told {
    for path in list {
        let (text, steps) = steps_of(path)?;
        if !unmarked(&steps) {
            let file = format!("{dir}/{}.antt", cases::module(path));
            std::fs::write(&file, cases::table(path, &text, &steps)).map_err(|e| format!("{file}: {e}"))?;
        }
    }
    Ok(true)
}

/// A command over the recorded input and output of a card program.
fn over_two(args: &[String], tell: fn(&[u8], &[u8]) -> (String, bool)) -> Told {
    let [input, output] = args else {
        return Err("the files IN and OUT are needed".to_string());
    };
    let (text, same) = tell(&read_file(input)?, &read_file(output)?);
    write_out(text.as_bytes())?;
    Ok(same)
}

pub fn decode(args: &[String]) -> Told {
    over_two(args, people::decode::decode)
}

pub fn asrun(args: &[String]) -> Told {
    let [path] = args else {
        return over_two(args, lists::as_run);
    };
    let (_, steps) = steps_of(path)?;
    if format::is_rolling(&steps) {
        let calls = format::rolling_calls(&steps).map_err(|e| format!("{path}: {e}"))?;
        return write_out(lists::as_rolled(&calls).as_bytes());
    }
    let input = format::input_of(&steps);
    let (text, same) = lists::as_run(&input, &people::card::run(&input).output());
    write_out(text.as_bytes())?;
    Ok(same)
}

/// A recording, or of a scenario (FILE.txt) its calls and records; of card input what the card program makes of it if `recorded`.
fn recording_of(args: &[String], recorded: bool) -> Result<Vec<u8>, String> {
    let [path] = args else {
        return Err("one file is needed".to_string());
    };
    if !path.ends_with(".txt") {
        let bytes = read_file(path)?;
        return Ok(if recorded { make_recording::recorded(&bytes) } else { bytes });
    }
    match steps_of(path)?.1 {
        steps if recorded && unmarked(&steps) => Ok(people::driver_recording::of_steps(&steps)),
        steps if unmarked(&steps) => Err(format!("{path}: the checker knows no mark of a rolling card's calls and cues")),
        steps => Ok(make_recording::of_steps(&steps)),
    }
}

pub fn check(args: &[String]) -> Told {
    let (text, none) = people::check::told(&recording_of(args, false)?);
    write_out(text.as_bytes())?;
    Ok(none)
}

pub fn record(args: &[String]) -> Told {
    write_out(&recording_of(args, true)?)
}

pub fn cue(args: &[String]) -> Told {
    write_out(people::cue_command::command(args, good)?.as_bytes())
}

/// Whether the arguments have this word; it is taken out.
fn flag(args: &mut Vec<String>, word: &str) -> bool {
    let place = args.iter().position(|a| a == word);
    place.map(|at| args.remove(at)).is_some()
}

/// What is left of the arguments: files.
fn files(args: Vec<String>) -> Result<Vec<String>, String> {
    match args.iter().find(|word| word.starts_with("--")) {
        Some(word) => Err(format!("unknown word {word}")),
        None => Ok(args),
    }
}

fn nothing_left(args: &[String]) -> Result<(), String> {
    match args.first() {
        None => Ok(()),
        Some(word) => Err(format!("unknown word {word}")),
    }
}

fn number(name: &str, value: &str) -> Result<u64, String> {
    value.parse().map_err(|_| format!("{name}: no number: {value}"))
}

fn required(args: &mut Vec<String>, name: &str) -> Result<u64, String> {
    let value = option(args, name)?.ok_or(format!("{name} is missing"))?;
    number(name, &value)
}

/// The words that the holding commands have alike.
struct Plan {
    seed: u64,
    n: u64,
    table: bool,
    floors: bool,
    faults: bool,
    show: Option<u64>,
}

/// Of `--faults` and `--show` those that the command has; another stays among the words, and is refused there.
fn plan(args: &mut Vec<String>, more: &[&str]) -> Result<Plan, String> {
    let floors = match option(args, "--floors")?.as_deref() {
        None => true,
        Some("off") => false,
        Some(word) => return Err(format!("--floors: only off, not {word}")),
    };
    let show = if more.contains(&"--show") { option(args, "--show")? } else { None };
    let show = show.map(|value| number("--show", &value)).transpose()?;
    let (table, faults) = (flag(args, "--table"), more.contains(&"--faults") && flag(args, "--faults"));
    if faults && show.is_some() {
        return Err("--show and --faults are runs of their own".to_string());
    }
    Ok(Plan { seed: required(args, "--seed")?, n: required(args, "--n")?, table, floors, faults, show })
}

pub fn recordings(args: &[String]) -> Told {
    let mut args = args.to_vec();
    let Plan { seed, n, table, floors, faults, .. } = plan(&mut args, &["--faults"])?;
    let (checker, out) = (option(&mut args, "--checker")?, option(&mut args, "--out")?);
    let files = files(args)?;
    match faults {
        true => hold::recorded_streams::faults(seed, n),
        false => hold::recorded_streams::recordings(&hold::recorded_streams::Plan { seed, n, checker, out, table, floors, files }),
    }
}

pub fn refereed(args: &[String]) -> Told {
    let mut args = args.to_vec();
    let marks = if flag(&mut args, "--plain") { Marks::Plain } else { Marks::Further };
    let Plan { seed, n, table, floors, faults, .. } = plan(&mut args, &["--faults"])?;
    let out = option(&mut args, "--out")?;
    nothing_left(&args)?;
    match faults {
        true => hold::referee_streams::faults(seed, n),
        false => hold::referee_streams::refereed(&hold::referee_streams::Plan { seed, n, marks, out, table, floors }),
    }
}

pub fn recalls(args: &[String]) -> Told {
    let mut args = args.to_vec();
    let Plan { seed, n, table, floors, faults, .. } = plan(&mut args, &["--faults"])?;
    let (remember, card, out) = (option(&mut args, "--remember")?, option(&mut args, "--card")?, option(&mut args, "--out")?);
    let files = files(args)?;
    match faults {
        true => hold::recall_streams::faults(seed, n),
        false => hold::recall_streams::recalls(&hold::recall_streams::Plan { seed, n, remember, card, out, table, floors, files }),
    }
}

pub fn rolls(args: &[String]) -> Told {
    let mut args = args.to_vec();
    let Plan { seed, n, table, floors, faults, show } = plan(&mut args, &["--faults", "--show"])?;
    nothing_left(&args)?;
    match show {
        Some(index) => write_out(hold::rolling_streams::lines(seed, index).as_bytes()),
        None if faults => hold::rolling_streams::faults(seed, n),
        None => hold::rolling_streams::rolls(seed, n, table, floors),
    }
}

pub fn cues(args: &[String]) -> Told {
    let mut args = args.to_vec();
    let rows = flag(&mut args, "--rows");
    let Plan { seed, n, table, floors, faults, show } = plan(&mut args, &["--faults", "--show"])?;
    nothing_left(&args)?;
    if rows && (faults || show.is_some()) {
        return Err("--rows is a run of its own".to_string());
    }
    match show {
        Some(index) => write_out(hold::cue_streams::lines(seed, index).as_bytes()),
        None if rows => write_out(hold::cue_streams::rows(seed, n).as_bytes()),
        None if faults => hold::cue_streams::faults(seed, n),
        None => hold::cue_streams::cues(seed, n, table, floors),
    }
}

pub fn gen(args: &[String]) -> Told {
    let mut args = args.to_vec();
    let (seed, n) = (required(&mut args, "--seed")?, required(&mut args, "--n")?);
    let dir = option(&mut args, "--out")?.ok_or("--out is missing")?;
    nothing_left(&args)?;
    hold::fuzz::write_streams(seed, n, &dir)
}

pub fn fuzz(args: &[String]) -> Told {
    let mut args = args.to_vec();
    let card = option(&mut args, "--card")?;
    let Plan { seed, n, table, floors, .. } = plan(&mut args, &[])?;
    nothing_left(&args)?;
    hold::fuzz::fuzz(&hold::fuzz::Fuzz { seed, n, card, table, floors })
}

pub fn pieces(args: &[String]) -> Told {
    let mut args = args.to_vec();
    let (seed, n) = (required(&mut args, "--seed")?, required(&mut args, "--n")?);
    let card = option(&mut args, "--card")?.ok_or("--card is missing")?;
    nothing_left(&args)?;
    hold::pieces::pieces(seed, n, &card)
}

pub fn faults(args: &[String]) -> Told {
    let mut args = args.to_vec();
    let (seed, n) = (required(&mut args, "--seed")?, required(&mut args, "--n")?);
    nothing_left(&args)?;
    hold::fuzz::faults(seed, n)
}

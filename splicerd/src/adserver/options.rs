//! What adserver is told on its command line.

use crate::options::said;
use crate::time;
use clap::{value_parser, Arg, ArgAction, ArgMatches, Command};
use std::ffi::OsString;
use std::os::unix::ffi::OsStrExt;
use std::path::PathBuf;

#[derive(Debug)]
pub struct Options {
    pub to: String,
    pub channel: Vec<u8>,
    pub json: bool,
    pub what: What,
}

#[derive(Debug)]
pub enum What {
    Init,
    Alive,
    Splice(Asked),
    Abort(u32),
    Config,
    Extended(u32),
    /// How many cues are waited for; none: until it is ended.
    Cues(Option<u64>),
    Play(PathBuf),
    Load(Load),
}

/// A spot that is asked for; times in microseconds.
#[derive(Clone, Debug, PartialEq, Eq)]
pub struct Asked {
    pub ahead: u64,
    pub duration: u64,
    pub session: Option<u32>,
    pub access: u8,
    pub over: bool,
    pub prior: Option<u32>,
    pub event: u32,
    pub mux: Option<u8>,
}

#[derive(Debug)]
pub struct Load {
    pub channels: usize,
    pub connections: usize,
    /// Messages a second of all connections together; 0: each connection sends as soon as it has its answer.
    pub rate: u64,
    pub micros: u64,
    /// In millionths of the messages.
    pub drops: u64,
    pub seed: u64,
}

const PLAY: &str = "SCRIPT has a spot a line: START DURATION [access=N] [event=N] [mux=N] [override] [linked]. START is +30s, from the \
                    splicer's time when it begins, or 2026-11-16T08:00:00Z; with 'linked' the spot begins where the one above it ends, and \
                    START is not read. Lines that are empty or begin with # are left out. Up to ten spots wait at a time; the connection \
                    stays until the last has ended. Status 0 if every spot ended with 100.";
const LOAD: &str =
    "The channels are NAME1, NAME2 and so on, NAME being --channel. Four of five messages are Alive_Requests, the others \
                    Splice_Requests of random starts. Without --rate each connection sends as soon as it has its answer.";

fn command() -> Command {
    let number = |name: &'static str| Arg::new(name).value_name("N").value_parser(value_parser!(u32)).required(true);
    Command::new("adserver")
        .version(env!("CARGO_PKG_VERSION"))
        .about("An ad server that talks to a splicer (ITU-T J.280)")
        .after_help("Status: 0 for 100, 1 for another code, 2 for usage or no connection. adserver(1) says more.")
        .subcommand_required(true)
        .disable_help_subcommand(true)
        .arg(Arg::new("to").long("to").value_name("HOST:PORT").help("the splicer [127.0.0.1:5168]"))
        .arg(Arg::new("channel").long("channel").value_name("NAME").value_parser(value_parser!(OsString)).help("[CH1]"))
        .arg(Arg::new("json").long("json").action(ArgAction::SetTrue).global(true).help("answers as JSON, one a line"))
        .subcommand(Command::new("init").about("Init_Request"))
        .subcommand(Command::new("alive").about("Alive_Request: state, session on air, time"))
        .subcommand(splice())
        .subcommand(Command::new("abort").about("Abort_Request").arg(number("session")))
        .subcommand(Command::new("config").about("GetConfig_Request"))
        .subcommand(Command::new("extended").about("ExtendedData_Request: what became of a session").arg(number("session")))
        .subcommand(Command::new("cues").about("waits for Cue_Requests and answers each").arg(count()))
        .subcommand(
            Command::new("play")
                .about("plays a day's schedule")
                .after_help(PLAY)
                .arg(Arg::new("script").value_name("SCRIPT").required(true).value_parser(value_parser!(PathBuf))),
        )
        .subcommand(load())
}

fn count() -> Arg {
    Arg::new("count").long("count").value_name("N").value_parser(value_parser!(u64)).help("ends after N of them")
}

fn text(name: &'static str, value: &'static str, help: &'static str) -> Arg {
    Arg::new(name).long(name).value_name(value).help(help)
}

fn splice() -> Command {
    let number = |name: &'static str, help: &'static str| text(name, "N", help).value_parser(value_parser!(u32));
    Command::new("splice")
        .about("Splice_Request; stays until the spot has ended, as a dropped connection ends it")
        .arg(text("in", "SPAN", "from the splicer's present time to the start: 5s, 500ms, 2m [5s]"))
        .arg(text("duration", "SPAN", "[30s]"))
        .arg(number("session", "its SessionID [from the time of day]"))
        .arg(number("access", "AccessType, 0 to 9 [5]"))
        .arg(Arg::new("override").long("override").action(ArgAction::SetTrue).help("OverridePlaying"))
        .arg(number("prior", "PriorSession: it begins where that one ends"))
        .arg(number("event", "SpliceEventID [4294967295]"))
        .arg(number("mux", "MuxPriorityValue, 1 to 10"))
}

fn load() -> Command {
    Command::new("load")
        .about("many connections at once: answers a second, and how long they took")
        .after_help(LOAD)
        .arg(text("channels", "N", "[1]").value_parser(value_parser!(u32)))
        .arg(text("connections", "N", "of each channel [3]").value_parser(value_parser!(u32)))
        .arg(text("rate", "R", "messages a second, all together [as fast as they are answered]").value_parser(value_parser!(u64)))
        .arg(text("for", "SPAN", "[60s]"))
        .arg(text("drop-rate", "P", "the share of messages behind which a connection is dropped and made again [0]"))
        .arg(text("seed", "S", "[1]").value_parser(value_parser!(u64)))
}

/// The options, or what is to be said and the status to end with.
pub fn read(words: impl IntoIterator<Item = OsString>) -> Result<Options, (String, u8)> {
    let found = command().try_get_matches_from(words).map_err(|error| said(&error))?;
    build(&found).map_err(|why| (format!("adserver: {why}"), 2))
}

fn build(found: &ArgMatches) -> Result<Options, String> {
    let channel = found.get_one::<OsString>("channel").map_or(b"CH1".to_vec(), |name| name.as_bytes().to_vec());
    if channel.len() > 31 {
        return Err("a name is at most 31 bytes".into());
    }
    let (name, of) = found.subcommand().ok_or("no command")?;
    let session = || of.get_one::<u32>("session").copied().unwrap_or_default();
    let what = match name {
        "init" => What::Init,
        "alive" => What::Alive,
        "splice" => What::Splice(asked(of)?),
        "abort" => What::Abort(session()),
        "config" => What::Config,
        "extended" => What::Extended(session()),
        "cues" => What::Cues(of.get_one::<u64>("count").copied()),
        "play" => What::Play(of.get_one::<PathBuf>("script").cloned().unwrap_or_default()),
        _ => What::Load(of_load(of)?),
    };
    let to = found.get_one::<String>("to").cloned().unwrap_or("127.0.0.1:5168".into());
    Ok(Options { to, channel, json: found.get_flag("json"), what })
}

fn span(of: &ArgMatches, name: &str, without: &str) -> Result<u64, String> {
    let text = of.get_one::<String>(name).map_or(without, String::as_str);
    time::span(text).ok_or(format!("--{name}: no span: {text}"))
}

fn asked(of: &ArgMatches) -> Result<Asked, String> {
    let number = |name: &str| of.get_one::<u32>(name).copied();
    let byte = |name: &str| number(name).map(|n| u8::try_from(n).map_err(|_| format!("--{name}: {n} is no byte"))).transpose();
    Ok(Asked {
        ahead: span(of, "in", "5s")?,
        duration: span(of, "duration", "30s")?,
        session: number("session"),
        access: byte("access")?.unwrap_or(5),
        over: of.get_flag("override"),
        prior: number("prior"),
        event: number("event").unwrap_or(u32::MAX),
        mux: byte("mux")?,
    })
}

fn of_load(of: &ArgMatches) -> Result<Load, String> {
    let number = |name: &str, without: u32| of.get_one::<u32>(name).copied().unwrap_or(without) as usize;
    let drops = of.get_one::<String>("drop-rate").map_or("0", String::as_str);
    Ok(Load {
        channels: number("channels", 1).max(1),
        connections: number("connections", 3).max(1),
        rate: of.get_one::<u64>("rate").copied().unwrap_or(0),
        micros: span(of, "for", "60s")?,
        drops: time::decimal(drops).filter(|p| *p <= time::SECOND).ok_or(format!("--drop-rate: no share: {drops}"))?,
        seed: of.get_one::<u64>("seed").copied().unwrap_or(1),
    })
}

#[cfg(test)]
mod tests {
    use super::*;

    fn of(words: &[&str]) -> Result<Options, (String, u8)> {
        read(["adserver"].iter().chain(words).map(OsString::from))
    }

    #[test]
    fn commands() {
        assert!(matches!(of(&["init"]).unwrap().what, What::Init));
        let What::Splice(asked) = of(&["splice", "--in", "4s", "--duration", "15s", "--override", "--mux", "7"]).unwrap().what
        else {
            panic!("a splice");
        };
        assert_eq!((asked.ahead, asked.duration, asked.over, asked.mux, asked.access), (4_000_000, 15_000_000, true, Some(7), 5));
        assert!(matches!(of(&["abort", "7"]).unwrap().what, What::Abort(7)));
        let options = of(&["--to", "[::1]:5168", "--channel", "NEWS", "alive", "--json"]).unwrap();
        assert_eq!((options.to.as_str(), &options.channel[..], options.json), ("[::1]:5168", &b"NEWS"[..], true));
    }

    #[test]
    fn bad_ones_are_one_line_and_2() {
        for bad in [&[][..], &["nothing"], &["abort"], &["abort", "x"], &["splice", "--in", "5"], &["load", "--drop-rate", "2"]] {
            let (line, status) = of(bad).unwrap_err();
            assert!(status == 2 && !line.contains('\n') && !line.is_empty(), "{line}");
        }
    }
}

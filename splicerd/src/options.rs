//! What splicerd is told on its command line.

use crate::channel::Spec;
use crate::clock::Kind;
use crate::cues::{self, Cue};
use clap::{value_parser, Arg, ArgAction, ArgMatches, Command};
use std::collections::HashSet;
use std::ffi::OsString;
use std::net::SocketAddr;
use std::os::unix::ffi::OsStrExt;
use std::path::{Path, PathBuf};

/// Channels, at most.
pub const CHANNELS: usize = 1024;

#[derive(Debug)]
pub struct Options {
    pub listen: Vec<SocketAddr>,
    pub channels: Vec<Spec>,
    pub page: SocketAddr,
    pub record: Option<PathBuf>,
    pub cues: Vec<Cue>,
    pub clock: Kind,
    pub json: bool,
    pub fixed: bool,
    /// For tests: the call that referees hear wrong.
    pub misheard: Option<u64>,
}

fn command() -> Command {
    let path = |name: &'static str| Arg::new(name).long(name).value_name("FILE").value_parser(value_parser!(PathBuf));
    Command::new("splicerd")
        .version(env!("CARGO_PKG_VERSION"))
        .about("A splicer on the network (ITU-T J.280) over the proved core, without pictures and sound")
        .after_help("Status: 0 after SIGTERM or SIGINT, 1 for an error while it runs, 2 for a bad option. splicerd(1) says more.")
        .arg(address("listen").action(ArgAction::Append).help("where servers connect, more than once if wanted [127.0.0.1:5168]"))
        .arg(
            Arg::new("channel")
                .long("channel")
                .value_name("NAME")
                .value_parser(value_parser!(OsString))
                .action(ArgAction::Append)
                .help("a channel of 1 to 31 bytes, more than once if wanted [CH1]"),
        )
        .arg(path("channels").help("channels, a line each: NAME [FILE of its primary's section [FILE of its insertion's]]"))
        .arg(address("page").help("where the page is [127.0.0.1:8168]"))
        .arg(path("record").value_name("FOLDER").help("record each channel into a new file of this folder"))
        .arg(path("map-primary").help("the primary's program map section, for channels without their own"))
        .arg(path("map-insertion").help("the insertion's"))
        .arg(path("cues").help("sections of cues, a line each: TIME CHANNEL SECTION PTS [TIME OF THE PTS]"))
        .arg(
            Arg::new("clock")
                .long("clock")
                .value_name("CLOCK")
                .help("utc, from=TIME[,speed=N], or manual, moved by POST /clock [utc]"),
        )
        .arg(Arg::new("log").long("log").value_name("FORM").value_parser(["text", "json"]).help("how log lines are written [text]"))
        .arg(Arg::new("fixed").long("fixed-answers").hide(true).action(ArgAction::SetTrue))
        .arg(Arg::new("misheard").long("misheard").hide(true).value_parser(value_parser!(u64)))
}

fn address(name: &'static str) -> Arg {
    Arg::new(name).long(name).value_name("ADDRESS:PORT").value_parser(value_parser!(SocketAddr))
}

/// The options, or what is to be said and the status to end with.
pub fn read(words: impl IntoIterator<Item = OsString>) -> Result<Options, (String, u8)> {
    let found = command().try_get_matches_from(words).map_err(|error| said(&error))?;
    build(&found).map_err(|why| (format!("splicerd: {why}"), 2))
}

/// Help and version as they are, anything else in one line.
pub fn said(error: &clap::Error) -> (String, u8) {
    let text = error.to_string();
    if error.use_stderr() {
        let line = text.split("\n\n").next().unwrap_or_default().split_whitespace().collect::<Vec<_>>().join(" ");
        (line, 2)
    } else {
        (text.trim_end().into(), 0)
    }
}

fn build(found: &ArgMatches) -> Result<Options, String> {
    let local = |port| SocketAddr::from(([127, 0, 0, 1], port));
    let listen: Vec<SocketAddr> = found.get_many("listen").map_or(vec![local(5168)], |all| all.copied().collect());
    let clock = found.get_one::<String>("clock").map_or("utc", String::as_str);
    let channels = channels(found)?;
    Ok(Options {
        listen,
        cues: read_cues(found.get_one::<PathBuf>("cues"), &channels)?,
        channels,
        page: found.get_one("page").copied().unwrap_or(local(8168)),
        record: found.get_one::<PathBuf>("record").cloned(),
        clock: Kind::read(clock).ok_or(format!("no clock: {clock}"))?,
        json: found.get_one::<String>("log").is_some_and(|form| form == "json"),
        fixed: found.get_flag("fixed"),
        misheard: found.get_one("misheard").copied(),
    })
}

/// Those named one by one and those of the file; CH1 if there are none.
fn channels(found: &ArgMatches) -> Result<Vec<Spec>, String> {
    let given = |name| found.get_one::<PathBuf>(name).map_or(Ok(Vec::new()), |path| section(path));
    let (primary, insertion) = (given("map-primary")?, given("map-insertion")?);
    let plain = |name: &[u8]| Spec { name: name.to_vec(), primary: primary.clone(), insertion: insertion.clone() };
    let mut all: Vec<Spec> = found.get_many::<OsString>("channel").into_iter().flatten().map(|n| plain(n.as_bytes())).collect();
    if let Some(path) = found.get_one::<PathBuf>("channels") {
        let text = std::fs::read(path).map_err(|error| format!("{}: {error}", path.display()))?;
        for line in text.split(|byte| *byte == b'\n').filter(|line| !line.trim_ascii().is_empty() && line[0] != b'#') {
            all.push(listed(line, path, &plain)?);
        }
    }
    if all.is_empty() {
        all.push(plain(b"CH1"));
    }
    let mut seen = HashSet::new();
    for spec in &all {
        if !(1..=31).contains(&spec.name.len()) || spec.name.contains(&0) {
            return Err(format!("a name is 1 to 31 bytes, not '{}'", crate::words::text(&spec.name)));
        }
        if !seen.insert(&spec.name) {
            return Err(format!("two channels named '{}'", crate::words::text(&spec.name)));
        }
    }
    if all.len() > CHANNELS {
        return Err(format!("{} channels, and at most {CHANNELS}", all.len()));
    }
    Ok(all)
}

/// A line of the channels' file: the name, with %XX for a byte that is not plain, then its sections' files, as seen from its folder.
fn listed(line: &[u8], path: &Path, plain: &impl Fn(&[u8]) -> Spec) -> Result<Spec, String> {
    let text = std::str::from_utf8(line).map_err(|_| format!("{}: a line that is not UTF-8: use %XX", path.display()))?;
    let mut words = text.split_whitespace();
    let name = words.next().and_then(cues::unescaped).ok_or(format!("{}: no name: {text}", path.display()))?;
    let mut spec = plain(&name);
    let folder = path.parent().unwrap_or(Path::new("."));
    if let Some(file) = words.next() {
        spec.primary = section(&folder.join(file))?;
    }
    if let Some(file) = words.next() {
        spec.insertion = section(&folder.join(file))?;
    }
    match words.next() {
        None => Ok(spec),
        Some(word) => Err(format!("{}: '{word}' behind a channel's two sections", path.display())),
    }
}

/// A section's bytes, as they stand in the file; the core takes up to 1,024.
fn section(path: &Path) -> Result<Vec<u8>, String> {
    let bytes = std::fs::read(path).map_err(|error| format!("{}: {error}", path.display()))?;
    if bytes.len() > splicer::MAP_SECTION {
        return Err(format!("{}: a section of {} bytes, and at most {}", path.display(), bytes.len(), splicer::MAP_SECTION));
    }
    Ok(bytes)
}

fn read_cues(path: Option<&PathBuf>, channels: &[Spec]) -> Result<Vec<Cue>, String> {
    let Some(path) = path else {
        return Ok(Vec::new());
    };
    let text = std::fs::read_to_string(path).map_err(|error| format!("{}: {error}", path.display()))?;
    let cues = cues::read(&text).map_err(|why| format!("{}: {why}", path.display()))?;
    match cues.iter().find(|cue| channels.iter().all(|spec| spec.name != cue.channel)) {
        Some(cue) => Err(format!("{}: no channel {}", path.display(), crate::words::text(&cue.channel))),
        None => Ok(cues),
    }
}

#[cfg(test)]
mod tests {
    use super::*;

    fn of(words: &[&str]) -> Result<Options, (String, u8)> {
        read(["splicerd"].iter().chain(words).map(OsString::from))
    }

    #[test]
    fn defaults() {
        let options = of(&[]).unwrap();
        assert_eq!(options.listen, ["127.0.0.1:5168".parse().unwrap()]);
        assert_eq!((options.page, options.clock), ("127.0.0.1:8168".parse().unwrap(), Kind::Utc));
        assert_eq!(options.channels, [Spec { name: b"CH1".to_vec(), ..Spec::default() }]);
        assert!(options.record.is_none() && !options.json);
    }

    #[test]
    fn several() {
        let options = of(&["--listen", "[::1]:1", "--listen", "127.0.0.1:2", "--channel", "A", "--channel", "B"]).unwrap();
        assert_eq!((options.listen.len(), options.channels.len()), (2, 2));
    }

    #[test]
    fn bad_ones_are_one_line_and_2() {
        let long = "x".repeat(32);
        for bad in [&["--listen", "x"][..], &["--nothing"], &["--clock", "x"], &["--channel", ""], &["--channel", &long], &["word"]]
        {
            let (line, status) = of(bad).unwrap_err();
            assert!(status == 2 && !line.contains('\n') && !line.is_empty(), "{line}");
        }
        assert_eq!(of(&["--channel", "A", "--channel", "A"]).unwrap_err().0, "splicerd: two channels named 'A'");
        assert_eq!(of(&["--version"]).unwrap_err(), (format!("splicerd {}", env!("CARGO_PKG_VERSION")), 0));
        assert!(of(&["--help"]).unwrap_err().0.contains("--map-insertion"));
    }
}

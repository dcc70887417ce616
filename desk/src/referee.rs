//! The proved referee, where it is there: the program `referee` of a release, beside this one or on
//! the PATH; DESK_REFEREE names another, or none if it is empty (docs/DECISIONS.md, 252).

use crate::ruled::Held;
use std::io::{Read, Write};
use std::path::PathBuf;
use std::process::{Command, Stdio};

/// What it said.
#[derive(Clone, Copy, Debug, PartialEq, Eq)]
pub enum Said {
    None,
    Call(usize),
    Unknown(usize),
}

/// The name that the programs give.
const OWN: &[u8] = b"CH1\0";

/// Where it is.
pub fn program() -> Option<PathBuf> {
    if let Some(named) = std::env::var_os("DESK_REFEREE") {
        return Some(PathBuf::from(named)).filter(|path| path.is_file());
    }
    let beside = std::env::current_exe().ok();
    let beside = beside.and_then(|own| Some(own.parent()?.to_path_buf()));
    let path = std::env::var_os("PATH").unwrap_or_default();
    let folders = beside.into_iter().chain(std::env::split_paths(&path));
    folders
        .map(|folder| folder.join("referee"))
        .find(|path| path.is_file())
}

/// Its judgement of a recording of a channel of this name; or why it has none.
pub fn judged(program: &PathBuf, recording: &[u8], name: &[u8; 32]) -> Result<Said, String> {
    let named = recording.first() == Some(&0x4E) || name.starts_with(OWN);
    let before = match named {
        true => Vec::new(),
        false => [&[0x4E, 0][..], name].concat(),
    };
    let told = |e: std::io::Error| format!("{}: {e}", program.display());
    let mut child = Command::new(program)
        .stdin(Stdio::piped())
        .stdout(Stdio::piped())
        .stderr(Stdio::null())
        .spawn()
        .map_err(told)?;
    let (input, output) = (child.stdin.take(), child.stdout.take());
    let mut text = String::new();
    std::thread::scope(|scope| {
        // it may have told before all is read
        scope.spawn(|| {
            let mut input = input?;
            let written = input.write_all(&before);
            written.and_then(|()| input.write_all(recording)).ok()
        });
        output.map_or(Ok(0), |mut output| output.read_to_string(&mut text))
    })
    .map_err(told)?;
    child.wait().map_err(told)?;
    match said(text.lines().next().unwrap_or_default()) {
        Some(Said::Unknown(0)) if !named => Err("it knows no mark of a name".to_string()),
        Some(Said::Unknown(at)) => Ok(Said::Unknown(at - before.len())),
        Some(said) => Ok(said),
        None => Err(format!("{}: no verdict: {text:?}", program.display())),
    }
}

/// The checker's line.
fn said(line: &str) -> Option<Said> {
    match line.split(' ').collect::<Vec<_>>()[..] {
        ["none"] => Some(Said::None),
        ["call", number] => number.parse().ok().map(Said::Call),
        ["refused", "14", "at", place] => place.parse().ok().map(Said::Unknown),
        _ => None,
    }
}

/// What is to be said of it beside this program's own judgement, and whether the rules are broken.
pub fn beside(said: &Result<Said, String>, held: &Held) -> (String, bool) {
    let own = held.broken.first().copied();
    let broken = own.is_some();
    match said {
        Err(why) => (format!("the referee was not asked: {why}"), broken),
        Ok(Said::None) if !broken => ("the proved referee says the same: none".to_string(), false),
        Ok(Said::Call(call)) if own == Some(*call) => {
            let same = format!("the proved referee says the same: call {call} first");
            (same, true)
        }
        Ok(Said::Unknown(at)) if !held.recording.unread => {
            let stops = format!("the proved referee knows no mark as that of byte {at}");
            (format!("{stops}: held by the second program alone"), broken)
        }
        Ok(Said::Unknown(at)) => {
            let same = format!("the proved referee stops at byte {at} too");
            (same, broken)
        }
        Ok(Said::Call(call)) if held.unmarked == Some(*call) => {
            let marks = "its records have cues or a map that no mark tells of";
            (
                format!("the proved referee says call {call}: {marks}"),
                broken,
            )
        }
        Ok(Said::Call(call)) => (format!("BUT THE PROVED REFEREE SAYS call {call}"), true),
        Ok(Said::None) => ("BUT THE PROVED REFEREE SAYS none".to_string(), broken),
    }
}

#[cfg(test)]
mod tests {
    use super::*;

    #[test]
    fn its_lines() {
        assert_eq!(said("none"), Some(Said::None));
        assert_eq!(said("call 17"), Some(Said::Call(17)));
        assert_eq!(said("refused 14 at 9"), Some(Said::Unknown(9)));
        for other in ["", "call", "call x", "refused 15", "none more"] {
            assert_eq!(said(other), None, "{other}");
        }
    }
}

//! Runs the program.
#![allow(dead_code)]

use std::io::Write;
use std::path::PathBuf;
use std::process::{Command, Stdio};

pub struct Ran {
    pub status: i32,
    pub out: Vec<u8>,
    pub said: String,
}

impl Ran {
    pub fn text(&self) -> String {
        String::from_utf8(self.out.clone()).expect("text")
    }

    /// The lines, with single blanks.
    pub fn lines(&self) -> Vec<String> {
        let blanks = |l: &str| l.split_whitespace().collect::<Vec<_>>().join(" ");
        self.text().lines().map(blanks).collect()
    }
}

/// Without a referee, whether one is installed or not.
pub fn desk(words: &[&str], input: &[u8]) -> Ran {
    desk_by("", words, input)
}

/// With this program as the referee.
pub fn desk_by(referee: &str, words: &[&str], input: &[u8]) -> Ran {
    let mut child = Command::new(env!("CARGO_BIN_EXE_desk"))
        .args(words)
        .env("DESK_REFEREE", referee)
        .env("LC_ALL", "C.UTF-8")
        .stdin(Stdio::piped())
        .stdout(Stdio::piped())
        .stderr(Stdio::piped())
        .spawn()
        .expect("desk");
    // It may end before it has read all.
    let _ = child.stdin.take().expect("stdin").write_all(input);
    let done = child.wait_with_output().expect("its output");
    Ran {
        status: done.status.code().expect("a status"),
        out: done.stdout,
        said: String::from_utf8(done.stderr).expect("text"),
    }
}

/// A file of `recordings/`.
pub fn recording(name: &str) -> String {
    format!("{}/recordings/{name}", env!("CARGO_MANIFEST_DIR"))
}

/// A file of this run, for the test of this name.
pub fn scratch(name: &str, bytes: &[u8]) -> String {
    let path = PathBuf::from(env!("CARGO_TARGET_TMPDIR")).join(name);
    std::fs::write(&path, bytes).expect("written");
    path.to_str().expect("a path").to_string()
}

//! Running the card program as a child process and telling differences.

use std::io::Write;
use std::os::fd::OwnedFd;
use std::os::unix::net::UnixDatagram;
use std::process::{Child, Command, Stdio};

/// How often a program may read behind the end of its input.
const AT_END: usize = 64;

/// What a card program wrote, and what it ended with if that was no success.
pub struct Output {
    pub bytes: Vec<u8>,
    pub trouble: Option<String>,
}

/// Runs `command` (split on blanks) with `input` as its standard input.
pub fn run_command(command: &str, input: &[u8]) -> Result<Output, String> {
    let mut child = start(command, Stdio::piped())?;
    let mut pipe = child.stdin.take().ok_or("no standard input")?;
    let given = input.to_vec();
    finish(command, child, move || {
        let _ = pipe.write_all(&given);
    })
}

/// The same with input that arrives in pieces: each read of the program gets one of them and no more.
/// They are sent as datagrams; an empty one is the end of the input.
pub fn run_in_pieces(command: &str, pieces: &[&[u8]]) -> Result<Output, String> {
    let (ours, theirs) = UnixDatagram::pair().map_err(|e| format!("no pair of sockets: {e}"))?;
    let child = start(command, Stdio::from(OwnedFd::from(theirs)))?;
    let given: Vec<Vec<u8>> = pieces.iter().map(|piece| piece.to_vec()).collect();
    finish(command, child, move || {
        // a program that has stopped reads no more
        let _ = given.iter().try_for_each(|piece| ours.send(piece).map(|_| ()));
        // once for each read behind the end: of those that still play what was read before, too
        for _ in 0..AT_END {
            let _ = ours.send(&[]);
        }
    })
}

fn start(command: &str, input: Stdio) -> Result<Child, String> {
    let mut words = command.split_whitespace();
    let program = words.next().ok_or("the card command is empty")?;
    Command::new(program)
        .args(words)
        .stdin(input)
        .stdout(Stdio::piped())
        .spawn()
        .map_err(|e| format!("cannot start {command}: {e}"))
}

/// A thread of its own feeds the program: it may write before it has read everything, and it may stop before the end of the input.
fn finish(command: &str, child: Child, feed: impl FnOnce() + Send + 'static) -> Result<Output, String> {
    let feeder = std::thread::spawn(feed);
    let done = child.wait_with_output().map_err(|e| format!("{command}: {e}"))?;
    let _ = feeder.join();
    let failed = !done.status.success();
    Ok(Output { bytes: done.stdout, trouble: failed.then(|| format!("{command} ended with {}", done.status)) })
}

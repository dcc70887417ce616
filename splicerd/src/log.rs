//! The log: a line for each event, on standard error. A thread writes it, so that a reader of it that stands still delays nobody;
//! lines that it has no room for are counted, and that is told.

use crate::time;
use serde_json::{json, Value};
use std::fmt::{Display, Write as _};
use std::io::Write;
use std::sync::mpsc::{sync_channel, SyncSender, TrySendError};
use std::thread::JoinHandle;
use std::time::{Duration, Instant};

/// Batches of lines that wait for standard error.
const ROOM: usize = 256;

/// Lines go to it at most so often, or when there are so many bytes of them.
const EVERY: Duration = Duration::from_millis(20);
const BATCH: usize = 64 * 1024;

pub struct Log {
    json: bool,
    lines: String,
    lost: u64,
    handed: Instant,
    sender: Option<SyncSender<String>>,
    writer: Option<JoinHandle<()>>,
}

impl Log {
    pub fn new(json: bool) -> Log {
        let (sender, lines) = sync_channel::<String>(ROOM);
        let writer = std::thread::spawn(move || {
            for batch in lines {
                // nobody is left to be told that it could not be written
                let _ = std::io::stderr().write_all(batch.as_bytes());
            }
        });
        Log { json, lines: String::new(), lost: 0, handed: Instant::now(), sender: Some(sender), writer: Some(writer) }
    }

    /// An event: its time by the splicer's clock, its kind, the channel's name if it is one's, what it was.
    pub fn event(&mut self, now: u64, kind: &str, channel: Option<&str>, what: impl Display) {
        let (lines, time) = (&mut self.lines, time::Shown(now));
        let written = match (self.json, channel) {
            (true, _) => {
                let value = json!({"time": time.to_string(), "event": kind, "what": what.to_string()});
                writeln!(lines, "{}", with_channel(value, channel))
            }
            (false, Some(channel)) => writeln!(lines, "{time} {channel}: {kind}: {what}"),
            (false, None) => writeln!(lines, "{time} {kind}: {what}"),
        };
        debug_assert!(written.is_ok(), "a String takes all that is written");
    }

    /// How long the lines may still wait, so that many go together; none: there are none.
    pub fn wait(&self) -> Option<Duration> {
        let left = if self.lines.len() < BATCH { EVERY.saturating_sub(self.handed.elapsed()) } else { Duration::ZERO };
        (!self.lines.is_empty()).then_some(left)
    }

    /// Hands the lines over that have waited long enough.
    pub fn run(&mut self, now: u64) {
        if self.wait() == Some(Duration::ZERO) {
            self.flush(now);
        }
    }

    /// Hands the lines over.
    fn flush(&mut self, now: u64) {
        if self.lines.is_empty() {
            return;
        }
        self.handed = Instant::now();
        if self.lost > 0 {
            let lost = std::mem::take(&mut self.lost);
            self.event(now, "log", None, format_args!("{lost} lines before this were lost: standard error was not read"));
        }
        let batch = std::mem::replace(&mut self.lines, String::with_capacity(BATCH / 8));
        if let Some(Err(TrySendError::Full(batch))) = self.sender.as_ref().map(|sender| sender.try_send(batch)) {
            self.lost += batch.lines().count() as u64;
        }
    }

    /// Waits until all is written.
    pub fn end(&mut self, now: u64) {
        self.flush(now);
        self.sender = None;
        if let Some(writer) = self.writer.take() {
            // a writer that ended early has said so on standard error itself
            let _ = writer.join();
        }
    }
}

fn with_channel(mut value: Value, channel: Option<&str>) -> Value {
    if let Some(channel) = channel {
        value["channel"] = json!(channel);
    }
    value
}

#[cfg(test)]
mod tests {
    use super::*;

    #[test]
    fn lines_wait_for_others_but_not_long() {
        let mut log = Log::new(false);
        assert_eq!(log.wait(), None);
        log.event(0, "listening", None, "somewhere");
        assert!(log.wait().is_some_and(|left| left <= EVERY));
        assert_eq!(log.lines, "1970-01-01T00:00:00.000000Z listening: somewhere\n");
        // so many bytes do not wait
        log.event(0, "call", Some("CH1"), "x".repeat(BATCH));
        assert_eq!(log.wait(), Some(Duration::ZERO));
    }

    #[test]
    fn a_line_as_json() {
        let mut log = Log::new(true);
        log.event(1_000_000, "call", Some("A\"B"), "open 0");
        let value: Value = serde_json::from_str(&log.lines).expect("JSON");
        assert_eq!(value, json!({"time": "1970-01-01T00:00:01.000000Z", "event": "call", "channel": "A\"B", "what": "open 0"}));
    }
}

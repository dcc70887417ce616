//! Runs of the card program, for comparing and for people.

use crate::people::looks::Reads;
pub use rules::card::{channel_name, input_bytes, is_too_large, make, next_call, shown, Call, Stop};
use rules::right::RIGHT;
use rules::state::{Rules, Splicer};

/// Why the card program stopped, in words.
pub fn stop_line(stop: Stop) -> &'static str {
    match stop {
        Stop::End => "card stops at the end of the input",
        Stop::CutRecord => "card stops at a cut record",
        Stop::OtherMark => "card stops at another mark",
        Stop::TooLarge => "card stops at a MessageSize above 4,088",
    }
}

/// A call made, where its record ends in the input, and what the card program wrote.
#[derive(Clone, Debug)]
pub struct Done {
    pub call: Call,
    pub to: usize,
    pub output: Vec<u8>,
    /// What is read after it.
    pub read: Reads,
}

/// A run of the card program.
pub struct Run {
    pub calls: Vec<Done>,
    pub stop: Stop,
    pub splicer: Splicer,
}

impl Run {
    pub fn output(&self) -> Vec<u8> {
        self.calls.iter().flat_map(|d| d.output.clone()).collect()
    }
}

/// By the right rules.
pub fn run(input: &[u8]) -> Run {
    run_by(input, &RIGHT)
}

pub fn run_by(input: &[u8], rules: &'static Rules) -> Run {
    let mut calls = Vec::new();
    let (splicer, stop) = rules::card::run(input, rules, |splicer, call, to, output| {
        calls.push(Done { call, to, output, read: Reads::of(splicer) });
    });
    Run { calls, stop, splicer }
}

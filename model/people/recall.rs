//! The program over the engine that only remembers (02, CR 12).

use crate::people::card;
use rules::card::{Call as Kept, Stop};
pub use rules::recall::*;
use rules::state::{Maps, ROOM};

/// An engine that only remembers: what it keeps is in the log.
pub trait Remembers {
    fn call(&self, log: &mut [u8], asked: &Asked, out: &mut [u8]) -> Reply;
}

/// This one.
pub struct Recall;

impl Remembers for Recall {
    fn call(&self, log: &mut [u8], asked: &Asked, out: &mut [u8]) -> Reply {
        call(log, asked, out)
    }
}

/// A call that the program made, where its record ends in the input, and what it wrote.
#[derive(Clone, Debug)]
pub struct Done {
    pub call: Kept,
    pub to: usize,
    pub output: Vec<u8>,
}

/// A run of the program.
pub struct Run {
    pub calls: Vec<Done>,
    pub stop: Stop,
    pub log: Vec<u8>,
}

impl Run {
    pub fn output(&self) -> Vec<u8> {
        self.calls.iter().flat_map(|d| d.output.clone()).collect()
    }

    /// The first call that got 13.
    pub fn first_13(&self) -> Option<usize> {
        self.calls.iter().position(|d| d.output == [0x45, FULL])
    }
}

/// The program: "the card program's input, this engine's output, a refusal as 0x45 and the number; it goes on
/// after 13". It stops as the card program does.
pub fn run(input: &[u8]) -> Run {
    run_by(&Recall, input)
}

/// The same over any such engine.
pub fn run_by(engine: &dyn Remembers, input: &[u8]) -> Run {
    let mut log = vec![0xFF; LOG];
    engine.call(&mut log, &Asked::Fresh, &mut []);
    let (mut calls, mut at) = (Vec::new(), 0);
    let stop = loop {
        let (call, length) = match card::next_call(&input[at..]) {
            Err(stop) => break stop,
            Ok(next) => next,
        };
        at += length;
        let output = make(engine, &mut log, &call);
        let too_large = card::is_too_large(&call);
        calls.push(Done { call, to: at, output });
        // "it makes the call, writes the refusal and stops"
        if too_large {
            break Stop::TooLarge;
        }
    };
    Run { calls, stop, log }
}

/// What the program writes for a call, with empty sections and a buffer of 4,096.
pub fn make(engine: &dyn Remembers, log: &mut [u8], call: &Kept) -> Vec<u8> {
    let mut out = vec![0; ROOM];
    let asked = match call {
        Kept::Open(conn) => Asked::Open((*conn).into()),
        Kept::Close(conn) => Asked::Close((*conn).into()),
        Kept::Message(conn, bytes) => Asked::Message((*conn).into(), bytes, Maps::EMPTY),
        Kept::Tick(seconds, micros) => Asked::Tick(*seconds, *micros),
    };
    let reply = engine.call(log, &asked, &mut out);
    match reply.refused {
        0 => out[..reply.written].to_vec(),
        number => vec![0x45, number],
    }
}

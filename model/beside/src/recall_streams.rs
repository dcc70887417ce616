//! The engine that only remembers (02, CR 12): the second engine of the archive beside the card's and beside the second
//! program's. Whole streams until 13 and some calls behind it, with calls between that the card program cannot make;
//! the log held to the bytes that the good calls say; logs of any bytes and lengths; and every mistake.

use crate::calls::ask_core_with;
use crate::second::ENGINE;
use crate::tell;
use model::gen::aims::ROUND;
use model::gen::logs::{histories, whole};
use model::gen::recall_calls::{self, History, Seen};
use model::hold::lapses::{Lapsed, LAPSES, OF_PROGRAM};
use model::people::card;
use model::people::driver_call::{Act, Call};
use model::people::recall::{record, Recall, Remembers, Reply, FULL, LEAST_FREE, LOG, MOST};
use splicer::Splicer;

/// A mistake must be noticed in the logs of these streams, or in the streams: configurations first.
const FOR_A_LAPSE: [u64; 9] = [7, 0, 1, 2, 3, 4, 5, 8, 13];

/// Faults in what the engine is seen to do to memory.
const TOUCHING: &[(&str, &str)] = &[
    ("log-before", "a byte before the log changed"),
    ("log-behind", "a byte behind the log changed"),
    ("log-far", "the log's last byte changed"),
    ("out-before", "a byte before the output buffer changed"),
    ("out-behind", "a byte behind the written ones changed"),
    ("out-after", "a byte behind the output buffer changed"),
];

const GUARD: usize = 64;

/// Memory around and under a lent slice, all of it known before a call.
struct Lent {
    memory: Vec<u8>,
    begin: usize,
    length: usize,
}

impl Lent {
    /// A copy of these bytes, at every alignment in turn.
    fn of(bytes: &[u8], turn: usize) -> Lent {
        let begin = GUARD + turn % 16;
        let mut memory: Vec<u8> = (0..begin).map(|at| at as u8 ^ 0x4F).collect();
        memory.extend(bytes);
        memory.extend((0..GUARD).map(|at| at as u8 ^ 0x43));
        Lent { memory, begin, length: bytes.len() }
    }

    fn slice(&mut self) -> &mut [u8] {
        &mut self.memory[self.begin..self.begin + self.length]
    }

    /// Whether a byte around it changed.
    fn touched(&self) -> bool {
        let (before, rest) = self.memory.split_at(self.begin);
        let behind = &rest[self.length..];
        let same = |(at, byte): (usize, &u8), mask: u8| *byte == at as u8 ^ mask;
        !before.iter().enumerate().all(|pair| same(pair, 0x4F)) || !behind.iter().enumerate().all(|pair| same(pair, 0x43))
    }
}

/// Makes a call with the log and the output buffer in the midst of known memory.
fn made(log: &mut [u8], act: &Act, turn: usize, fault: &str) -> Result<Seen, String> {
    let before: Vec<u8> = (0..act.room).map(|at| (at + turn) as u8).collect();
    let (mut kept, mut out) = (Lent::of(log, turn / 16), Lent::of(&before, turn));
    let reply = ENGINE.call(kept.slice(), &act.asked(), out.slice());
    spoil(fault, &mut kept, &mut out, &reply);
    if kept.touched() || out.touched() {
        return Err("a byte around the log or the output buffer changed".to_string());
    }
    log.copy_from_slice(kept.slice());
    let out = out.slice().to_vec();
    Ok(Seen { reply, out })
}

fn spoil(fault: &str, kept: &mut Lent, out: &mut Lent, reply: &Reply) {
    let (written, room) = (out.begin + reply.written, out.length);
    match fault {
        "log-before" => kept.memory[kept.begin - 1] ^= 1,
        "log-behind" => kept.memory[kept.begin + kept.length] ^= 1,
        "log-far" if kept.length > 0 => kept.memory[kept.begin + kept.length - 1] ^= 1,
        "out-before" => out.memory[out.begin - 1] ^= 1,
        "out-behind" if reply.written < room => out.memory[written] ^= 1,
        "out-after" => out.memory[out.begin + room] ^= 1,
        _ => {}
    }
}

/// The second engine and the second program's, each with its log, given the same calls.
struct Pair {
    log: Vec<u8>,
    model: Vec<u8>,
    turn: usize,
}

impl Pair {
    fn new(log: &[u8]) -> Pair {
        Pair { log: log.to_vec(), model: log.to_vec(), turn: 0 }
    }

    /// Makes the call on both, and compares the reply, every byte of the output buffer and the whole log.
    fn call(&mut self, act: &Act, fault: &str) -> Result<Seen, String> {
        let before = self.log.clone();
        let found = made(&mut self.log, act, self.turn, fault)?;
        let wanted = recall_calls::made(&Recall, &mut self.model, act, self.turn);
        self.turn += 1;
        if found.reply != wanted.reply {
            let (found, wanted) = (found.reply, wanted.reply);
            return Err(format!("{found:?}, second program {wanted:?}"));
        }
        if found.out != wanted.out {
            return Err("another byte in the output buffer".to_string());
        }
        if self.log != self.model {
            let at = self.log.iter().zip(&self.model).position(|(a, b)| a != b);
            return Err(format!("another log, from byte {}", at.unwrap_or(0)));
        }
        // a copy of the log elsewhere, later
        if self.turn % 8 == 3 {
            let mut copy = before;
            let again = recall_calls::made(ENGINE, &mut copy, act, self.turn - 1);
            if again != found || copy != self.log {
                return Err("a copy of the log was answered in another way".to_string());
            }
        }
        Ok(found)
    }
}

/// The card's engine with "CH1", and what its answers say of the log.
struct Card {
    core: Splicer,
    /// The records of the good calls.
    kept: Vec<u8>,
    good: usize,
    full: bool,
}

impl Card {
    fn new() -> Card {
        Card { core: Splicer::fresh(&card::channel_name()).0, kept: Vec::new(), good: 0, full: false }
    }

    /// Holds what the second engine did to the card's engine, until the first 13, and 13 to the count of the good calls
    /// and of the bytes of their records.
    fn hold(&mut self, act: &Act, turn: usize, seen: &Seen, log: &[u8]) -> Result<(), String> {
        let due = self.good >= MOST || LOG - self.kept.len() < LEAST_FREE;
        if due != (seen.reply.refused == FULL) {
            let (good, bytes) = (self.good, self.kept.len());
            return Err(format!("13 is due: {due}; {good} calls, {bytes} bytes"));
        }
        self.full |= due;
        if !due {
            self.same(act, turn, seen)?;
        }
        if seen.reply.refused == 0 {
            self.good += 1;
            self.kept.extend(record(&act.asked()));
        }
        let (front, rest) = log.split_at(self.kept.len());
        if front != self.kept || rest.iter().any(|byte| *byte != 0) {
            return Err("the log is not the good calls and zeros".to_string());
        }
        Ok(())
    }

    /// The answer of the card's engine, byte for byte.
    fn same(&mut self, act: &Act, turn: usize, seen: &Seen) -> Result<(), String> {
        let mut out: Vec<u8> = (0..act.room).map(|at| (at + turn) as u8).collect();
        let said = ask_core_with(&mut self.core, &act.call, &act.sections, &mut out);
        let reply = Reply { refused: said.refused, consumed: said.consumed, written: said.written.len(), moved: said.moved };
        if reply != seen.reply || out != seen.out {
            return Err(format!("{:?}, the card's {}", seen.reply, said.line()));
        }
        Ok(())
    }
}

/// What came of it.
#[derive(Default)]
struct Tally {
    calls: u64,
    kept: u64,
    /// Streams that came to a 13, and calls that got it.
    full: u64,
    thirteen: u64,
    refusals: [u64; 17],
    differences: Vec<String>,
}

impl Tally {
    fn count(&mut self, reply: &Reply) {
        self.calls += 1;
        self.kept += u64::from(reply.refused == 0);
        self.thirteen += u64::from(reply.refused == FULL);
        self.refusals[usize::from(reply.refused).min(16)] += 1;
    }

    /// A whole stream on all three.
    fn stream(&mut self, history: &History, name: &str) {
        let (mut pair, mut card) = (Pair::new(&history.log), Card::new());
        for (turn, act) in history.acts.iter().enumerate() {
            let held = pair.call(act, "").and_then(|seen| {
                self.count(&seen.reply);
                match act.call {
                    Call::Fresh => Ok(()),
                    _ => card.hold(act, turn, &seen, &pair.log),
                }
            });
            if let Err(text) = held {
                let line = act.line();
                self.differences.push(format!("{name}, call {turn}: {line}\n{text}\n"));
                return;
            }
        }
        self.full += u64::from(card.full);
    }

    /// A log of any bytes and length, on the second engine and the second program's.
    fn log(&mut self, history: &History, name: &str) {
        let mut pair = Pair::new(&history.log);
        for (turn, act) in history.acts.iter().enumerate() {
            match pair.call(act, "") {
                Ok(seen) => self.count(&seen.reply),
                Err(text) => {
                    let (kind, line) = (history.kind, act.line());
                    self.differences.push(format!("{name}, {kind}, call {turn}: {line}\n{text}\n"));
                    return;
                }
            }
        }
    }

    /// The refusals that never came, if the streams are so many that each must.
    fn never(&self, n: u64) -> Vec<usize> {
        let all = [1, 2, 3, 4, 5, 6, 7, 8, 10, 13];
        let none = all.into_iter().filter(|number| self.refusals[*number] == 0);
        none.filter(|_| n >= ROUND).collect()
    }

    fn told(&self, seed: u64, n: u64, what: &str) -> bool {
        let never = self.never(n);
        for number in &never {
            println!("never refused with {number}");
        }
        println!("refusals from 1 on: {:?}", &self.refusals[1..]);
        let line = format!("{what}, {} calls, {} kept, {} with 13", self.calls, self.kept, self.thirteen);
        tell::compared(&line, seed, "", &self.differences, &[]) && never.is_empty()
    }
}

/// N streams and their logs, then every mistake.
pub fn everything(seed: u64, n: u64) -> Vec<bool> {
    let (mut streams, mut made_up) = (Tally::default(), Tally::default());
    let mut count = 0;
    for index in 0..n {
        streams.stream(&whole(seed, index), &format!("remembered stream {index}"));
        for history in histories(seed, index) {
            count += 1;
            made_up.log(&history, &format!("log of stream {index}"));
        }
    }
    let what = format!("{n} remembered streams, {} of them full", streams.full);
    let mut results = vec![streams.told(seed, n, &what)];
    results.push(made_up.told(seed, n, &format!("{count} logs")));
    let alike = results.len();
    results.extend(mistakes(seed));
    let unnoticed = results[alike..].iter().filter(|good| !**good).count();
    let all = results.len() - alike;
    println!("beside: {all} mistakes of a second engine: {unnoticed} not noticed");
    results
}

/// What the second engine does with these, to hold mistakes to.
fn played(seed: u64) -> Vec<(History, Vec<(Seen, u64)>)> {
    let logs = FOR_A_LAPSE.iter().flat_map(|at| histories(seed, *at));
    let streams = FOR_A_LAPSE.iter().map(|at| whole(seed, *at));
    let list = logs.chain(streams);
    list.map(|history| {
        let seen = recall_calls::played(ENGINE, &history);
        (history, seen)
    })
    .collect()
}

/// Shows that each mistake is noticed: of the second program's list against the engine, and some in what the engine is seen to do.
fn mistakes(seed: u64) -> Vec<bool> {
    let list = played(seed);
    let mut results = Vec::new();
    let lapses = LAPSES.iter().filter(|(lapse, _)| !OF_PROGRAM.contains(lapse));
    for (lapse, text) in lapses {
        let engine: &dyn Remembers = &Lapsed(Some(*lapse));
        let place = list.iter().find_map(|(history, seen)| {
            let call = recall_calls::leaves(engine, history, seen)?;
            Some(format!("{}, call {call}", history.kind))
        });
        results.push(tell::noticed(&format!("{lapse:?}: {text}"), place.as_deref(), ""));
    }
    for (name, text) in TOUCHING {
        let place = list.iter().find_map(|(history, _)| {
            let mut pair = Pair::new(&history.log);
            let calls = history.acts.iter();
            let call = calls.take(3).position(|act| pair.call(act, name).is_err())?;
            Some(format!("{}, call {call}", history.kind))
        });
        results.push(tell::noticed(&format!("{name}: {text}"), place.as_deref(), ""));
    }
    results
}

//! The calls of a driver on an engine that only remembers (02, CR 12), those too that the card program cannot make, and all that
//! is seen of them.

use crate::gen::draw::Rng;
use crate::gen::foreign;
use crate::people::card::{self, Call as Kept};
use crate::people::driver_call::{Act, Call};
use crate::people::recall::{self, Remembers, Reply, LEAST_FREE, LOG, MOST};
use crate::rules::ROOM;
use std::hash::{DefaultHasher, Hasher};

/// A log and calls on it, one behind the other.
pub struct History {
    pub kind: &'static str,
    pub log: Vec<u8>,
    pub acts: Vec<Act>,
}

/// These calls as a driver may make them, and between them those that the card program cannot make: about so many.
pub fn foreign_acts(rng: &mut Rng, calls: &[Kept], most: usize) -> Vec<Act> {
    let mut acts = Vec::new();
    for call in calls {
        if acts.len() >= most {
            return acts;
        }
        let call = Call::from(call.clone());
        foreign::foreign(rng, &call, &mut acts);
        acts.push(foreign::lent(rng, call));
    }
    // a stream may have come to its end
    for conn in 0..4 {
        acts.extend([Call::Open(conn), Call::Tick(u32::MAX, 0), Call::Close(conn)].map(|call| Act::plain(call, ROOM)));
    }
    acts.truncate(most);
    acts
}

/// The call as the card program makes it, if it can.
fn of_card(act: &Act) -> Option<Kept> {
    let byte = |conn: u32| u8::try_from(conn).ok();
    if act.room < ROOM && !matches!(act.call, Call::Open(_)) {
        return None;
    }
    Some(match &act.call {
        Call::Fresh | Call::Cue(_) => return None,
        Call::Open(conn) => Kept::Open(byte(*conn)?),
        Call::Close(conn) => Kept::Close(byte(*conn)?),
        Call::Tick(seconds, micros) => Kept::Tick(*seconds, *micros),
        Call::Message(conn, read) => {
            let record = recall::record(&act.asked());
            let whole = matches!(card::next_call(&record), Ok((_, n)) if n == record.len());
            (whole && record.len() == read.len() + 2 && act.sections.longest() == 0).then_some(())?;
            Kept::Message(byte(*conn)?, read.clone())
        }
    })
}

/// What is seen of a call: its reply and every byte of the output buffer.
#[derive(Clone, Debug, PartialEq, Eq)]
pub struct Seen {
    pub reply: Reply,
    pub out: Vec<u8>,
}

/// Makes a call, with a buffer whose bytes are all known before it.
pub fn made(engine: &dyn Remembers, log: &mut [u8], act: &Act, turn: usize) -> Seen {
    let mut out: Vec<u8> = (0..act.room).map(|at| (at + turn) as u8).collect();
    let reply = engine.call(log, &act.asked(), &mut out);
    Seen { reply, out }
}

/// What an engine does with a history: what is seen of each call, and a sum over the whole log after it.
pub fn played(engine: &dyn Remembers, history: &History) -> Vec<(Seen, u64)> {
    let mut log = history.log.clone();
    let calls = history.acts.iter().enumerate();
    calls.map(|(turn, act)| (made(engine, &mut log, act, turn), sum(&log))).collect()
}

fn sum(log: &[u8]) -> u64 {
    let mut hasher = DefaultHasher::new();
    hasher.write(log);
    hasher.finish()
}

/// The first call of a history that an engine answers in another way than was seen.
pub fn leaves(engine: &dyn Remembers, history: &History, seen: &[(Seen, u64)]) -> Option<usize> {
    let mut log = history.log.clone();
    let calls = history.acts.iter().zip(seen).enumerate();
    let mut differs = |(turn, (act, seen)): (usize, (&Act, &(Seen, u64)))| {
        let own = made(engine, &mut log, act, turn);
        own != seen.0 || sum(&log) != seen.1
    };
    calls.map(|call| (call.0, differs(call))).find(|c| c.1).map(|c| c.0)
}

/// The first call of a history that two engines answer in different ways: the reply, the output buffer or the whole log
/// after it; and in which.
pub fn differing(history: &History, one: &dyn Remembers, other: &dyn Remembers) -> Option<(usize, String)> {
    let (mut log, mut beside) = (history.log.clone(), history.log.clone());
    for (turn, act) in history.acts.iter().enumerate() {
        let found = made(one, &mut log, act, turn);
        let wanted = made(other, &mut beside, act, turn);
        if found.reply != wanted.reply {
            let (found, wanted) = (found.reply, wanted.reply);
            return Some((turn, format!("{found:?}, and not {wanted:?}")));
        }
        if found.out != wanted.out {
            return Some((turn, "another byte in the output buffer".to_string()));
        }
        if log != beside {
            let at = log.iter().zip(&beside).position(|(a, b)| a != b);
            return Some((turn, format!("another log, from byte {}", at.unwrap_or(0))));
        }
    }
    None
}

/// What the card program does behind a log as its input: "the log is a recording which the card program can be fed with".
/// For the calls that it can make; the whole log after it, too.
fn by_card(log: &[u8], act: &Act) -> Option<(Vec<u8>, Vec<u8>)> {
    let call = of_card(act)?;
    let run = card::run(log);
    let ends = run.calls.iter().filter(|d| !card::is_too_large(&d.call));
    let ends: Vec<usize> = ends.map(|d| d.to).collect();
    let (count, used) = (ends.len(), ends.last().copied().unwrap_or(0));
    if log.len() != LOG || count >= MOST || LOG - used < LEAST_FREE {
        return Some((vec![0x45, 13], log.to_vec()));
    }
    let record = card::input_bytes(&call);
    let input = [&log[..used], &record].concat();
    let output = card::run(&input).calls.pop()?.output;
    let mut after = log.to_vec();
    if output.first() != Some(&0x45) {
        let behind = used + record.len();
        after[used..behind].copy_from_slice(&record);
        after[behind..].iter_mut().take(1).for_each(|byte| *byte = 0);
    }
    Some((output, after))
}

/// The first call of a history whose answer, or log after it, is not the card program's.
pub fn not_the_cards(engine: &dyn Remembers, history: &History) -> Option<(usize, String)> {
    let mut log = history.log.clone();
    for (turn, act) in history.acts.iter().enumerate() {
        let due = by_card(&log, act);
        let before = log.clone();
        let seen = made(engine, &mut log, act, turn);
        let output = match seen.reply.refused {
            0 => seen.out[..seen.reply.written].to_vec(),
            number => vec![0x45, number],
        };
        if seen.reply.refused != 0 && log != before {
            return Some((turn, "refused, and the log changed".to_string()));
        }
        if due.is_some_and(|due| due != (output, log.clone())) {
            return Some((turn, "not what the card program does behind it".to_string()));
        }
    }
    None
}

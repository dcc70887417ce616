//! Runs streams through both programs, several splicers alive at once, on several threads.

use crate::books::Books;
use crate::calls::{ask_model, model_rows, Act, Call, Desk};
use crate::looks::Told;
use crate::pair::Pair;
use crate::stream_calls::{self, Stream, LONGEST};
use crate::wrong::{Drift, Wrong};
use model::gen::draw::Rng;
use model::hold::watch::table::Hits;
use model::rules;

/// Splicers alive at once in a thread, their calls interleaved.
pub const GROUP: u64 = 4;
/// House numbers with 0, which is none: up to 16 (02, CR 8).
const NUMBERS: usize = 17;

/// What is to be run: N streams of a seed, from the first one on.
#[derive(Clone, Copy)]
pub struct Plan {
    pub seed: u64,
    pub first: u64,
    pub n: u64,
    pub threads: u64,
    /// The stream of a seed and an index.
    pub make: fn(u64, u64) -> Stream,
}

/// What came of it.
pub struct Tally {
    pub streams: u64,
    /// Calls made on both programs and compared.
    pub calls: u64,
    /// Cue calls among them (02, CR 7).
    pub cues: u64,
    pub refusals: [u64; NUMBERS],
    pub differences: Vec<String>,
    pub counts: Hits,
    /// The branches of the cue calls.
    pub hits: Hits,
    /// The reads with one on air, with a covered one, with nothing due, with an instant that a tick reaches, that none does.
    pub read: [u64; 5],
}

impl Tally {
    fn new() -> Tally {
        Tally {
            streams: 0,
            calls: 0,
            cues: 0,
            refusals: [0; NUMBERS],
            differences: Vec::new(),
            counts: Hits::default(),
            hits: Hits::default(),
            read: [0; 5],
        }
    }

    fn add(&mut self, other: Tally) {
        self.streams += other.streams;
        self.calls += other.calls;
        self.cues += other.cues;
        for (own, more) in self.refusals.iter_mut().zip(other.refusals) {
            *own += more;
        }
        self.differences.extend(other.differences);
        self.counts.add(&other.counts);
        self.hits.add(&other.hits);
        self.read = std::array::from_fn(|at| self.read[at] + other.read[at]);
    }
}

/// One splicer's stream and how far it has come. Without a pair it is over.
struct Lane<'s> {
    stream: &'s Stream,
    next: usize,
    pair: Option<Pair>,
}

/// A thread's share of the work: the memory it lends, what it found, and a fault if there is one.
struct Share {
    desk: Desk,
    tally: Tally,
    rng: Rng,
    wrong: Wrong,
}

/// The streams of a seed from one index to another.
pub fn streams(seed: u64, from: u64, to: u64) -> Vec<Stream> {
    (from..to).map(|index| stream_calls::stream(seed, index)).collect()
}

/// All groups of the plan, shared out over threads: calls on different splicers may run at once.
pub fn run(plan: &Plan) -> Tally {
    let work = |part: u64| {
        let mut share = Share::new(plan.seed ^ part, Wrong::Nothing);
        let mut from = part * GROUP;
        while from < plan.n {
            let to = plan.n.min(from + GROUP);
            let indices = plan.first + from..plan.first + to;
            let list: Vec<Stream> = indices.map(|index| (plan.make)(plan.seed, index)).collect();
            share.group(&list);
            from += plan.threads * GROUP;
        }
        share.tally
    };
    let mut sum = Tally::new();
    std::thread::scope(|scope| {
        let parts: Vec<_> = (0..plan.threads).map(|part| scope.spawn(move || work(part))).collect();
        for part in parts {
            match part.join() {
                Ok(tally) => sum.add(tally),
                Err(_) => sum.differences.push("a thread stopped\n".to_string()),
            }
        }
    });
    sum
}

/// The first difference that a fault makes on these streams.
pub fn noticed(seed: u64, list: &[Stream], wrong: Wrong) -> Option<String> {
    let mut share = Share::new(seed, wrong);
    for group in list.chunks(GROUP as usize) {
        share.group(group);
        if !share.tally.differences.is_empty() {
            break;
        }
    }
    share.tally.differences.into_iter().next()
}

impl Share {
    fn new(seed: u64, wrong: Wrong) -> Share {
        Share { desk: Desk::new(LONGEST), tally: Tally::new(), rng: Rng::new(seed), wrong }
    }

    /// Some streams, a call of one and a call of another as they are drawn.
    fn group(&mut self, list: &[Stream]) {
        let mut lanes: Vec<Lane> = list.iter().map(|stream| self.lane(stream)).collect();
        loop {
            let alive: Vec<usize> = (0..lanes.len()).filter(|at| lanes[*at].pair.is_some()).collect();
            // One difference is enough to have noticed a fault.
            let noticed = self.wrong != Wrong::Nothing && !self.tally.differences.is_empty();
            if alive.is_empty() || noticed {
                return;
            }
            let at = self.rng.pick(&alive);
            self.step(&mut lanes[at]);
            if self.wrong.is("shared") {
                share_state(&mut lanes, at);
            }
        }
    }

    fn lane<'s>(&mut self, stream: &'s Stream) -> Lane<'s> {
        self.tally.streams += 1;
        self.tally.calls += 1;
        self.tally.refusals[9] += !stream.name.contains(&0) as u64;
        let fresh = Pair::fresh(&stream.name, self.wrong);
        if let Err(text) = &fresh {
            let text = format!("stream {}, {text}\n", stream.index);
            self.tally.differences.push(text);
        }
        let pair = fresh.ok();
        Lane { stream, next: 0, pair }
    }

    /// The lane's next call. A difference ends the lane.
    fn step(&mut self, lane: &mut Lane) {
        let Some(act) = lane.stream.acts.get(lane.next) else {
            if let Some(pair) = lane.pair.take() {
                self.tally.read = std::array::from_fn(|at| self.tally.read[at] + pair.read[at]);
                let seen = pair.watcher.seen();
                self.tally.counts.add(&seen.counts);
                self.tally.hits.add(&seen.cues);
            }
            return;
        };
        let Some(pair) = &mut lane.pair else {
            return;
        };
        lane.next += 1;
        if let Err(text) = self.looked_at(pair, act) {
            let (index, call) = (lane.stream.index, lane.next);
            let line = act.line();
            let text = format!("stream {index}, call {call}: {line}\n{text}\n");
            self.tally.differences.push(text);
            lane.pair = None;
        }
    }

    /// The call, and at times the looks that need a copy.
    fn looked_at(&mut self, pair: &mut Pair, act: &Act) -> Result<(), String> {
        let before = self.rng.chance(10).then(|| pair.core.clone());
        let said = pair.call(act, &mut self.desk, self.wrong)?;
        self.tally.calls += 1;
        self.tally.cues += u64::from(matches!(act.call, Call::Cue(_)));
        self.tally.refusals[usize::from(said.refused)] += 1;
        if let Some(before) = before {
            pair.again(&before, act, &said, &mut self.desk)?;
        }
        if self.rng.chance(1) {
            let ahead = [0, 1, 1_000_000, 3_000_000, 60_000_000, 100_000_000_000];
            let ahead = self.rng.pick(&ahead);
            self.tally.calls += pair.probe(ahead, &mut self.desk, self.wrong)?;
        }
        Ok(())
    }
}

/// The fault "shared": the next splicer's state is overwritten by this one's.
fn share_state(lanes: &mut [Lane], at: usize) {
    let other = (at + 1) % lanes.len();
    let core = lanes[at].pair.as_ref().map(|pair| pair.core.clone());
    if let (Some(core), Some(pair)) = (core, &mut lanes[other].pair) {
        pair.core = core;
    }
}

/// Where the books alone find a fault of the second program, without comparing it with anything.
pub fn booked(list: &[Stream], wrong: Wrong) -> Option<String> {
    for stream in list {
        let (mut model, _) = rules::Splicer::fresh(&stream.name);
        model.rules = wrong.rules();
        let mut books = Books::default();
        let mut drift = Drift::default();
        for (at, act) in stream.acts.iter().enumerate() {
            let mut said = ask_model(&mut model, act);
            let counted = model.waiting_counts().map(|n| n as u64);
            wrong.moved(act, &mut said, counted);
            let waiting = wrong.waiting(act, &said, counted, &mut drift);
            let kept = books.call(act, &said).and_then(|()| books.waiting(waiting));
            let primary = wrong.primary(model.primary, model.clock);
            let kept = kept.and_then(|()| books.primary(primary));
            let kept = kept.and_then(|()| books.mux(model.mux()));
            let kept = kept.and_then(|()| books.rows(&model_rows(&model)));
            let kept = kept.and_then(|()| books.insertion(model.insertion()));
            let mut told = Told::model(&model);
            wrong.read(&mut told);
            let kept = kept.and_then(|()| books.reads(&told));
            if let Err(text) = kept {
                let index = stream.index;
                return Some(format!("stream {index}, call {}, {text}", at + 1));
            }
        }
    }
    None
}

//! Channels and connections together: who is answered by which core, what is due when, and what goes out.

use crate::channel::{Channel, Seat};
use crate::clock::{Clock, Step};
use crate::cues::Cue;
use crate::desk::Desk;
use crate::flush::Flush;
use crate::peer::{Got, Peer, Place, SLICE};
use crate::slab::Slab;
use crate::{time, wire};
use mio::{Interest, Registry, Token};
use splicer::{records, Refusal, Splicer, HEADER, MESSAGE};
use std::collections::{BTreeSet, HashMap, VecDeque};
use std::time::{Duration, Instant};

/// Connections that have named no channel yet, at most; and for how long.
pub const WAITING: usize = 1024;
pub const PATIENCE: Duration = Duration::from_secs(30);

/// Where the numbers of connections begin among the poll's tokens.
pub const PEERS: usize = 1 << 20;

/// How late ticks came.
#[derive(Default)]
pub struct Lateness {
    pub count: u64,
    pub sum: u64,
    pub most: u64,
}

pub struct Hall {
    pub channels: Vec<Channel>,
    names: HashMap<Vec<u8>, usize>,
    pub peers: Slab<Peer>,
    /// Connections without a channel, the oldest first.
    pub waiting: VecDeque<usize>,
    pub desk: Desk,
    pub clock: Clock,
    /// When which channel is due.
    due: BTreeSet<(u64, usize)>,
    dues: Vec<Option<u64>>,
    touched: Vec<usize>,
    /// Channels that were called since they were asked when they are due.
    called: Vec<usize>,
    /// Connections that have something to be sent.
    sending: Vec<usize>,
    /// Connections that are to be dropped.
    ending: Vec<usize>,
    /// Channels that changed since the page was told.
    pub changed: BTreeSet<usize>,
    pub cues: VecDeque<Cue>,
    pub lateness: Lateness,
    /// When the loop last heard what has come: for messages that is now.
    heard: u64,
    pub flush: Flush,
    blank: Splicer,
    registry: Registry,
    slice: Vec<u8>,
    /// The most connections.
    pub most: usize,
    /// For measures: every message gets the same bytes, and no core is called.
    pub fixed: bool,
}

impl Hall {
    pub fn new(channels: Vec<Channel>, desk: Desk, clock: Clock, registry: Registry) -> Hall {
        let names = channels.iter().enumerate().map(|(at, c)| (c.spec.name.clone(), at)).collect();
        // the first channel's name, in the core that answers until a channel is named
        let (mut blank, _) = Splicer::fresh(&splicer::name(&channels[0].spec.name));
        // a fresh splicer's connection 0 is closed
        let _ = blank.open(0);
        let dues = vec![None; channels.len()];
        // what stands at the front of recordings is to be written
        let touched = (0..channels.len()).collect();
        Hall {
            channels,
            names,
            peers: Slab::default(),
            waiting: VecDeque::new(),
            desk,
            clock,
            due: BTreeSet::new(),
            dues,
            touched,
            called: Vec::new(),
            sending: Vec::new(),
            ending: Vec::new(),
            changed: BTreeSet::new(),
            cues: VecDeque::new(),
            lateness: Lateness::default(),
            heard: 0,
            flush: Flush::new(),
            blank,
            registry,
            slice: vec![0; SLICE],
            most: usize::MAX,
            fixed: false,
        }
    }

    /// The present time; a system clock that stepped back is told.
    pub fn now(&mut self) -> u64 {
        let (now, step) = self.clock.read();
        match step {
            None => {}
            Some(Step::Held) => self.desk.log.event(now, "clock", None, "the system's stepped back: held until it is caught up"),
            Some(Step::CaughtUp) => self.desk.log.event(now, "clock", None, "caught up"),
        }
        now
    }

    /// The channel of that name.
    pub fn channel(&self, name: &[u8]) -> Option<usize> {
        self.names.get(name).copied()
    }

    /// A server has connected.
    pub fn accept(&mut self, stream: mio::net::TcpStream, address: std::net::SocketAddr) {
        if self.waiting.len() >= WAITING || self.peers.len() >= self.most {
            match self.waiting.front().copied() {
                Some(oldest) => self.gone(oldest, "the oldest that named no channel, and no room for one more"),
                None => return self.say("refused", &format!("{address}: {} connections are open", self.peers.len())),
            }
        }
        let at = self.peers.next();
        let mut peer = Peer::new(stream, address, self.blank.clone());
        if let Err(error) = self.registry.register(&mut peer.stream, Token(PEERS + at), Interest::READABLE) {
            return self.say("refused", &format!("{address}: {error}"));
        }
        self.peers.add(peer);
        self.waiting.push_back(at);
        self.say("connected", &address.to_string());
    }

    pub fn say(&mut self, kind: &str, what: &str) {
        let now = self.now();
        self.desk.log.event(now, kind, None, what);
    }

    /// Reads a connection once and handles what is whole. True if more may be there.
    pub fn turn(&mut self, at: usize) -> bool {
        let Some(peer) = self.peers.get(at) else {
            return false;
        };
        let got = peer.read(&mut self.slice);
        self.handle(at);
        self.settle();
        match got {
            Got::End(why) => {
                self.gone(at, &why);
                self.settle();
                false
            }
            Got::More => true,
            Got::All => false,
        }
    }

    /// Message by message until none is whole.
    fn handle(&mut self, at: usize) {
        let Some(peer) = self.peers.get(at) else {
            return;
        };
        let mut input = std::mem::take(&mut peer.input);
        let mut done = 0;
        while let Some(whole) = whole(&input[done..]) {
            match self.message(at, &input[done..done + whole]) {
                Ok(()) => done += whole,
                Err(why) => {
                    self.end(at, why);
                    break;
                }
            }
        }
        input.drain(..done);
        // what a burst took is given back
        input.shrink_to(MESSAGE);
        if let Some(peer) = self.peers.get(at) {
            peer.input = input;
        }
    }

    fn end(&mut self, at: usize, why: &str) {
        if let Some(peer) = self.peers.get(at) {
            peer.ending = Some(why.into());
            self.ending.push(at);
        }
    }

    /// One whole message, or a header that says too much. An error ends the connection.
    fn message(&mut self, at: usize, read: &[u8]) -> Result<(), &'static str> {
        if self.fixed {
            self.desk.post.add(at, &[0, 0, 0, 0, 0, 100, 255, 255]);
            return Ok(());
        }
        let now = self.heard;
        self.seat(at, read, now)?;
        let Some(peer) = self.peers.get(at) else {
            return Err("gone");
        };
        let reply = match &mut peer.place {
            Place::Waiting(core) => {
                let reply = core.message(0, read, &mut self.desk.out[..]).map(|handled| handled.written.len());
                for record in records(&self.desk.out[..reply.unwrap_or(0)]) {
                    self.desk.post.add(at, record.message);
                }
                reply
            }
            Place::Seat { channel, number } => {
                let (channel, number) = (*channel, *number);
                self.touched.push(channel);
                self.channels[channel].bring(now, &mut self.desk);
                self.channels[channel].message(number, read, &mut self.desk)
            }
        };
        match reply {
            Err(Refusal::Oversize) => Err("MessageSize above 4,088"),
            _ => Ok(()),
        }
    }

    /// Gives a connection that names a channel the lowest free number of it.
    fn seat(&mut self, at: usize, read: &[u8], now: u64) -> Result<(), &'static str> {
        let Some(peer) = self.peers.get(at) else {
            return Ok(());
        };
        let named = wire::named(read).and_then(|name| self.names.get(name).copied());
        let (Place::Waiting(_), Some(channel)) = (&peer.place, named) else {
            return Ok(());
        };
        let number = self.channels[channel].free().ok_or("no free number of the channel that it names")?;
        peer.place = Place::Seat { channel, number };
        let address = peer.address.to_string();
        self.waiting.retain(|one| *one != at);
        self.touched.push(channel);
        self.channels[channel].bring(now, &mut self.desk);
        self.channels[channel].open(number, Seat { peer: at, address, initialised: false }, &mut self.desk);
        Ok(())
    }

    /// A connection is dropped: what the core writes of it is logged.
    pub fn gone(&mut self, at: usize, why: &str) {
        let Some(mut peer) = self.peers.remove(at) else {
            return;
        };
        // it is closed with its stream in any case
        let _ = self.registry.deregister(&mut peer.stream);
        let now = self.now();
        match peer.place {
            Place::Waiting(_) => {
                self.waiting.retain(|one| *one != at);
                self.desk.log.event(now, "dropped", None, format_args!("{}: {why}", peer.address));
            }
            Place::Seat { channel, number } => {
                self.touched.push(channel);
                let shown = &self.channels[channel].shown;
                self.desk.log.event(now, "dropped", Some(shown), format_args!("connection {number}, {}: {why}", peer.address));
                self.channels[channel].bring(now, &mut self.desk);
                self.channels[channel].close(number, &mut self.desk);
            }
        }
    }

    /// After calls: recordings go to the system, then answers go out, and connections that are to be dropped are.
    pub fn settle(&mut self) {
        while !self.touched.is_empty() || !self.desk.post.is_empty() || !self.ending.is_empty() {
            self.touched.sort_unstable();
            self.touched.dedup();
            while let Some(channel) = self.touched.pop() {
                self.settle_channel(channel);
            }
            let (peers, to) = (&mut self.peers, &mut self.sending);
            self.desk.post.deliver(|at, message| {
                if let Some(peer) = peers.get(at) {
                    peer.push(message);
                    to.push(at);
                }
            });
            to.sort_unstable();
            to.dedup();
            while let Some(at) = self.sending.pop() {
                self.send(at);
            }
            for at in std::mem::take(&mut self.ending) {
                let why = self.peers.get(at).and_then(|peer| peer.ending.take());
                self.gone(at, &why.unwrap_or_default());
            }
        }
    }

    fn settle_channel(&mut self, at: usize) {
        let Some(channel) = self.channels.get_mut(at) else {
            return;
        };
        channel.write(&mut self.desk);
        self.flush.mark(channel.recording.as_ref().is_some_and(|r| r.is_dirty()));
        if !std::mem::replace(&mut channel.called, true) {
            self.called.push(at);
            self.changed.insert(at);
        }
    }

    /// Asks each channel that was called since when it is next due: once for all calls of a turn of the loop.
    fn ask_due(&mut self) {
        while let Some(at) = self.called.pop() {
            self.channels[at].called = false;
            let due = self.channels[at].due();
            if due != self.dues[at] {
                if let Some(old) = self.dues[at] {
                    self.due.remove(&(old, at));
                }
                self.due.extend(due.map(|time| (time, at)));
                self.dues[at] = due;
            }
        }
    }

    /// Sends a connection what it takes.
    pub fn send(&mut self, at: usize) {
        let Some(peer) = self.peers.get(at) else {
            return;
        };
        peer.send();
        let blocked = peer.waiting() > 0;
        if blocked != peer.blocked {
            peer.blocked = blocked;
            let wanted = if blocked { Interest::READABLE | Interest::WRITABLE } else { Interest::READABLE };
            if let Err(error) = self.registry.reregister(&mut peer.stream, Token(PEERS + at), wanted) {
                peer.ending = Some(error.to_string());
            }
        }
        if peer.ending.is_some() {
            self.ending.push(at);
        }
    }

    /// Everything that is due by now: ticks, cues of the file, connections that named no channel in time.
    pub fn run_due(&mut self) {
        let now = self.now();
        self.heard = now;
        self.ask_due();
        while let Some((time, at)) = self.due.first().copied().filter(|(time, _)| *time <= now) {
            self.due.remove(&(time, at));
            self.dues[at] = None;
            self.late(now - time);
            self.touched.push(at);
            self.channels[at].bring(now, &mut self.desk);
        }
        while self.cues.front().is_some_and(|cue| cue.time <= now) {
            if let Some(cue) = self.cues.pop_front() {
                self.cue(&cue, now);
            }
        }
        while let Some(oldest) = self.waiting.front().copied() {
            if self.peers.get(oldest).is_some_and(|peer| peer.since.elapsed() < PATIENCE) {
                break;
            }
            self.gone(oldest, "30 s without naming a channel");
            self.waiting.retain(|one| *one != oldest);
        }
        self.settle();
    }

    fn late(&mut self, micros: u64) {
        self.lateness.count += 1;
        self.lateness.sum += micros;
        self.lateness.most = self.lateness.most.max(micros);
    }

    /// Hands a section of cues to its channel; none if there is no such channel.
    pub fn cue(&mut self, cue: &Cue, now: u64) -> Option<Result<usize, Refusal>> {
        let at = self.channel(&cue.channel)?;
        self.touched.push(at);
        self.channels[at].bring(now, &mut self.desk);
        Some(self.channels[at].cue(&cue.section, cue.pts, cue.at, &mut self.desk))
    }

    /// Brings every channel to a time, for a clock that is moved by hand.
    pub fn bring_all(&mut self, to: u64) {
        for at in 0..self.channels.len() {
            self.channels[at].bring(to, &mut self.desk);
            self.touched.push(at);
        }
        self.run_due();
    }

    /// How long nothing is due; none: until something comes.
    pub fn sleep(&mut self) -> Option<Duration> {
        self.ask_due();
        let first = [self.due.first().map(|(time, _)| *time), self.cues.front().map(|cue| cue.time)];
        let due = first.into_iter().flatten().min().and_then(|time| self.clock.wait(time));
        let oldest = self.waiting.front().copied().and_then(|at| self.peers.get(at));
        let patience = oldest.map(|peer| PATIENCE.saturating_sub(peer.since.elapsed()));
        let flush = self.flush.at().map(|at| at.saturating_duration_since(Instant::now()));
        [due, patience, flush].into_iter().flatten().min()
    }

    /// Drops every connection, and hands all that is recorded to the disk.
    pub fn close_all(&mut self) {
        for at in self.peers.numbers() {
            self.gone(at, "the splicer ends");
        }
        self.settle();
        self.flush.wait();
        self.flush_now();
        self.flush.end();
    }

    pub fn flush_now(&mut self) {
        if self.flush.is_busy() {
            return self.flush.postpone();
        }
        self.flush.start(self.channels.iter_mut().filter_map(|c| c.recording.as_mut()?.to_flush()).collect());
    }

    /// Where the clock stands, for people.
    pub fn shown_now(&mut self) -> String {
        let now = self.now();
        time::shown(now)
    }
}

/// The bytes of the first message, if it is whole: a header that says too much is, as it is refused.
fn whole(read: &[u8]) -> Option<usize> {
    let length = wire::length(read)?;
    if read.len() < HEADER {
        None
    } else if length > MESSAGE {
        Some(HEADER)
    } else {
        (read.len() >= length).then_some(length)
    }
}

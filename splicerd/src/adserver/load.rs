//! A load: many connections in one loop, each with one request on its way, and how long the answers took.

use super::options::{Load, Options};
use super::{GOOD, OTHER};
use crate::wire;
use mio::net::TcpStream;
use mio::{Events, Interest, Poll, Token};
use splicer::{message_id, result};
use std::io::{ErrorKind, Read, Write};
use std::net::{SocketAddr, ToSocketAddrs};
use std::time::{Duration, Instant};

/// Numbers by xorshift: the same seed gives the same load.
struct Random(u64);

impl Random {
    fn below(&mut self, bound: u64) -> u64 {
        self.0 ^= self.0 << 13;
        self.0 ^= self.0 >> 7;
        self.0 ^= self.0 << 17;
        self.0 % bound
    }
}

struct Conn {
    stream: TcpStream,
    channel: Vec<u8>,
    input: Vec<u8>,
    /// When its request went out, and the SessionID of a Splice_Request.
    asked: Option<(Instant, Option<u32>)>,
    initialised: bool,
    clock: u32,
    session: u32,
    next: Instant,
}

#[derive(Default)]
struct Sums {
    micros: Vec<u32>,
    refused: u64,
    drops: u64,
    lost: u64,
}

pub fn run(options: &Options, load: &Load) -> Result<u8, String> {
    let address = options.to.to_socket_addrs().map_err(|e| format!("{}: {e}", options.to))?.next().ok_or("no address")?;
    let mut poll = Poll::new().map_err(|error| error.to_string())?;
    let all = load.channels * load.connections;
    let mut conns = Vec::with_capacity(all);
    for at in 0..all {
        let channel = [&options.channel[..], (at / load.connections + 1).to_string().as_bytes()].concat();
        conns.push(connect(&poll, address, at, channel)?);
    }
    let (mut sums, mut random) = (Sums::default(), Random(load.seed.wrapping_mul(2) + 1));
    let (began, mut events) = (Instant::now(), Events::with_capacity(1024));
    let end = began + Duration::from_micros(load.micros);
    let gap = Duration::from_micros((all as u64 * 1_000_000).checked_div(load.rate).unwrap_or(0));
    while Instant::now() < end {
        let first = conns.iter().filter(|c| c.asked.is_none()).map(|c| c.next).min().unwrap_or(end).min(end);
        let sleep = first.saturating_duration_since(Instant::now());
        poll.poll(&mut events, Some(sleep)).map_err(|error| error.to_string())?;
        for event in &events {
            let Token(at) = event.token();
            if conns[at].read(&mut sums, gap) {
                sums.lost += 1;
                conns[at] = connect(&poll, address, at, conns[at].channel.clone())?;
            }
        }
        for (at, conn) in conns.iter_mut().enumerate().filter(|(_, c)| c.asked.is_none()) {
            if conn.next <= Instant::now() && conn.ask(&mut random) && random.below(1_000_000) < load.drops {
                sums.drops += 1;
                *conn = connect(&poll, address, at, conn.channel.clone())?;
            }
        }
    }
    Ok(said(options, &mut sums, began.elapsed()))
}

fn connect(poll: &Poll, to: SocketAddr, at: usize, channel: Vec<u8>) -> Result<Conn, String> {
    let stream = std::net::TcpStream::connect(to).map_err(|error| format!("{to}: {error}"))?;
    let set = stream.set_nodelay(true).and_then(|()| stream.set_nonblocking(true));
    set.map_err(|error| error.to_string())?;
    let mut stream = TcpStream::from_std(stream);
    let added = poll.registry().register(&mut stream, Token(at), Interest::READABLE);
    added.map_err(|error| error.to_string())?;
    let (input, next) = (Vec::new(), Instant::now());
    Ok(Conn { stream, channel, input, asked: None, initialised: false, clock: 0, session: 0, next })
}

impl Conn {
    /// Sends the next request: Init first, then four Alive_Requests of five, else a Splice_Request. True if it went out whole.
    fn ask(&mut self, random: &mut Random) -> bool {
        let mut session = None;
        let message = if !self.initialised {
            wire::init(&self.channel, b"load")
        } else if self.clock == 0 || random.below(5) > 0 {
            wire::alive(self.clock, 0)
        } else {
            self.session += 1;
            session = Some(self.session);
            wire::splice(&self.spot(random))
        };
        self.asked = Some((Instant::now(), session));
        self.stream.write(&message).is_ok_and(|n| n == message.len())
    }

    fn spot(&self, random: &mut Random) -> wire::Splice {
        let seconds = self.clock.saturating_add(4 + random.below(60) as u32);
        let (micros, duration) = (random.below(1_000_000) as u32, 9000 + random.below(900_000) as u32);
        let (access, over) = (random.below(10) as u8, random.below(2) == 1);
        wire::Splice { session: self.session, prior: u32::MAX, seconds, micros, duration, event: 1, access, over, mux: None }
    }

    /// Takes what came; true if the connection is gone.
    fn read(&mut self, sums: &mut Sums, gap: Duration) -> bool {
        let mut slice = [0; 16 * 1024];
        let gone = match self.stream.read(&mut slice) {
            Ok(0) => true,
            Ok(n) => {
                self.input.extend_from_slice(&slice[..n]);
                false
            }
            Err(error) => !matches!(error.kind(), ErrorKind::WouldBlock | ErrorKind::Interrupted),
        };
        while let Some(length) = wire::length(&self.input).filter(|length| self.input.len() >= *length) {
            let message: Vec<u8> = self.input.drain(..length).collect();
            self.hear(&message, sums, gap);
        }
        gone
    }

    fn hear(&mut self, message: &[u8], sums: &mut Sums, gap: Duration) {
        let half = |at: usize| u16::from_be_bytes([message[at], message[at + 1]]);
        let word = |at: usize| message[at..].first_chunk().map(|w| u32::from_be_bytes(*w));
        let (id, code) = (half(0), half(4));
        if id == message_id::ALIVE_RESPONSE {
            self.clock = word(16).unwrap_or_default();
        }
        self.initialised |= id == message_id::INIT_RESPONSE && code == result::SUCCESSFUL;
        // with fixed answers everything is a General_Response: the load goes on as with a splicer's, by a clock of its own
        if id == message_id::GENERAL_RESPONSE && code == result::SUCCESSFUL {
            (self.initialised, self.clock) = (true, self.clock.max(1));
        }
        let Some((asked, session)) = self.asked else {
            return;
        };
        let own = match id {
            message_id::SPLICE_RESPONSE => session.is_some() && word(8) == session,
            message_id::SPLICE_COMPLETE_RESPONSE | message_id::CUE_REQUEST => false,
            _ => true,
        };
        if own {
            sums.micros.push(u32::try_from(asked.elapsed().as_micros()).unwrap_or(u32::MAX));
            sums.refused += u64::from(code != result::SUCCESSFUL);
            self.asked = None;
            self.next = asked + gap;
        }
    }
}

fn said(options: &Options, sums: &mut Sums, took: Duration) -> u8 {
    sums.micros.sort_unstable();
    let answers = sums.micros.len();
    let of = |share: f64| sums.micros.get(((answers as f64 * share) as usize).min(answers.saturating_sub(1))).copied().unwrap_or(0);
    let rate = answers as f64 / took.as_secs_f64();
    if options.json {
        let (half, late, last) = (of(0.5), of(0.99), of(1.0));
        let (refused, drops, lost) = (sums.refused, sums.drops, sums.lost);
        println!(
            "{}",
            serde_json::json!({"answers": answers, "per_second": rate.round(), "median_us": half, "p99_us": late, "most_us": last,
                "not_100": refused, "drops": drops, "lost": lost})
        );
    } else {
        println!(
            "{answers} answers, {rate:.0} a second; half within {} us, 99 of 100 within {} us, all within {} us",
            of(0.5),
            of(0.99),
            of(1.0)
        );
        println!("{} were not 100; {} connections dropped, {} lost", sums.refused, sums.drops, sums.lost);
    }
    if answers > 0 && sums.lost == 0 {
        GOOD
    } else {
        OTHER
    }
}

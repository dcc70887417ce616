//! The bars: by command alone, `sh tools/splicerd-bars.sh`. The desk's program, which judges the recordings by the second program's rules,
//! is named by DESK.

mod common;

use common::Splicerd;
use splicer::bench::{Kind, Referee, Verdict};
use splicerd::wire;
use std::collections::BTreeSet;
use std::io::{ErrorKind, Read, Write};
use std::net::TcpStream;
use std::path::{Path, PathBuf};
use std::process::Command;
use std::time::{Duration, Instant};

const CHANNELS: u32 = 10;
const DAY: u32 = 86_400;
const SPOTS: u32 = 20_000;
const KILLS: usize = 200;
const HOSTILE: usize = 10_000;

struct Random(u64);

impl Random {
    fn below(&mut self, bound: u32) -> u32 {
        self.0 ^= self.0 << 13;
        self.0 ^= self.0 >> 7;
        self.0 ^= self.0 << 17;
        (self.0 % u64::from(bound)) as u32
    }
}

/// A server's connection and what it hears.
struct Server {
    stream: TcpStream,
    input: Vec<u8>,
}

impl Server {
    fn new(splicerd: &Splicerd, name: &[u8]) -> Server {
        let stream = splicerd.initialised(name);
        Server { stream, input: Vec::new() }
    }

    fn next(&mut self) -> Option<Vec<u8>> {
        let length = wire::length(&self.input).filter(|length| self.input.len() >= *length)?;
        Some(self.input.drain(..length).collect())
    }

    /// What is there already.
    fn there(&mut self) -> Vec<Vec<u8>> {
        self.stream.set_nonblocking(true).unwrap();
        let mut slice = [0; 4096];
        loop {
            match self.stream.read(&mut slice) {
                Ok(0) => break,
                Ok(n) => self.input.extend_from_slice(&slice[..n]),
                Err(error) if error.kind() == ErrorKind::WouldBlock => break,
                Err(error) => panic!("{error}"),
            }
        }
        self.stream.set_nonblocking(false).unwrap();
        std::iter::from_fn(|| self.next()).collect()
    }

    /// Asks for a spot: its answer's result. What comes before the answer is given too.
    fn asked(&mut self, sent: &[u8], session: u32) -> (u16, Vec<Vec<u8>>) {
        self.stream.write_all(sent).unwrap();
        let mut before = Vec::new();
        loop {
            while let Some(message) = self.next() {
                if message[1] == 8 && message[8..12] == session.to_be_bytes() {
                    return (u16::from_be_bytes([message[4], message[5]]), before);
                }
                before.push(message);
            }
            let mut slice = [0; 4096];
            let n = self.stream.read(&mut slice).expect("an answer");
            assert!(n > 0, "closed");
            self.input.extend_from_slice(&slice[..n]);
        }
    }
}

/// The sessions whose start was told.
fn starts(messages: &[Vec<u8>]) -> impl Iterator<Item = u32> + '_ {
    let started = |m: &&Vec<u8>| m[1] == 9 && m[12] == 0 && m[4..6] == [0, 100];
    messages.iter().filter(started).map(|m| u32::from_be_bytes([m[8], m[9], m[10], m[11]]))
}

fn desk() -> PathBuf {
    std::env::var_os("DESK").expect("DESK names the desk's program").into()
}

/// A recording as today's desk reads it: without the entry that gives its name, which is handed in beside it.
fn without_name(splicerd: &Splicerd, name: &str) -> PathBuf {
    let recording = splicerd.recording(name);
    let from = if recording.first() == Some(&0x4E) { 34 } else { 0 };
    let path = splicerd.folder.join(format!("{name}.plain"));
    std::fs::write(&path, &recording[from..]).unwrap();
    path
}

/// Whether the second program's rules find no difference in a recording.
fn passes(path: &Path, name: &str) -> Result<(), String> {
    let output = Command::new(desk()).args(["check", "--name", name]).arg(path).output().unwrap();
    let said = String::from_utf8_lossy(&output.stdout).into_owned();
    output.status.success().then_some(()).ok_or(said)
}

/// What the proved referee tells of a recording's bytes behind the entry of its name, in pieces as a disk gives them.
fn refereed(recording: &[u8], name: &str) -> Verdict {
    let (mut referee, _) = Referee::fresh(&splicer::name(name.as_bytes()));
    for piece in recording[if name == "CH1" { 0 } else { 34 }..].chunks(4096) {
        referee.feed(piece);
    }
    referee.end()
}

/// Whether the splicer's own referee of a channel found nothing, and heard everything.
fn in_order(splicerd: &Splicerd) -> bool {
    let state = splicerd.state();
    let channels = state["channels"].as_array().unwrap();
    channels.iter().all(|c| c["referee"]["differs"] == false && c["referee"]["judges"] == true)
}

/// The sessions that were on air by the as-run list, and its sums.
fn as_run(path: &Path, name: &str) -> (BTreeSet<u32>, String) {
    let csv = Command::new(desk()).args(["asrun", "--csv", "--name", name]).arg(path).output().unwrap();
    let text = String::from_utf8(csv.stdout).unwrap();
    let rows = text.lines().skip(1).map(|line| line.split(',').collect::<Vec<_>>());
    // scheduled, started, ended, connection, session, ..
    let aired = rows.filter(|row| !row[1].is_empty() && row[1] != "-").map(|row| row[4].parse().unwrap()).collect();
    let plain = Command::new(desk()).args(["asrun", "--name", name]).arg(path).output().unwrap();
    let lines = String::from_utf8_lossy(&plain.stdout).into_owned();
    (aired, lines.lines().rev().take(6).collect::<Vec<_>>().join(" | "))
}

/// One channel's day: its servers, its book, the numbers that it gave.
struct Station {
    name: String,
    servers: Vec<Server>,
    started: BTreeSet<u32>,
    session: u32,
    drops: u32,
}

impl Station {
    fn new(splicerd: &Splicerd, n: u32) -> Station {
        let name = format!("C{n}");
        let servers = (0..3).map(|_| Server::new(splicerd, name.as_bytes())).collect();
        Station { name, servers, started: BTreeSet::new(), session: 0, drops: 0 }
    }

    /// One step: what came is noted, a spot is asked for, and sometimes a connection is dropped.
    fn step(&mut self, splicerd: &Splicerd, now: u32, random: &mut Random, wanted: u32) {
        for server in &mut self.servers {
            self.started.extend(starts(&server.there()));
        }
        while self.session < wanted {
            self.session += 1;
            let (session, seconds, micros) = (self.session, now + 4 + random.below(60), random.below(1_000_000));
            let (duration, access) = (90_000 + random.below(2_000_000), random.below(10) as u8);
            let (prior, event, over, mux) = (u32::MAX, session, random.below(2) == 1, None);
            let asked = wire::Splice { session, prior, seconds, micros, duration, event, access, over, mux };
            let which = random.below(3) as usize;
            let (_, before) = self.servers[which].asked(&wire::splice(&asked), session);
            self.started.extend(starts(&before));
        }
        if random.below(200) == 0 {
            self.drop_one(splicerd, random.below(3) as usize);
        }
    }

    fn drop_one(&mut self, splicerd: &Splicerd, which: usize) {
        let mut gone = self.servers.remove(which);
        self.started.extend(starts(&gone.there()));
        drop(gone);
        let seats = || splicerd.figure(&format!("splicer_connections{{channel=\"{}\"", self.name));
        splicerd.until("the drop", || seats() == 2);
        self.servers.push(Server::new(splicerd, self.name.as_bytes()));
        self.drops += 1;
    }
}

#[test]
#[ignore = "a bar"]
fn day() {
    let began = Instant::now();
    let names: Vec<String> = (1..=CHANNELS).map(|n| format!("C{n}")).collect();
    let words: Vec<&str> = names.iter().flat_map(|name| ["--channel", name]).collect();
    let mut splicerd = Splicerd::start("bar-day", &words);
    let mut stations: Vec<Station> = (1..=CHANNELS).map(|n| Station::new(&splicerd, n)).collect();
    let mut random = Random(20_261_117);
    for now in (0..=DAY).step_by(20) {
        assert_eq!(splicerd.clock(now, 0), 200);
        let wanted = (u64::from(SPOTS / CHANNELS) * u64::from(now) / u64::from(DAY)) as u32;
        stations.iter_mut().for_each(|station| station.step(&splicerd, now, &mut random, wanted));
    }
    for station in &mut stations {
        station.servers.iter_mut().for_each(|server| station.started.extend(starts(&server.there())));
    }
    assert!(in_order(&splicerd), "the referee, live");
    assert_eq!(splicerd.end(), Some(0));
    let took = began.elapsed();
    for station in &stations {
        let told = refereed(&splicerd.recording(&station.name), &station.name);
        assert_eq!(told.kind, Kind::InOrder, "{}: the referee: {told}", station.name);
        println!("{}: the referee found {} calls in order", station.name, told.good);
        let path = without_name(&splicerd, &station.name);
        assert_eq!(passes(&path, &station.name), Ok(()), "{}", station.name);
        let (aired, sums) = as_run(&path, &station.name);
        assert_eq!(aired, station.started, "{}: the book and the as-run list", station.name);
        let ticks =
            |of: &str| sums.split(" | ").find_map(|l| l.strip_prefix(of)).map(|l| l.split_whitespace().nth(2).map(String::from));
        assert!(ticks("together").is_some() && ticks("together") == ticks("the clock went on by"), "{sums}");
        println!("{}: {} of {} spots on air, {} drops; {sums}", station.name, aired.len(), station.session, station.drops);
    }
    println!("a day of {CHANNELS} channels and {SPOTS} spots in {:.1} s", took.as_secs_f64());
    assert!(took < Duration::from_secs(300));
}

/// Sends until the splicer is gone; the messages that were answered, in order.
fn answered(mut server: Server, count: std::sync::Arc<std::sync::atomic::AtomicUsize>) -> usize {
    let (mut done, alive) = (0, wire::alive(7, 7));
    let mut slice = [0; 4096];
    while server.stream.write_all(&alive).is_ok() {
        match server.stream.read(&mut slice) {
            Ok(n) if n > 0 => done += n / 24,
            _ => break,
        }
        count.fetch_add(1, std::sync::atomic::Ordering::Relaxed);
    }
    done
}

#[test]
#[ignore = "a bar"]
fn kills() {
    let mut random = Random(7);
    let mut calls = 0;
    for round in 0..KILLS {
        let mut splicerd = Splicerd::start(&format!("bar-kill-{round}"), &["--clock", "utc"]);
        let count = std::sync::Arc::new(std::sync::atomic::AtomicUsize::new(0));
        let servers: Vec<Server> = (0..3).map(|_| Server::new(&splicerd, b"CH1")).collect();
        let clients: Vec<_> = servers.into_iter().map(|s| (s, count.clone())).collect();
        let running: Vec<_> = clients.into_iter().map(|(s, c)| std::thread::spawn(move || answered(s, c))).collect();
        let wanted = random.below(2000) as usize;
        splicerd.until("the load", || count.load(std::sync::atomic::Ordering::Relaxed) >= wanted);
        splicerd.child.kill().unwrap();
        splicerd.child.wait().unwrap();
        let got: usize = running.into_iter().map(|client| client.join().unwrap()).sum();
        let recording = splicerd.recording("CH1");
        let alive = wire::alive(7, 7);
        let recorded = recording.windows(alive.len()).filter(|w| *w == alive).count();
        assert!(recorded >= got, "round {round}: {got} answered, {recorded} recorded");
        let told = refereed(&recording, "CH1");
        assert!(!told.is_wrong(), "round {round}: the referee: {told}");
        let path = splicerd.folder.join("killed.rec");
        std::fs::write(&path, &recording).unwrap();
        assert_eq!(passes(&path, "CH1"), Ok(()), "round {round}");
        calls += got;
    }
    println!("{KILLS} kills, {calls} answered calls, every one recorded, every recording passes");
}

/// The 99th percentile of a client's answers while something else goes on, in microseconds, and the latest.
fn good_client(splicerd: &Splicerd, mut meanwhile: impl FnMut(usize), rounds: usize) -> (u128, u128) {
    let mut server = Server::new(splicerd, b"CH1");
    let mut took = Vec::new();
    for round in 0..rounds {
        meanwhile(round);
        let began = Instant::now();
        server.stream.write_all(&wire::alive(0, 0)).unwrap();
        let mut answer = [0; 24];
        server.stream.read_exact(&mut answer).expect("its answer");
        took.push(began.elapsed().as_micros());
    }
    took.sort_unstable();
    (took[took.len() * 99 / 100], took[took.len() - 1])
}

/// One hostile connection of five kinds, left open.
fn hostile(splicerd: &Splicerd, n: usize) -> TcpStream {
    let mut stream = TcpStream::connect(splicerd.servers).expect("a connection");
    stream.set_nonblocking(true).unwrap();
    let _ = match n % 5 {
        0 => stream.write(&[0xA5; 4096]),
        1 => stream.write(&[0]),
        2 => Ok(0),
        3 => stream.write(&[0, 1, 0xFF, 0xFF, 0, 0, 0, 0]),
        _ => stream.write(&wire::alive(0, 0).repeat(4000)),
    };
    stream
}

fn memory(splicerd: &Splicerd, key: &str) -> u64 {
    let status = std::fs::read_to_string(format!("/proc/{}/status", splicerd.child.id())).unwrap();
    let line = status.lines().find(|l| l.starts_with(key)).unwrap();
    line.split_whitespace().nth(1).unwrap().parse().unwrap()
}

#[test]
#[ignore = "a bar"]
fn hostile_connections() {
    let splicerd = Splicerd::start("bar-hostile", &["--clock", "utc"]);
    let (quiet, _) = good_client(&splicerd, |_| (), 5000);
    let mut open = std::collections::VecDeque::new();
    let (busy, latest) = good_client(
        &splicerd,
        |n| {
            open.push_back(hostile(&splicerd, n));
            if open.len() > 900 {
                open.pop_front();
            }
            // a byte a second, more or less: every connection that drips gets one more now and then
            if let Some(one) = open.get_mut(n % 900) {
                let _ = one.write(&[0]);
            }
        },
        HOSTILE,
    );
    let peak = memory(&splicerd, "VmHWM");
    println!("{HOSTILE} hostile connections: 99 of 100 answers within {busy} us ({quiet} us undisturbed)");
    println!("all within {latest} us; peak {peak} kB");
    assert!(latest <= quiet + 50_000, "{latest} us");
}

#[test]
#[ignore = "a bar"]
fn idle_channels() {
    let folder = common::folder("bar-idle");
    let names: Vec<String> = (1..=1024).map(|n| format!("CH{n}")).collect();
    std::fs::write(folder.join("channels"), names.join("\n")).unwrap();
    let file = folder.join("channels");
    let words = ["--listen", "127.0.0.1:0", "--page", "127.0.0.1:0", "--channels", file.to_str().unwrap()];
    let splicerd = Splicerd::run(&words, folder);
    let held: Vec<Server> = names.iter().map(|name| Server::new(&splicerd, name.as_bytes())).collect();
    let ticks = || {
        let stat = std::fs::read_to_string(format!("/proc/{}/stat", splicerd.child.id())).unwrap();
        let fields: Vec<u64> = stat.rsplit(')').next().unwrap().split_whitespace().filter_map(|f| f.parse().ok()).collect();
        // utime and stime: the 14th and 15th field, behind the name and the state's letter
        fields[10] + fields[11]
    };
    let before = ticks();
    std::thread::sleep(Duration::from_secs(10));
    let (spent, used) = (ticks() - before, memory(&splicerd, "VmRSS"));
    println!("{} channels open and idle: {used} kB, {spent} hundredths of a second of processor time in 10 s", held.len());
    assert!(used < 64 * 1024 && spent <= 1);
}

//! The event loop: listeners, signals, connections, the page and what is due.

use crate::channel::{Channel, Spec};
use crate::clock::{self, Clock};
use crate::desk::Desk;
use crate::hall::{Hall, PEERS};
use crate::log::Log;
use crate::options::Options;
use crate::page::{Page, PAGES};
use crate::recording::Recording;
use mio::net::{TcpListener, TcpStream, UnixStream};
use mio::{Events, Interest, Poll, Token};
use signal_hook::consts::{SIGINT, SIGTERM};
use socket2::{Domain, Protocol, SockRef, Socket, TcpKeepalive, Type};
use std::collections::{BTreeSet, VecDeque};
use std::io;
use std::net::SocketAddr;
use std::path::Path;
use std::sync::atomic::AtomicBool;
use std::sync::Arc;
use std::time::Duration;

/// Events of one poll.
const EVENTS: usize = 1024;
const SIGNAL: Token = Token(usize::MAX - 1);
const PAGE: Token = Token(usize::MAX - 2);

/// Files that are open beside connections and recordings: page, poll, signals, standard ones.
const BESIDE: u64 = 128;

pub struct Server {
    poll: Poll,
    listeners: Vec<TcpListener>,
    hall: Hall,
    page: Page,
    /// Lives as long as the loop.
    _signals: UnixStream,
    ready: VecDeque<usize>,
    asked: BTreeSet<usize>,
}

impl Server {
    /// Opens everything; an error in words.
    pub fn open(options: Options) -> Result<Server, String> {
        let poll = Poll::new().map_err(|error| error.to_string())?;
        let channels = channels(&options.channels, options.record.as_deref())?;
        let desk = Desk::new(Log::new(options.json));
        let registry = poll.registry().try_clone().map_err(|error| error.to_string())?;
        let mut hall = Hall::new(channels, desk, Clock::new(options.clock), registry);
        hall.cues = options.cues.into();
        hall.fixed = options.fixed;
        hall.channels.iter_mut().for_each(|channel| channel.referee.misheard = options.misheard);
        limits(&mut hall, options.record.is_some());
        hall.settle();
        let mut listeners = Vec::new();
        for (at, address) in options.listen.iter().enumerate() {
            let mut listener = listening(*address)?;
            let added = poll.registry().register(&mut listener, Token(at), Interest::READABLE);
            added.map_err(|error| error.to_string())?;
            hall.say("listening", &local(&listener, "servers"));
            listeners.push(listener);
        }
        let mut page = listening(options.page)?;
        poll.registry().register(&mut page, PAGE, Interest::READABLE).map_err(|error| error.to_string())?;
        hall.say("listening", &local(&page, "the page"));
        let judged = hall.channels.iter().filter(|channel| channel.referee.judges()).count();
        hall.say("referee", &format!("judges every call of {judged} of {} channels", hall.channels.len()));
        let registry = poll.registry().try_clone().map_err(|error| error.to_string())?;
        let page = Page::new(page, registry, options.record);
        let signals = signals(&poll).map_err(|error| error.to_string())?;
        Ok(Server { poll, listeners, hall, page, _signals: signals, ready: VecDeque::new(), asked: BTreeSet::new() })
    }

    /// Runs until a signal ends it.
    pub fn run(&mut self) -> io::Result<()> {
        let mut events = Events::with_capacity(EVENTS);
        let mut going = true;
        while going {
            let now = self.hall.now();
            self.hall.desk.log.run(now);
            let sleep = self.sleep();
            match self.poll.poll(&mut events, sleep) {
                Err(error) if error.kind() == io::ErrorKind::Interrupted => continue,
                other => other?,
            }
            self.hall.run_due();
            for event in &events {
                going &= self.heard(event);
            }
            self.turns();
            self.page.run(&mut self.hall);
            if self.hall.flush.is_due() {
                self.hall.flush_now();
            }
        }
        self.hall.say("ending", "a signal");
        self.hall.close_all();
        self.page.end();
        let now = self.hall.now();
        self.hall.desk.log.end(now);
        Ok(())
    }

    fn sleep(&mut self) -> Option<Duration> {
        if !self.ready.is_empty() {
            return Some(Duration::ZERO);
        }
        [self.hall.sleep(), self.page.sleep(&self.hall), self.hall.desk.log.wait()].into_iter().flatten().min()
    }

    /// One event; false if it ends the program.
    fn heard(&mut self, event: &mio::event::Event) -> bool {
        match event.token() {
            SIGNAL => return false,
            PAGE => self.page.accept(&mut self.hall),
            Token(at) if at < self.listeners.len() => self.accept(at),
            Token(at) if at >= PAGES => self.page.event(at - PAGES, event, &mut self.hall),
            Token(at) => self.peer(at - PEERS, event),
        }
        true
    }

    fn peer(&mut self, at: usize, event: &mio::event::Event) {
        if event.is_writable() {
            self.hall.send(at);
            self.hall.settle();
        }
        let closing = event.is_read_closed() || event.is_error();
        if let Some(peer) = self.hall.peers.get(at) {
            peer.closing |= closing;
        }
        if (event.is_readable() || closing) && self.asked.insert(at) {
            self.ready.push_back(at);
        }
    }

    /// Each connection that has something gets one turn; those that may have more get another behind the next poll.
    fn turns(&mut self) {
        for _ in 0..self.ready.len() {
            let Some(at) = self.ready.pop_front() else {
                return;
            };
            self.asked.remove(&at);
            if self.hall.turn(at) && self.asked.insert(at) {
                self.ready.push_back(at);
            }
        }
    }

    fn accept(&mut self, at: usize) {
        loop {
            match self.listeners[at].accept() {
                Ok((stream, address)) => {
                    kept_alive(&stream);
                    self.hall.accept(stream, address);
                }
                Err(error) if error.kind() == io::ErrorKind::WouldBlock => return,
                Err(error) if error.kind() == io::ErrorKind::Interrupted => {}
                Err(error) => return self.hall.say("refused", &error.to_string()),
            }
        }
    }
}

/// A peer that vanished is noticed: after 7 s of silence it is asked three times, a second apart.
fn kept_alive(stream: &TcpStream) {
    let keep = TcpKeepalive::new().with_time(Duration::from_secs(7)).with_interval(Duration::from_secs(1)).with_retries(3);
    // without them it only takes longer
    let _ = SockRef::from(stream).set_tcp_keepalive(&keep);
    let _ = stream.set_nodelay(true);
}

fn local(listener: &TcpListener, whom: &str) -> String {
    listener.local_addr().map_or_else(|error| error.to_string(), |address| format!("for {whom} on {address}"))
}

fn listening(address: SocketAddr) -> Result<TcpListener, String> {
    bound(address).map_err(|error| format!("{address}: {error}"))
}

fn bound(address: SocketAddr) -> io::Result<TcpListener> {
    let socket = Socket::new(Domain::for_address(address), Type::STREAM.nonblocking().cloexec(), Some(Protocol::TCP))?;
    socket.set_reuse_address(true)?;
    if address.is_ipv6() {
        // an IPv4 address beside it is a listener of its own
        socket.set_only_v6(true)?;
    }
    socket.bind(&address.into())?;
    socket.listen(1024)?;
    Ok(TcpListener::from_std(socket.into()))
}

/// SIGTERM and SIGINT wake the loop; a second one ends at once.
fn signals(poll: &Poll) -> io::Result<UnixStream> {
    let (read, write) = std::os::unix::net::UnixStream::pair()?;
    read.set_nonblocking(true)?;
    let twice = Arc::new(AtomicBool::new(false));
    for signal in [SIGTERM, SIGINT] {
        signal_hook::flag::register_conditional_shutdown(signal, 1, twice.clone())?;
        signal_hook::flag::register(signal, twice.clone())?;
        signal_hook::low_level::pipe::register(signal, write.try_clone()?)?;
    }
    let mut read = UnixStream::from_std(read);
    poll.registry().register(&mut read, SIGNAL, Interest::READABLE)?;
    Ok(read)
}

fn channels(specs: &[Spec], folder: Option<&Path>) -> Result<Vec<Channel>, String> {
    let started = clock::system();
    let mut all = Vec::with_capacity(specs.len());
    for spec in specs {
        let recording = match folder {
            None => None,
            Some(folder) => {
                let made = Recording::create(folder, &spec.name, started);
                Some(made.map_err(|error| format!("{}: {error}", folder.display()))?)
            }
        };
        all.push(Channel::new(spec.clone(), recording));
    }
    Ok(all)
}

/// Raises the limit of open files to what all channels need; says what it can hold if that is less.
fn limits(hall: &mut Hall, recorded: bool) {
    let channels = hall.channels.len() as u64;
    let files = BESIDE + if recorded { channels } else { 0 };
    let wanted = files + 4 * channels + crate::hall::WAITING as u64;
    let have = rlimit::increase_nofile_limit(wanted).unwrap_or(256);
    hall.most = usize::try_from(have.saturating_sub(files)).unwrap_or(usize::MAX).max(1);
    if have < wanted {
        hall.say("limit", &format!("{have} open files: {} connections at a time, of {}", hall.most, wanted - files));
    }
}

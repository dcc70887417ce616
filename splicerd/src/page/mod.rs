//! The page's server, in the same loop: a request for each connection, or a stream of events. Requests are parsed by httparse.

mod metrics;
mod request;
mod routes;
mod state;

use crate::hall::Hall;
use crate::slab::Slab;
use mio::net::{TcpListener, TcpStream};
use mio::{Interest, Registry, Token};
use request::{Asked, Request};
use std::fs::File;
use std::io::{self, Read, Write};
use std::net::Shutdown;
use std::path::PathBuf;
use std::time::{Duration, Instant};

/// Where the numbers of the page's connections begin among the poll's tokens.
pub const PAGES: usize = 1 << 30;
/// Connections of the page, at most; how long a request may take; how much may wait for one.
const MOST: usize = 64;
const PATIENCE: Duration = Duration::from_secs(30);
/// How long it is waited, behind an answer, until the other side has closed too.
const LINGER: Duration = Duration::from_secs(2);
/// Reads of one connection before the others have their turn.
const READS: usize = 32;
const WAITS: usize = 16 << 20;
/// The page is told of changes at most so often.
const EVERY: Duration = Duration::from_millis(250);
/// Bytes of a recording that are read at a time.
const PIECE: u64 = 64 * 1024;

/// What is answered.
pub struct Answer {
    pub status: u16,
    pub kind: &'static str,
    pub body: Body,
}

pub enum Body {
    Bytes(Vec<u8>),
    /// A file, and the bytes of it that are given.
    File(File, u64),
    /// Events, from this first one on.
    Events(String),
}

struct Conn {
    stream: TcpStream,
    /// When something of it last went on.
    since: Instant,
    input: Vec<u8>,
    output: Vec<u8>,
    file: Option<io::Take<File>>,
    events: bool,
    answered: bool,
    /// All is sent and its own side is closed: what still comes is read and dropped.
    lingers: bool,
    gone: bool,
}

pub struct Page {
    listener: TcpListener,
    registry: Registry,
    conns: Slab<Conn>,
    folder: Option<PathBuf>,
    told: Instant,
}

impl Page {
    pub fn new(listener: TcpListener, registry: Registry, folder: Option<PathBuf>) -> Page {
        Page { listener, registry, conns: Slab::default(), folder, told: Instant::now() }
    }

    pub fn accept(&mut self, hall: &mut Hall) {
        loop {
            match self.listener.accept() {
                Ok((stream, _)) => self.add(stream),
                Err(error) if error.kind() == io::ErrorKind::Interrupted => {}
                Err(error) if error.kind() == io::ErrorKind::WouldBlock => return,
                Err(error) => return hall.say("page", &error.to_string()),
            }
        }
    }

    fn add(&mut self, mut stream: TcpStream) {
        if self.conns.len() >= MOST {
            return;
        }
        let (at, all) = (self.conns.next(), Interest::READABLE | Interest::WRITABLE);
        if self.registry.register(&mut stream, Token(PAGES + at), all).is_err() {
            return;
        }
        let (input, output, since) = (Vec::new(), Vec::new(), Instant::now());
        self.conns.add(Conn {
            stream,
            since,
            input,
            output,
            file: None,
            events: false,
            answered: false,
            lingers: false,
            gone: false,
        });
    }

    pub fn event(&mut self, at: usize, event: &mio::event::Event, hall: &mut Hall) {
        let Some(conn) = self.conns.get(at) else {
            return;
        };
        if event.is_readable() || event.is_read_closed() || event.is_error() {
            conn.read();
            if !conn.answered && !conn.gone {
                hear(conn, hall, self.folder.as_deref());
            }
        }
        conn.write();
        self.drop_gone(at);
    }

    fn drop_gone(&mut self, at: usize) {
        if self.conns.get(at).is_some_and(|conn| conn.gone) {
            if let Some(mut conn) = self.conns.remove(at) {
                // it is closed with its stream in any case
                let _ = self.registry.deregister(&mut conn.stream);
            }
        }
    }

    /// Tells those who watch what changed, and drops requests that take too long.
    pub fn run(&mut self, hall: &mut Hall) {
        let numbers = self.conns.numbers();
        let watched = numbers.iter().any(|at| self.conns.get(*at).is_some_and(|conn| conn.events));
        if !watched {
            hall.changed.clear();
        }
        let event = (!hall.changed.is_empty() && self.told.elapsed() >= EVERY).then(|| {
            self.told = Instant::now();
            let changed = std::mem::take(&mut hall.changed);
            format!("data: {}\n\n", state::of(hall, &changed.into_iter().collect::<Vec<_>>()))
        });
        for at in numbers {
            if let Some(conn) = self.conns.get(at) {
                conn.gone |= !conn.events && conn.since.elapsed() >= conn.patience();
                if let (true, Some(event)) = (conn.events, &event) {
                    conn.output.extend_from_slice(event.as_bytes());
                    conn.gone |= conn.output.len() > WAITS;
                    conn.write();
                }
            }
            self.drop_gone(at);
        }
    }

    /// How long it has nothing to do.
    pub fn sleep(&self, hall: &Hall) -> Option<Duration> {
        let changed = (!hall.changed.is_empty()).then(|| EVERY.saturating_sub(self.told.elapsed()));
        let patience = self.conns.iter().filter(|c| !c.events).map(|c| c.patience().saturating_sub(c.since.elapsed())).min();
        [changed, patience].into_iter().flatten().min()
    }

    pub fn end(&mut self) {
        for at in self.conns.numbers() {
            self.conns.remove(at);
        }
    }
}

/// Reads a request as far as it is there, and answers it once it is whole.
fn hear(conn: &mut Conn, hall: &mut Hall, folder: Option<&std::path::Path>) {
    let answer = match request::read(&conn.input) {
        Asked::More => return,
        Asked::Bad(status) => routes::plain(status),
        Asked::Whole(request) if !own(&request, &conn.stream) => routes::plain(403),
        Asked::Whole(request) => routes::answer(&request, hall, folder),
    };
    hall.settle();
    conn.answer(answer);
}

/// Whether it asks for this page by its own address, and from itself.
fn own(request: &Request<'_>, stream: &TcpStream) -> bool {
    stream.local_addr().is_ok_and(|address| request.is_own(address))
}

impl Conn {
    fn patience(&self) -> Duration {
        if self.lingers {
            LINGER
        } else {
            PATIENCE
        }
    }

    fn read(&mut self) {
        let mut slice = [0; 4096];
        for _ in 0..READS {
            match self.stream.read(&mut slice) {
                Ok(0) => return self.gone |= self.lingers || self.output.is_empty(),
                // what comes behind a request is not read
                Ok(_) if self.answered => {}
                Ok(n) => self.input.extend_from_slice(&slice[..n]),
                Err(error) if error.kind() == io::ErrorKind::Interrupted => {}
                Err(error) if error.kind() == io::ErrorKind::WouldBlock => return,
                Err(_) => return self.gone = true,
            }
            if self.input.len() > request::LONGEST {
                return;
            }
        }
    }

    fn answer(&mut self, answer: Answer) {
        self.answered = true;
        self.input = Vec::new();
        let length = match &answer.body {
            Body::Bytes(bytes) => Some(bytes.len() as u64),
            Body::File(_, length) => Some(*length),
            Body::Events(_) => None,
        };
        self.output.extend(request::head(answer.status, answer.kind, length));
        match answer.body {
            Body::Bytes(bytes) => self.output.extend(bytes),
            Body::File(file, length) => self.file = Some(file.take(length)),
            Body::Events(first) => {
                self.events = true;
                self.output.extend_from_slice(first.as_bytes());
            }
        }
    }

    /// Sends what is taken, the next piece of a file behind it; closed on this side when all is out.
    fn write(&mut self) {
        while !self.output.is_empty() || self.more() {
            match self.stream.write(&self.output) {
                Ok(n) => {
                    self.output.drain(..n);
                    self.since = Instant::now();
                }
                Err(error) if error.kind() == io::ErrorKind::Interrupted => {}
                Err(error) if error.kind() == io::ErrorKind::WouldBlock => return,
                Err(_) => return self.gone = true,
            }
        }
        if self.answered && !self.events && !self.lingers {
            self.lingers = true;
            self.gone |= self.stream.shutdown(Shutdown::Write).is_err();
            self.read();
        }
    }

    fn more(&mut self) -> bool {
        let Some(file) = &mut self.file else {
            return false;
        };
        match file.by_ref().take(PIECE).read_to_end(&mut self.output) {
            Ok(n) => n > 0,
            Err(_) => {
                self.gone = true;
                false
            }
        }
    }
}

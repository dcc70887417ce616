//! A server's connection: what was read of it and not yet handled, what it has not yet taken, and whose it is.

use mio::net::TcpStream;
use splicer::Splicer;
use std::io::{self, Read, Write};
use std::net::SocketAddr;
use std::time::Instant;

/// Answers that a server does not read wait up to this many bytes; then its connection is dropped.
pub const MOST: usize = 1 << 20;

/// Bytes that are read of one connection before the others have their turn.
pub const SLICE: usize = 4 * 1024;

/// Whose it is.
pub enum Place {
    /// Nobody's yet: a core of its own answers it.
    Waiting(Box<Splicer>),
    Seat {
        channel: usize,
        number: usize,
    },
}

/// What a read gave.
#[derive(Debug, PartialEq, Eq)]
pub enum Got {
    /// More may be there.
    More,
    /// Nothing more is there now.
    All,
    /// Nothing more will come, and why.
    End(String),
}

pub struct Peer {
    pub stream: TcpStream,
    pub address: SocketAddr,
    pub since: Instant,
    pub input: Vec<u8>,
    pub place: Place,
    queue: Vec<u8>,
    sent: usize,
    /// Whether it is waited until it takes bytes again.
    pub blocked: bool,
    /// It is to be dropped, and why.
    pub ending: Option<String>,
    /// It was said that its end may be there: it is read until that is seen.
    pub closing: bool,
}

impl Peer {
    pub fn new(stream: TcpStream, address: SocketAddr, core: Splicer) -> Peer {
        let (input, queue, place) = (Vec::new(), Vec::new(), Place::Waiting(Box::new(core)));
        let since = Instant::now();
        Peer { stream, address, since, input, place, queue, sent: 0, blocked: false, ending: None, closing: false }
    }

    /// Reads once into the rest of what was read.
    pub fn read(&mut self, slice: &mut [u8]) -> Got {
        match self.stream.read(slice) {
            Ok(0) => Got::End("end of file".into()),
            Ok(n) => {
                self.input.extend_from_slice(&slice[..n]);
                if n == slice.len() || self.closing {
                    Got::More
                } else {
                    Got::All
                }
            }
            Err(error) => match error.kind() {
                io::ErrorKind::WouldBlock => Got::All,
                io::ErrorKind::Interrupted => Got::More,
                _ => Got::End(error.to_string()),
            },
        }
    }

    /// An answer for it, behind the others.
    pub fn push(&mut self, message: &[u8]) {
        if self.ending.is_none() {
            self.queue.extend_from_slice(message);
        }
    }

    /// Bytes that it has not taken.
    pub fn waiting(&self) -> usize {
        self.queue.len() - self.sent
    }

    /// Sends what it takes. Too much left, or an error, and it is to be dropped.
    pub fn send(&mut self) {
        while self.waiting() > 0 && self.ending.is_none() {
            match self.stream.write(&self.queue[self.sent..]) {
                Ok(n) => self.sent += n,
                Err(error) if error.kind() == io::ErrorKind::Interrupted => {}
                Err(error) if error.kind() == io::ErrorKind::WouldBlock => break,
                Err(error) => self.ending = Some(error.to_string()),
            }
        }
        if self.waiting() == 0 {
            self.queue.clear();
            self.queue.shrink_to(SLICE);
            self.sent = 0;
        } else if self.waiting() > MOST {
            self.ending = Some(format!("{} bytes of answers not read", self.waiting()));
        } else if self.sent > MOST {
            self.queue.drain(..self.sent);
            self.sent = 0;
        }
    }
}

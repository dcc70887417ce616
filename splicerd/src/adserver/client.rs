//! A connection to a splicer, a message at a time.

use crate::wire;
use splicer::{records, Record};
use std::io::{ErrorKind, Read, Write};
use std::net::TcpStream;
use std::time::Duration;

/// How long an answer may take.
const PATIENCE: Duration = Duration::from_secs(10);

pub struct Client {
    stream: TcpStream,
    /// What was read, behind two bytes that make a record of it.
    input: Vec<u8>,
}

/// A whole message that came.
pub struct Came(Vec<u8>);

impl Came {
    /// As a record of connection 0.
    pub fn record(&self) -> Record<'_> {
        // it is whole: its length was read before
        records(&self.0).next().expect("a whole message")
    }
}

impl Client {
    pub fn connect(to: &str) -> Result<Client, String> {
        let stream = TcpStream::connect(to).map_err(|error| format!("{to}: {error}"))?;
        stream.set_nodelay(true).map_err(|error| format!("{to}: {error}"))?;
        Ok(Client { stream, input: Vec::new() })
    }

    pub fn send(&mut self, message: &[u8]) -> Result<(), String> {
        self.stream.write_all(message).map_err(|error| error.to_string())
    }

    /// The next message; none if it does not come in time.
    pub fn next(&mut self, within: Option<Duration>) -> Result<Option<Came>, String> {
        loop {
            if let Some(length) = wire::length(&self.input).filter(|length| self.input.len() >= *length) {
                let rest = self.input.split_off(length);
                let message = std::mem::replace(&mut self.input, rest);
                return Ok(Some(Came([&[0x52, 0][..], &message].concat())));
            }
            self.stream.set_read_timeout(within).map_err(|error| error.to_string())?;
            let mut slice = [0; 4096];
            match self.stream.read(&mut slice) {
                Ok(0) => return Err("the splicer closed the connection".into()),
                Ok(n) => self.input.extend_from_slice(&slice[..n]),
                Err(error) if matches!(error.kind(), ErrorKind::WouldBlock | ErrorKind::TimedOut) => return Ok(None),
                Err(error) if error.kind() == ErrorKind::Interrupted => {}
                Err(error) => return Err(error.to_string()),
            }
        }
    }

    /// The next message, or that none came.
    pub fn answer(&mut self) -> Result<Came, String> {
        self.next(Some(PATIENCE))?.ok_or("no answer within 10 s".into())
    }
}

//! A splicer of real sockets and a real clock over the proved core, and a client to talk to it.
#![forbid(unsafe_code)]
#![warn(rust_2018_idioms)]

pub mod adserver;
pub mod channel;
pub mod clock;
pub mod cues;
pub mod desk;
pub mod flush;
pub mod hall;
pub mod log;
pub mod options;
pub mod page;
pub mod peer;
pub mod recording;
pub mod referee;
pub mod server;
pub mod slab;
pub mod time;
pub mod wire;
pub mod words;

//! The client: one connection and a command, a schedule, or a load of many.

mod client;
mod load;
mod one;
mod options;
mod play;

pub use options::read;

use options::{Options, What};
use splicer::Record;

/// How it ended: the status is 0 for 100, 1 for another code, 2 for usage or no connection.
pub const GOOD: u8 = 0;
pub const OTHER: u8 = 1;
pub const NONE: u8 = 2;

/// Runs a command; an error in words is a connection that did not come or stay.
pub fn run(options: &Options) -> Result<u8, String> {
    match &options.what {
        What::Load(load) => load::run(options, load),
        What::Play(script) => play::run(options, script),
        _ => one::run(options),
    }
}

/// Shows an answer.
fn show(options: &Options, record: &Record<'_>) {
    if options.json {
        println!("{}", crate::words::record_json(record));
    } else {
        println!("{}", crate::words::Said(record));
    }
}

/// The status of a result code.
fn status(result: u16) -> u8 {
    if result == 100 {
        GOOD
    } else {
        OTHER
    }
}

//! One connection, one command: initialised first, then asked.

use super::client::Client;
use super::options::{Asked, Options, What};
use super::{show, status, GOOD, OTHER};
use crate::{clock, time, wire};
use splicer::{message_id, Says};

/// A client that is initialised, or the status of another answer.
pub fn initialised(options: &Options) -> Result<Result<Client, u8>, String> {
    let mut client = Client::connect(&options.to)?;
    client.send(&wire::init(&options.channel, b""))?;
    let came = client.answer()?;
    show(options, &came.record());
    Ok(match came.record().result {
        100 => Ok(client),
        other => Err(status(other)),
    })
}

pub fn run(options: &Options) -> Result<u8, String> {
    let mut client = match initialised(options)? {
        Ok(client) => client,
        Err(status) => return Ok(status),
    };
    let (seconds, micros) = time::parts(clock::system());
    match &options.what {
        What::Alive => asked(options, &mut client, &wire::alive(seconds, micros)),
        What::Abort(session) => asked(options, &mut client, &wire::abort(*session)),
        What::Config => asked(options, &mut client, &wire::config()),
        What::Extended(session) => asked(options, &mut client, &wire::extended(*session)),
        What::Splice(spot) => splice(options, &mut client, spot),
        What::Cues(count) => cues(options, &mut client, *count),
        _ => Ok(GOOD),
    }
}

fn asked(options: &Options, client: &mut Client, message: &[u8]) -> Result<u8, String> {
    client.send(message)?;
    let came = client.answer()?;
    show(options, &came.record());
    Ok(status(came.record().result))
}

/// The splicer's time, by an Alive_Request.
pub fn present(client: &mut Client) -> Result<u64, String> {
    client.send(&wire::alive(0, 0))?;
    match client.answer()?.record().says() {
        Some(Says::Alive { seconds, micros, .. }) => Ok(time::whole(seconds, micros)),
        _ => Err("no answer to an Alive_Request".into()),
    }
}

/// The request for a spot, its start by the splicer's time.
pub fn request(spot: &Asked, session: u32, start: u64) -> wire::Splice {
    let (seconds, micros) = if spot.prior.is_some() { (0, 0) } else { time::parts(start) };
    // ticks of 90 kHz: nine for each hundred microseconds
    let duration = u32::try_from(u128::from(spot.duration) * 9 / 100).unwrap_or(u32::MAX);
    let prior = spot.prior.unwrap_or(u32::MAX);
    let (access, over, event, mux) = (spot.access, spot.over, spot.event, spot.mux);
    wire::Splice { session, prior, seconds, micros, duration, event, access, over, mux }
}

/// Asks for a spot and stays until its end is there.
fn splice(options: &Options, client: &mut Client, spot: &Asked) -> Result<u8, String> {
    let now = present(client)?;
    let session = spot.session.unwrap_or((clock::system() / 1000 % 1_000_000_000) as u32);
    client.send(&wire::splice(&request(spot, session, now + spot.ahead)))?;
    loop {
        let came = client.next(None)?.ok_or("no answer")?;
        let record = came.record();
        show(options, &record);
        match record.says() {
            Some(Says::Splice { session: its }) if its == session && record.result != 100 => return Ok(OTHER),
            Some(Says::Complete { session: its, flag: 0, .. }) if its == session && record.result != 100 => return Ok(OTHER),
            Some(Says::Complete { session: its, flag: 1, .. }) if its == session => return Ok(status(record.result)),
            Some(Says::General) => return Ok(OTHER),
            _ => {}
        }
    }
}

/// Waits for cues, and answers each with 100.
fn cues(options: &Options, client: &mut Client, count: Option<u64>) -> Result<u8, String> {
    let mut left = count.unwrap_or(u64::MAX);
    while left > 0 {
        let came = client.next(None)?.ok_or("no cue")?;
        show(options, &came.record());
        if came.record().message_id == message_id::CUE_REQUEST {
            client.send(&wire::cue_response(100))?;
            left -= 1;
        }
    }
    Ok(GOOD)
}

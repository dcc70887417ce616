//! A driver that sleeps until something is due, and whose output follows the session on air. Sockets are
//! left out: what a server would send is made here, and a line stands for what would be sent.

use splicer::{message_id, name, records, Air, Refusal, Splicer, OUT};

/// The earlier of a driver's own next time and the tick that is due, Seconds and MicroSeconds: until
/// then nothing happens on this channel, whatever is ticked.
fn wakes(channel: &Splicer, own: (u32, u32)) -> (u32, u32) {
    match channel.due().and_then(|due| due.tick) {
        Some(tick) => tick.min(own),
        None => own,
    }
}

/// The clock to a time: sends what that wrote, and switches the output if another is on air. A covered
/// session that is on air again writes no record, so it is read.
fn tick(channel: &mut Splicer, time: (u32, u32), shown: &mut Option<Air>) -> Result<(), Refusal> {
    let mut out = [0; OUT];
    let written = channel.tick(time.0, time.1, &mut out)?;
    for record in records(written) {
        let (to, id, result) = (record.connection, record.message_id, record.result);
        println!(
            "{}.{:06}: to {to}: message {id:#06x}, result {result}",
            time.0, time.1
        );
    }
    let air = channel.air();
    let who = |air: &Option<Air>| air.map(|a| (a.connection, a.session, a.start));
    if who(&air) != who(shown) {
        println!("{}.{:06}: on air: {:?}", time.0, time.1, who(&air));
    }
    *shown = air;
    Ok(())
}

fn message(id: u16, data: &[u8]) -> Vec<u8> {
    let head = [id.to_be_bytes(), (data.len() as u16).to_be_bytes()].concat();
    [&head[..], &[0xFF; 4], data].concat()
}

fn init() -> Vec<u8> {
    let data = [&[0, 2], &name(b"CH1")[..], &name(b"SERVER"), &[0, 0]].concat();
    message(message_id::INIT_REQUEST, &data)
}

/// A timed Splice_Request; a higher AccessType covers a lower one.
fn splice(session: u32, seconds: u32, access: u8, duration: u32) -> Vec<u8> {
    let mut data = Vec::new();
    for word in [session, 0xFFFF_FFFF, seconds, 0] {
        data.extend(word.to_be_bytes());
    }
    data.extend([0, 1]);
    for word in [duration, 0xFFFF_FFFF, 0] {
        data.extend(word.to_be_bytes());
    }
    data.extend([access, 1, 1]);
    message(message_id::SPLICE_REQUEST, &data)
}

fn main() -> Result<(), Refusal> {
    let (mut out, mut shown) = ([0; OUT], None);
    let (mut channel, named) = Splicer::fresh(&name(b"CH1"));
    named?;
    channel.open(0)?;
    channel.message(0, &init(), &mut out)?;
    tick(&mut channel, (1000, 0), &mut shown)?;
    // a spot of 30 s, and one over it for a third of a second
    channel.message(0, &splice(1, 1010, 1, 2_700_000), &mut out)?;
    channel.message(0, &splice(2, 1020, 2, 30_001), &mut out)?;
    // a server may send at any time: a card waits for bytes with this time as its limit
    let own = (1060, 0);
    loop {
        let time = wakes(&channel, own);
        tick(&mut channel, time, &mut shown)?;
        if time == own {
            return Ok(());
        }
    }
}

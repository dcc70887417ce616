//! A splicer of the second program and one of the core, given the same calls.

use crate::alike;
use crate::books::Books;
use crate::calls::{ask_core, ask_core_with, ask_model, Act, Call, Desk, Said};
use crate::looks::Told;
use crate::wrong::{Drift, Wrong};
use model::hold::watch::{self, Watcher};
use model::people::scenario::message;
use model::rules;
use splicer::{CONNECTIONS, NAME, OUT};

#[derive(Clone)]
pub struct Pair {
    pub core: splicer::Splicer,
    pub model: rules::Splicer,
    /// Counts the branches that the second program takes.
    pub watcher: Watcher,
    books: Books,
    drift: Drift,
    /// What was read last.
    told: Told,
    /// How often each kind of read was seen.
    pub read: [u64; 5],
}

impl Pair {
    pub fn fresh(name: &[u8; NAME], wrong: Wrong) -> Result<Pair, String> {
        let mut watcher = Watcher::new();
        let (mut model, number) = watcher.during(|| watch::fresh(name));
        model.rules = wrong.rules();
        let (core, refused) = wrong.fresh(name);
        let refused = refused.err().map(|r| r.number());
        if refused != number {
            return Err(format!("fresh: core {refused:?}, second program {number:?}"));
        }
        let books = Books::default();
        alike::after(&core, core.waiting(), &model, &books, 0, wrong)?;
        let mut told = Told::default();
        told.same(&core, &model, &books, wrong)?;
        Ok(Pair { core, model, watcher, books, drift: Drift::default(), told, read: [0; 5] })
    }

    /// Makes the call on both and compares all that is seen of it.
    pub fn call(&mut self, act: &Act, desk: &mut Desk, wrong: Wrong) -> Result<Said, String> {
        let wanted = self.watcher.during(|| ask_model(&mut self.model, act));
        // 02, CR 7: a cue changes nothing, good or refused.
        let kept = wanted.refused != 0 || matches!(act.call, Call::Cue(_));
        let before = kept.then(|| self.core.clone());
        let handed = wrong.handed(act);
        let lent = handed.sections.clone();
        let out = desk.buffer(handed.room);
        let mut found = ask_core_with(&mut self.core, &handed.call, &handed.sections, out);
        if handed.sections != lent {
            return Err("a lent section changed".to_string());
        }
        wrong.told(act, &mut found, &mut self.core, desk);
        wrong.moved(act, &mut found, self.core.waiting());
        desk.same(&found, &wanted)?;
        if before.is_some_and(|before| before != self.core) {
            return Err(format!("refused {}, or a cue, and changed its state", found.refused));
        }
        let waiting = wrong.waiting(act, &found, self.core.waiting(), &mut self.drift);
        self.books.call(act, &found)?;
        alike::after(&self.core, waiting, &self.model, &self.books, desk.turn(), wrong)?;
        // A refused call and a cue have left the core's memory as it was: what is read of it is what was read before.
        if !kept {
            self.told.same(&self.core, &self.model, &self.books, wrong)?;
            let kinds = self.told.kinds();
            self.read = std::array::from_fn(|at| self.read[at] + u64::from(kinds[at]));
        }
        Ok(found)
    }

    /// A copy of the core as it was before a call gives the same answer and becomes the same, elsewhere and later.
    pub fn again(&self, before: &splicer::Splicer, act: &Act, said: &Said, desk: &mut Desk) -> Result<(), String> {
        let mut copy = Box::new(before.clone());
        let again = ask_core_with(&mut copy, &act.call, &act.sections, desk.buffer(act.room));
        if desk.touched(again.written.len()) || again != *said || *copy != self.core {
            return Err("a copy of the core went another way".to_string());
        }
        Ok(())
    }

    /// On a copy, brings to light all that is held: the clock goes on, then every connection closes. Gives the number of calls.
    pub fn probe(&mut self, ahead: u64, desk: &mut Desk, wrong: Wrong) -> Result<u64, String> {
        // The branch table is not for copies.
        let watcher = std::mem::replace(&mut self.watcher, Watcher::none());
        let mut copy = self.clone();
        self.watcher = watcher;
        let time = copy.model.clock / rules::MICROSECOND + ahead;
        let seconds = (time / 1_000_000).min(u32::MAX.into()) as u32;
        let mut calls = vec![Call::Tick(seconds, (time % 1_000_000) as u32)];
        calls.extend((0..4).map(Call::Close));
        for call in calls {
            let act = Act::plain(call, OUT);
            let told = |text| format!("on a copy, {}\n{text}", act.line());
            copy.call(&act, desk, wrong).map_err(told)?;
        }
        copy.emptied(desk)?;
        Ok(5)
    }

    /// With all connections closed it does what a fresh splicer of this name and clock does. Their
    /// memory may differ in where the waiting places begin (02, CR 11), so both are called on.
    fn emptied(&self, desk: &mut Desk) -> Result<(), String> {
        let (mut empty, _) = splicer::Splicer::fresh(&self.model.name);
        let mut core = self.core.clone();
        let seconds = (self.model.clock / rules::SECOND) as u32;
        let micros = (self.model.clock % rules::SECOND / rules::MICROSECOND) as u32;
        ask_core(&mut empty, &Call::Tick(seconds, micros), desk.buffer(OUT));
        let mut same = core.waiting() == empty.waiting() && core.mux() == empty.mux();
        for call in afresh(&self.model.name, seconds) {
            let found = ask_core(&mut core, &call, desk.buffer(OUT));
            same &= !desk.touched(found.written.len());
            let wanted = ask_core(&mut empty, &call, desk.buffer(OUT));
            same &= !desk.touched(wanted.written.len()) && found == wanted;
            same &= core.waiting() == empty.waiting() && core.mux() == empty.mux();
        }
        if !same {
            return Err("all closed, and not as a fresh one at this time".to_string());
        }
        Ok(())
    }
}

/// Calls on a splicer whose connections are all closed: requests before and behind one another, and a tick over some of them.
fn afresh(name: &[u8; NAME], seconds: u32) -> Vec<Call> {
    let mut calls = Vec::new();
    for conn in 0..CONNECTIONS as u32 {
        calls.push(Call::Open(conn));
        // a Hardware_Config of Length 0
        let init = [&[0, 2], &name[..], &[0; NAME + 2]].concat();
        calls.push(Call::Message(conn, message(0x0001, init)));
        for id in 0..5 {
            let ahead = 10 + (id * 7 + conn * 3) % 20;
            let mut data = vec![0; 33];
            data[..4].copy_from_slice(&id.to_be_bytes());
            data[4..8].fill(0xFF);
            data[8..12].copy_from_slice(&seconds.saturating_add(ahead).to_be_bytes());
            data[20] = 1;
            data[30] = id as u8;
            calls.push(Call::Message(conn, message(0x0007, data)));
        }
    }
    calls.push(Call::Tick(seconds.saturating_add(20), 999_999));
    calls.push(Call::Message(3, message(0x0005, vec![0; 8])));
    calls.extend((0..CONNECTIONS as u32).map(Call::Close));
    calls
}

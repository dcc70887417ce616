//! What is noted while a splicer is watched.

use super::table::Hits;
use rules::state::{Ended, Splicer};
use std::cell::RefCell;
use std::collections::BTreeSet;

/// What is counted of one splicer, and what of its past is needed for that.
#[derive(Clone, Default)]
pub struct Watch {
    /// Of the rules.
    pub counts: Hits,
    /// Of cue calls (02, CR 7) and of a rolling card's (CR 9).
    pub cues: Hits,
    pub rolls: Hits,
    /// The numbers accepted so far.
    pub accepted: BTreeSet<(u8, u32)>,
    /// Those whose end was kept and is no longer, the last one and all.
    pub last_dropped: Option<(u8, u32)>,
    pub dropped: BTreeSet<(u8, u32)>,
    /// Of each connection: a later Init failed, or a further one was good, since.
    pub failed: [bool; 4],
    pub again: [bool; 4],
    /// All ends so far, and how many they were when each connection was last opened.
    pub ends: u64,
    pub opened: [u64; 4],
    /// The instants of this tick.
    pub instants: u64,
    /// Whether the last who could be was on air again.
    pub on_air_again: bool,
}

thread_local! {
    static NOW: RefCell<Option<Box<Watch>>> = const { RefCell::new(None) };
}

/// The watch of one splicer.
#[derive(Clone)]
pub struct Watcher(Option<Box<Watch>>);

impl Watcher {
    pub fn new() -> Watcher {
        Watcher(Some(Box::default()))
    }

    /// One that counts nothing.
    pub fn none() -> Watcher {
        Watcher(None)
    }

    /// Counts into this one while something is done.
    pub fn during<T>(&mut self, work: impl FnOnce() -> T) -> T {
        let before = NOW.replace(self.0.take());
        let given = work();
        self.0 = NOW.replace(before);
        given
    }

    /// What it has counted.
    pub fn seen(self) -> Watch {
        self.0.map_or_else(Watch::default, |watch| *watch)
    }
}

impl Watch {
    /// The kept end at this place of the list was there before its connection was last opened.
    pub fn reopened(&self, s: &Splicer, place: usize, ended: &Ended) -> bool {
        let number = self.ends - (s.ended.len() - place) as u64;
        number < self.opened[usize::from(ended.conn)]
    }
}

pub fn with(work: impl FnOnce(&mut Watch)) {
    NOW.with_borrow_mut(|now| {
        if let Some(watch) = now {
            work(watch);
        }
    });
}

pub fn ask<T: Default>(work: impl FnOnce(&Watch) -> T) -> T {
    NOW.with_borrow(|now| now.as_ref().map(|watch| work(watch)).unwrap_or_default())
}

pub fn hit(branch: &'static str) {
    with(|watch| watch.counts.hit(branch));
}

/// The branch of this row, of a list.
pub fn hit_of(names: &[&'static str], place: usize) {
    hit(names[place.min(names.len() - 1)]);
}

/// Counts a change of the value on air.
pub fn hit_mux(s: &Splicer, before: u8, by: &'static str) {
    if s.mux() != before {
        hit(by);
    }
}

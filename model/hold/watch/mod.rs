//! How often each branch of each rule was taken. Nothing of it is in the rules: here stand rules that look, count, and
//! then do what the right one does. A splicer by `SEEN` counts into the watch that is set while it is called.

mod cue;
pub mod floors;
mod instants;
mod messages;
mod notes;
mod reading;
mod rolling;
pub mod table;

pub use cue::FLOORS as CUE_FLOORS;
pub use notes::{Watch, Watcher};
pub use reading::judged as descriptors_judged;
pub use rolling::COUNTING;

use rules::calls;
use rules::right::RULES;
use rules::rolling::Rolling;
use rules::state::{Rules, Splicer};

/// The right rules, counted.
pub static SEEN: Rules = messages::seen(instants::seen(Rules { cue: cue::cue, ..RULES }));

/// The right rules with the counts of a rolling card's messages alone.
pub static SEEN_ROLLING: Rules = Rules { message_with: rolling::message_with, ..RULES };

/// A fresh splicer that is counted.
pub fn fresh(name: &[u8; 32]) -> (Splicer, Option<u8>) {
    let (splicer, refused) = calls::fresh(name, &SEEN);
    notes::hit(match refused {
        None => "fresh good",
        Some(_) => "fresh 9 name without a zero byte",
    });
    (splicer, refused)
}

/// A fresh rolling card that is counted.
pub fn fresh_rolling(name: &[u8; 32]) -> (Rolling, Option<u8>) {
    Rolling::fresh_by(name, &SEEN_ROLLING, &COUNTING)
}

/// A branch of the card program.
pub fn stopped(name: &'static str) {
    notes::hit(name);
}

#[cfg(test)]
mod tests {
    use crate::gen::{self, rolling_streams};
    use crate::hold::run;
    use crate::people::card;
    use rules::rolling::Rolling;

    #[test]
    fn whoever_counts_writes_what_the_right_rules_write() {
        for index in 0..14 {
            let input = gen::stream(40, index);
            let (seen, right) = (run::counted(&input).0, card::run(&input));
            assert_eq!(seen.output(), right.output(), "stream {index}");
            assert_eq!(seen.splicer.sessions, right.splicer.sessions, "stream {index}");
            assert_eq!(seen.splicer.rows(), right.splicer.rows(), "stream {index}");
        }
    }

    #[test]
    fn and_so_on_a_rolling_card() {
        let name = card::channel_name();
        let (mut seen, mut right) = (super::fresh_rolling(&name).0, Rolling::fresh(&name).0);
        for call in rolling_streams::stream(40, 3).calls {
            assert_eq!(seen.shown(&call), right.shown(&call), "{call:?}");
        }
    }

    #[test]
    fn nothing_is_counted_outside_a_watch() {
        let mut watcher = super::Watcher::new();
        let (mut splicer, _) = watcher.during(|| super::fresh(&card::channel_name()));
        assert_eq!(splicer.open(0), Ok(()));
        watcher.during(|| assert_eq!(splicer.open(0), Err(6)));
        let seen = watcher.seen();
        let of = |name: &str| seen.counts.of(name);
        assert_eq!([of("fresh good"), of("open good"), of("open 6 already open")], [1, 0, 1]);
    }
}

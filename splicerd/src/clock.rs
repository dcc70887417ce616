//! The splicer's clock: the system's, one of another begin and speed, or one that is moved by hand.

use crate::time::{self, LAST, SECOND};
use std::time::{Duration, Instant, SystemTime, UNIX_EPOCH};

#[derive(Clone, Copy, Debug, PartialEq, Eq)]
pub enum Kind {
    Utc,
    /// Its begin in microseconds, and its speed in millionths.
    From {
        micros: u64,
        speed: u64,
    },
    Manual,
}

impl Kind {
    /// utc, from=TIME[,speed=N] or manual.
    pub fn read(text: &str) -> Option<Kind> {
        match text {
            "utc" => return Some(Kind::Utc),
            "manual" => return Some(Kind::Manual),
            _ => {}
        }
        let text = text.strip_prefix("from=")?;
        let (from, speed) = text.split_once(",speed=").unwrap_or((text, "1"));
        let (micros, speed) = (time::read(from)?, time::decimal(speed)?);
        (1..=1_000_000 * SECOND).contains(&speed).then_some(Kind::From { micros, speed })
    }
}

/// What is to be said of a system clock that stepped back.
#[derive(Clone, Copy, Debug, PartialEq, Eq)]
pub enum Step {
    Held,
    CaughtUp,
}

pub struct Clock {
    kind: Kind,
    began: Instant,
    last: u64,
    held: bool,
}

/// The system's time.
pub fn system() -> u64 {
    let since = SystemTime::now().duration_since(UNIX_EPOCH).unwrap_or_default();
    u64::try_from(since.as_micros()).unwrap_or(LAST).min(LAST)
}

impl Clock {
    pub fn new(kind: Kind) -> Clock {
        Clock { kind, began: Instant::now(), last: 0, held: false }
    }

    pub fn kind(&self) -> Kind {
        self.kind
    }

    /// Whether it stands until a system clock that stepped back is caught up.
    pub fn held(&self) -> bool {
        self.held
    }

    /// The present time, never before an earlier one.
    pub fn now(&mut self) -> u64 {
        self.read().0
    }

    /// The same, and whether that is now held or no longer.
    pub fn read(&mut self) -> (u64, Option<Step>) {
        let is = match self.kind {
            Kind::Utc => system(),
            Kind::From { micros, speed } => ahead(micros, self.began.elapsed(), speed),
            Kind::Manual => self.last,
        };
        self.hear(is)
    }

    fn hear(&mut self, is: u64) -> (u64, Option<Step>) {
        let held = is < self.last;
        let step = match (self.held, held) {
            (false, true) => Some(Step::Held),
            (true, false) => Some(Step::CaughtUp),
            _ => None,
        };
        self.held = held;
        self.last = self.last.max(is);
        (self.last, step)
    }

    /// Moves a clock that is moved by hand: false if that is earlier, or if it is another clock.
    pub fn set(&mut self, to: u64) -> bool {
        let good = self.kind == Kind::Manual && to >= self.last;
        if good {
            self.last = to;
        }
        good
    }

    /// How long to sleep until that time is there; none of a clock that is moved by hand. Of the
    /// system's clock at most a second, as it can be set while it is waited for.
    pub fn wait(&self, until: u64) -> Option<Duration> {
        match self.kind {
            Kind::Utc => Some(Duration::from_micros(until.saturating_sub(system())).min(Duration::from_secs(1))),
            Kind::From { micros, speed } => {
                let now = ahead(micros, self.began.elapsed(), speed);
                let left = u128::from(until.saturating_sub(now)) * u128::from(SECOND);
                Some(Duration::from_micros(left.div_ceil(u128::from(speed)).min(u128::from(u32::MAX)) as u64))
            }
            Kind::Manual => None,
        }
    }
}

fn ahead(from: u64, elapsed: Duration, speed: u64) -> u64 {
    let gone = elapsed.as_micros() * u128::from(speed) / u128::from(SECOND);
    (u128::from(from) + gone).min(u128::from(LAST)) as u64
}

#[cfg(test)]
mod tests {
    use super::*;

    #[test]
    fn kinds() {
        assert_eq!(Kind::read("utc"), Some(Kind::Utc));
        assert_eq!(Kind::read("manual"), Some(Kind::Manual));
        assert_eq!(Kind::read("from=10,speed=60"), Some(Kind::From { micros: 10 * SECOND, speed: 60 * SECOND }));
        assert_eq!(Kind::read("from=10"), Some(Kind::From { micros: 10 * SECOND, speed: SECOND }));
        for bad in ["", "from=", "from=10,speed=0", "from=x,speed=1", "local", "from=10,speed=-1"] {
            assert_eq!(Kind::read(bad), None, "{bad}");
        }
    }

    #[test]
    fn a_step_back_holds_it() {
        let mut clock = Clock::new(Kind::Utc);
        assert_eq!(clock.hear(100), (100, None));
        assert_eq!(clock.hear(40), (100, Some(Step::Held)));
        assert_eq!(clock.hear(60), (100, None));
        assert!(clock.held());
        assert_eq!(clock.hear(101), (101, Some(Step::CaughtUp)));
        assert!(!clock.held());
    }

    #[test]
    fn by_hand_never_back() {
        let mut clock = Clock::new(Kind::Manual);
        assert!(clock.set(5));
        assert!(clock.set(5));
        assert!(!clock.set(4));
        assert_eq!(clock.now(), 5);
        assert_eq!(clock.wait(7), None);
        assert!(!Clock::new(Kind::Utc).set(LAST));
    }

    #[test]
    fn speed() {
        assert_eq!(ahead(7 * SECOND, Duration::from_secs(2), 60 * SECOND), 127 * SECOND);
        assert_eq!(ahead(0, Duration::from_secs(3), SECOND / 2), 1_500_000);
    }
}

//! A recording held to the rules, with the day as it was recorded and as the rules give it, and
//! what of it was asked for.

use crate::day::{Day, Row};
use crate::lines::{self, Told};
use crate::options::Options;
use crate::ruled::Held;
use crate::time::Clock;

pub struct View<'o> {
    pub held: Held,
    pub found: Day,
    pub ruled: Day,
    pub options: &'o Options,
    pub clock: Clock,
}

impl<'o> View<'o> {
    pub fn of(held: Held, options: &'o Options) -> View<'o> {
        let recording = &held.recording;
        let found = Day::of(recording, |n| recording.entry(n).found, options.middle);
        let ruled = Day::of(recording, |n| held.due(n), options.middle);
        View {
            found,
            ruled,
            held,
            options,
            clock: Clock { raw: options.raw },
        }
    }

    /// The channel's name: the recording's own, or the one that was given.
    pub fn name(&self) -> [u8; 32] {
        self.held.recording.name().unwrap_or(self.options.name)
    }

    pub fn good(&self) -> bool {
        self.held.broken.is_empty()
    }

    /// Whether an instant is known: before the first tick of a recording from the middle none is.
    pub fn knows(&self, at: u64) -> bool {
        !self.options.middle || Some(at) >= self.found.first
    }

    /// An instant in words, if it is known.
    pub fn time(&self, at: u64) -> Option<String> {
        self.knows(at).then(|| self.clock.text(at))
    }

    /// The clock behind a call, as recorded.
    pub fn clock_of(&self, call: usize) -> u64 {
        let recording = &self.held.recording;
        self.found
            .clock_of(call, recording, |n| recording.entry(n).found)
    }

    /// From the first tick to the last, or what was asked for of that.
    pub fn reach(&self) -> (u64, u64) {
        let first = self
            .found
            .first
            .unwrap_or(0)
            .max(self.options.from.unwrap_or(0));
        let last = self.found.clock.min(self.options.to.unwrap_or(u64::MAX));
        (first, last.max(first))
    }

    /// Whether a line at this instant is asked for.
    pub fn wants(&self, told: &Told, at: u64) -> bool {
        let o = self.options;
        let in_time = o.from.none_or(|from| at >= from) && o.to.none_or(|to| at < to);
        in_time
            && o.connection.none_or(|c| told.connection == Some(c))
            && o.session.none_or(|s| told.session == Some(s))
            && o.result.none_or(|r| told.result == Some(r))
    }

    /// Whether a request is asked for: by time, if it was asked, scheduled or on air then.
    pub fn wants_row(&self, row: &Row) -> bool {
        let o = self.options;
        let ends = [
            row.ended.map(|e| e.at),
            row.end.filter(|_| row.ended.is_none()),
        ];
        let last = ends.into_iter().flatten().fold(row.asked_at, u64::max);
        let first = row.asked_at.min(row.began.unwrap_or(row.asked_at));
        o.from.none_or(|from| last >= from)
            && o.to.none_or(|to| first < to)
            && o.connection.none_or(|c| row.conn == c)
            && o.session.none_or(|s| row.asked.session == Some(s))
            && o.result.none_or(|r| lines::result(row) == Some(r))
    }

    pub fn rows(&self) -> impl Iterator<Item = &Row> {
        self.found.rows.iter().filter(|row| self.wants_row(row))
    }

    /// One line: whether the rules were kept.
    pub fn verdict(&self) -> String {
        let (broken, calls) = (&self.held.broken, self.held.recording.count() - 1);
        let unheld = self.held.unheld;
        if unheld > calls {
            return format!("{calls} calls from the middle of a day, not held to the rules: what waited and was on air before is not known");
        }
        let Some(first) = broken.first() else {
            let all = format!("{calls} calls, every record as the rules give it");
            return match unheld {
                0 => all,
                _ => format!("{all} from call {unheld} on; before that what waited and was on air is not known"),
            };
        };
        let at = self.held.recording.call_place(*first);
        let many = if broken.len() == 1 {
            "call breaks"
        } else {
            "calls break"
        };
        let count = broken.len();
        format!("{calls} calls, {count} {many} the rules, first call {first} (byte {at})")
    }
}

/// `Option::is_none_or` is younger than the compilers that this is built by.
trait NoneOr<T> {
    fn none_or(self, test: impl FnOnce(T) -> bool) -> bool;
}

impl<T> NoneOr<T> for Option<T> {
    fn none_or(self, test: impl FnOnce(T) -> bool) -> bool {
        self.map_or(true, test)
    }
}

/// What our own card program could have made, and damaged recordings.
#[cfg(test)]
mod tests {
    use super::*;
    use crate::recording::Recording;
    use crate::{asrun, list, page, timeline};
    use model::check::{check, Finding};
    use model::{card, faults::Fault, gen};

    /// A generated stream of calls as a recording.
    fn recorded(index: u64, fault: Option<Fault>) -> (Vec<u8>, Vec<u8>, Vec<u8>) {
        let run = card::run(&gen::stream(29, index), fault);
        let input = run.calls.iter().map(|d| card::input_bytes(&d.call));
        let input: Vec<Vec<u8>> = input.collect();
        let both = input
            .iter()
            .zip(&run.calls)
            .flat_map(|(i, d)| [&i[..], &d.output].concat());
        (both.collect(), input.concat(), run.output())
    }

    fn held(bytes: &[u8]) -> Option<Held> {
        let mut name = [0; 32];
        name[..3].copy_from_slice(b"CH1");
        Some(Held::of(
            Recording::read("it", bytes.to_vec()).ok()?,
            &name,
            false,
        ))
    }

    /// "Every recording .. that our own card program could have made passes", and every
    /// PlayedDuration is the time on air; the sums have no gap.
    #[test]
    fn our_own_recordings_pass() {
        let options = Options::default();
        let mut ended = 0;
        for index in 0..26 {
            let view = View::of(held(&recorded(index, None).0).unwrap(), &options);
            assert_eq!(view.held.broken, [0; 0], "stream {index}");
            assert!(view.found.strays.is_empty());
            for row in &view.found.rows {
                ended += usize::from(row.ended.is_some());
                let said = lines::outcome(row);
                let odd = ["PlayedDuration", "WITHOUT", "RECORDED", "further"];
                assert!(
                    odd.iter().all(|w| !said.contains(w)),
                    "stream {index}: {said}: {row:?}"
                );
            }
            let sums = asrun::sums(&view);
            assert_eq!(sums.primary + sums.sessions, sums.clock);
        }
        assert!(ended > 1_000, "{ended}");
    }

    /// "A cut last record is dropped, and the last call before it then needs only the beginning of
    /// its due records."
    #[test]
    fn every_beginning_passes() {
        let bytes = include_bytes!("../recordings/example-day.rec");
        for to in (10..bytes.len()).step_by(7) {
            let held = held(&bytes[..to]).unwrap();
            let whole = held.recording.cut.is_none();
            // Cut between two records nothing is dropped, and the rest is due.
            let last = held.recording.count() - 1;
            assert!(
                held.broken.is_empty() || whole && held.broken == [last],
                "{to}"
            );
        }
    }

    /// With further marks the first break is what the second program's referee finds, and a byte that
    /// is no mark is where it stops.
    #[test]
    fn the_first_break_is_the_referees() {
        use model::referee::{judge::refereed, Kind, Marks};
        let (mut calls, mut good, mut unread) = (0, 0, 0);
        let streams =
            (0..40).flat_map(|index| model::gen::broken::of_stream(29, index, Marks::Further));
        for (way, bytes, _) in streams {
            let Some(held) = held(&bytes).filter(|held| held.recording.further) else {
                continue;
            };
            let verdict = refereed(&bytes, &model::card::channel_name(), Marks::Further);
            let first = held.broken.first().map(|call| *call as u64);
            match verdict.kind {
                Kind::Call => assert_eq!(first, Some(verdict.number), "{way}"),
                _ => assert_eq!(first, None, "{way}: {verdict:?}"),
            }
            if let Some(call) = held.broken.first() {
                let at = held.recording.call_place(*call);
                assert_eq!(at as u64, verdict.place, "{way}");
                calls += 1;
            }
            good += usize::from(first.is_none());
            unread += usize::from(verdict.kind == Kind::Unknown && held.recording.unread);
        }
        assert!(
            calls > 200 && good > 200 && unread > 50,
            "{calls} {good} {unread}"
        );
    }

    /// The first break is what the second program's checker finds.
    #[test]
    fn the_first_break_is_the_finding() {
        let (mut broken, mut good) = (0, 0);
        for made in (1..4).flat_map(|index| model::recorded_streams::of_stream(29, index)) {
            let Some(held) = held(&made.bytes).filter(|held| !held.recording.unread) else {
                continue;
            };
            let found = match held.broken.first() {
                Some(call) => Finding::Call(*call),
                None => Finding::None,
            };
            assert_eq!(found, check(&made.bytes), "{}", made.kind);
            broken += usize::from(!held.broken.is_empty());
            good += usize::from(held.broken.is_empty());
        }
        assert!(broken > 30 && good > 10, "{broken} broken, {good} good");
    }

    /// A deliberate fault is noticed, and the records of the two files find their calls.
    #[test]
    fn faults_are_noticed_in_both_forms() {
        let faults = [
            "only-direct-follower",
            "covered-end-100",
            "one-pool",
            "evicted-after-answer",
        ];
        for name in faults {
            let fault = Fault::named(name).unwrap_or_else(|| panic!("{name}"));
            let mut broken = 0;
            for index in 0..12 {
                let (bytes, input, output) = recorded(index, Some(fault));
                let one = held(&bytes).unwrap();
                let two = Recording::of_card(("in", &input), ("out", &output), &one_name());
                let two = Held::of(two.unwrap(), &one_name(), false);
                assert_eq!(two.broken.is_empty(), one.broken.is_empty());
                assert_eq!(two.broken.first(), one.broken.first(), "{name} {index}");
                let found =
                    |h: &Held| -> usize { h.recording.entries().map(|e| e.found.len()).sum() };
                assert_eq!(found(&two), found(&one), "every record has its call");
                broken += one.broken.len();
            }
            assert!(broken > 0, "{name}");
        }
    }

    fn one_name() -> [u8; 32] {
        let mut name = [0; 32];
        name[..3].copy_from_slice(b"CH1");
        name
    }

    /// Whatever a file holds, it is read or refused.
    #[test]
    fn damaged_recordings_are_read_or_refused() {
        let (bytes, ..) = recorded(3, None);
        let options = Options::default();
        let (mut seed, mut read) = (7u64, 0);
        for _ in 0..100 {
            let mut bad = bytes[..bytes.len().min(6_000)].to_vec();
            for _ in 0..3 {
                seed = seed.wrapping_mul(6_364_136_223_846_793_005).wrapping_add(1);
                let place = (seed >> 33) as usize % bad.len();
                bad[place] = (seed >> 25) as u8;
            }
            if let Some(held) = held(&bad) {
                let view = View::of(held, &options);
                let mut listed = Vec::new();
                list::text(&view, false, &mut listed).unwrap();
                let told = [
                    String::from_utf8(listed).unwrap(),
                    asrun::text(&view),
                    timeline::bars(&view, &timeline::DIGITS),
                    page::page(&view),
                ];
                assert!(told.iter().all(|text| !text.is_empty()));
                read += 1;
            }
        }
        assert!(read > 5, "{read}");
    }
}

//! `desk timeline` in the terminal: the day as bars.

use crate::day::{Row, Span, State};
use crate::lines;
use crate::time::SECOND;
use crate::view::View;

/// How the shares of a column are drawn: from the smallest up.
pub struct Marks(&'static [char]);

pub const BLOCKS: Marks = Marks(&['▁', '▂', '▃', '▄', '▅', '▆', '▇', '█']);
pub const DIGITS: Marks = Marks(&['1', '2', '3', '4', '5', '6', '7', '8', '9']);

impl Marks {
    /// By the first of these variables that is set, as the C library takes them.
    pub fn of_locale() -> &'static Marks {
        let set = |name: &&str| std::env::var(name).ok().filter(|value| !value.is_empty());
        let locale = ["LC_ALL", "LC_CTYPE", "LANG"].iter().find_map(set);
        let locale = locale.unwrap_or_default().to_lowercase();
        match locale.contains("utf-8") || locale.contains("utf8") {
            true => &BLOCKS,
            false => &DIGITS,
        }
    }

    /// The mark of a share, rounded up: something is shown of the shortest.
    fn of(&self, part: u128, whole: u128) -> Option<char> {
        let steps = (part * self.0.len() as u128).div_ceil(whole.max(1)) as usize;
        self.0.get(steps.min(self.0.len()).checked_sub(1)?).copied()
    }
}

pub fn bars(view: &View, marks: &Marks) -> String {
    let (from, to) = view.reach();
    let width = view.options.width.unwrap_or(72);
    let scale = Scale { from, to, width };
    let each = (to - from) as f64 / SECOND as f64 / width as f64;
    let mut text = format!("{} to {}\n", view.clock.text(from), view.clock.text(to));
    let (least, most) = (marks.0[0], marks.0[marks.0.len() - 1]);
    let words = "- covered, . waiting, _ primary channel, x refused, ! rules broken";
    text += &format!("a column is {each:.3} s; {least} to {most} its share on air, {words}\n");
    let mut output = scale.empty('_');
    let air = view.found.output(from, to).into_iter();
    let air = air.filter_map(|(span, row)| row.map(|_| span));
    scale.share(&mut output, air, marks);
    text += &format!("{:>16} {}\n", "output", output.iter().collect::<String>());
    for row in view.rows() {
        text += &bar(view, &scale, row, marks);
    }
    if !view.good() {
        let mut lane = scale.empty(' ');
        for call in &view.held.broken {
            let at = view.clock_of(*call);
            scale.fill(&mut lane, at, at + 1, '!');
        }
        let lane: String = lane.iter().collect();
        text += &format!("{:>16} {lane}\n", "rules broken");
    }
    text + &view.verdict() + "\n"
}

/// A request's line.
fn bar(view: &View, scale: &Scale, row: &Row, marks: &Marks) -> String {
    let mut bar = scale.empty(' ');
    for (state, mark) in [(State::Waiting, '.'), (State::Covered, '-')] {
        for span in row.spans.iter().filter(|s| s.state == state) {
            scale.fill(&mut bar, span.from, span.to, mark);
        }
    }
    let air = row.spans.iter().filter(|s| s.state == State::OnAir);
    scale.share(&mut bar, air.copied(), marks);
    if !row.accepted() {
        scale.fill(&mut bar, row.asked_at, row.asked_at + 1, 'x');
    }
    let session = row.asked.session.map_or("-".to_string(), |s| s.to_string());
    let broken = lines::other(row, &view.ruled).map_or(" ", |_| "!");
    let bar: String = bar.iter().collect();
    let outcome = lines::outcome(row);
    format!("{broken} {:>3} {session:>10} {bar} {outcome}\n", row.conn)
}

/// Columns for instants.
struct Scale {
    from: u64,
    to: u64,
    width: usize,
}

impl Scale {
    fn empty(&self, mark: char) -> Vec<char> {
        vec![mark; self.width]
    }

    fn length(&self) -> u128 {
        u128::from((self.to - self.from).max(1))
    }

    /// Fills the columns that the time touches; a time within the reach touches at least one.
    fn fill(&self, bar: &mut [char], from: u64, to: u64, mark: char) {
        let column = |at: u64| (self.place(at) / self.length()) as usize;
        if to < self.from || from > self.to {
            return;
        }
        let first = column(from).min(self.width - 1);
        let last = column(to.saturating_sub(1)).clamp(first, self.width - 1);
        bar[first..=last].fill(mark);
    }

    /// An instant in parts of a column, of which each column has as many as the reach has ninths.
    fn place(&self, at: u64) -> u128 {
        u128::from(at.clamp(self.from, self.to) - self.from) * self.width as u128
    }

    /// Marks the columns by the share that these times have of each.
    fn share(&self, bar: &mut [char], spans: impl Iterator<Item = Span>, marks: &Marks) {
        let length = self.length();
        let mut parts = vec![0u128; self.width];
        for span in spans {
            let (from, to) = (self.place(span.from), self.place(span.to));
            let last = (to / length).min(self.width as u128 - 1);
            for column in from / length..=last {
                let begins = column * length;
                let own = to.min(begins + length).saturating_sub(from.max(begins));
                parts[column as usize] += own;
            }
        }
        for (mark, part) in bar.iter_mut().zip(parts) {
            *mark = marks.of(part, length).unwrap_or(*mark);
        }
    }
}

#[cfg(test)]
mod tests {
    use super::*;

    /// 60 s of each of 2 minutes, 1 s of the third, all of the fourth.
    #[test]
    fn shares_of_columns() {
        let span = |from: u64, to: u64| Span {
            state: State::OnAir,
            from: from * SECOND,
            to: to * SECOND,
        };
        let scale = Scale {
            from: 0,
            to: 480 * SECOND,
            width: 4,
        };
        let drawn = |marks: &Marks| {
            let mut bar = scale.empty('_');
            let spans = [span(30, 90), span(120, 140), span(200, 240), span(359, 480)];
            scale.share(&mut bar, spans.into_iter(), marks);
            bar.iter().collect::<String>()
        };
        // 60/120, 60/120, 1/120, 120/120 in eighths and in ninths, rounded up
        assert_eq!(drawn(&BLOCKS), "▄▄▁█");
        assert_eq!(drawn(&DIGITS), "5519");
    }
}

//! Two lists of records side by side: as many as can be are the same, in order.

/// A step through records due and found.
#[derive(Clone, Copy, Debug, PartialEq, Eq)]
pub enum Step {
    Same { due: usize, found: usize },
    Missing { due: usize },
    Extra { found: usize },
}

impl Step {
    /// The record that was found.
    pub fn found(&self) -> Option<usize> {
        match self {
            Step::Same { found, .. } | Step::Extra { found } => Some(*found),
            Step::Missing { .. } => None,
        }
    }

    /// The due record, if it was found.
    pub fn same(&self) -> Option<usize> {
        match self {
            Step::Same { due, .. } => Some(*due),
            _ => None,
        }
    }
}

/// Records due and found side by side, by their bytes.
pub fn aside<T: AsRef<[u8]>>(due: &[T], found: &[T]) -> Vec<Step> {
    const WINDOW: usize = 2_000;
    let (mut d, mut f, mut steps) = (0, 0, Vec::new());
    while d < due.len() || f < found.len() {
        let (to_d, to_f) = ((d + WINDOW).min(due.len()), (f + WINDOW).min(found.len()));
        let last = (to_d, to_f) == (due.len(), found.len());
        let (from_d, from_f) = (d, f);
        for step in window(&due[d..to_d], &found[f..to_f]) {
            // of a window that is not the last, only the first half is sure
            if !last && (d - from_d).max(f - from_f) > WINDOW / 2 {
                break;
            }
            steps.push(match step {
                Step::Same { .. } => Step::Same { due: d, found: f },
                Step::Missing { .. } => Step::Missing { due: d },
                Step::Extra { .. } => Step::Extra { found: f },
            });
            d += usize::from(!matches!(step, Step::Extra { .. }));
            f += usize::from(!matches!(step, Step::Missing { .. }));
        }
    }
    steps
}

/// The same of lists that are not too long for a table of all pairs.
fn window<T: AsRef<[u8]>>(due: &[T], found: &[T]) -> Vec<Step> {
    let same = |d: usize, f: usize| due[d].as_ref() == found[f].as_ref();
    let (n, m) = (due.len(), found.len());
    // most[d][f]: the most that can be the same of what is left from d and f on
    let mut most = vec![vec![0u16; m + 1]; n + 1];
    for d in (0..n).rev() {
        for f in (0..m).rev() {
            most[d][f] = match same(d, f) {
                true => most[d + 1][f + 1] + 1,
                false => most[d + 1][f].max(most[d][f + 1]),
            };
        }
    }
    let (mut d, mut f, mut steps) = (0, 0, Vec::new());
    while d < n || f < m {
        let step = if d < n && f < m && same(d, f) {
            Step::Same { due: d, found: f }
        } else if f == m || d < n && most[d + 1][f] >= most[d][f + 1] {
            Step::Missing { due: d }
        } else {
            Step::Extra { found: f }
        };
        d += usize::from(!matches!(step, Step::Extra { .. }));
        f += usize::from(!matches!(step, Step::Missing { .. }));
        steps.push(step);
    }
    steps
}

#[cfg(test)]
mod tests {
    use super::*;

    #[test]
    fn records_side_by_side() {
        let list = |bytes: &[u8]| -> Vec<[u8; 1]> { bytes.iter().map(|b| [*b]).collect() };
        let steps = |due: &[u8], found: &[u8]| -> String {
            let letter = |step: &Step| match step {
                Step::Same { .. } => '=',
                Step::Missing { .. } => '-',
                Step::Extra { .. } => '+',
            };
            aside(&list(due), &list(found)).iter().map(letter).collect()
        };
        assert_eq!(steps(&[1, 2, 3], &[1, 2, 3]), "===");
        assert_eq!(steps(&[1, 2, 3], &[1, 4, 3]), "=-+=");
        assert_eq!(steps(&[], &[1, 2]), "++");
        assert_eq!(steps(&[1, 2], &[]), "--");
        assert_eq!(steps(&[1, 2, 3], &[2, 3, 1]), "-==+");
        // longer than a window
        let many: Vec<u8> = (0..9_000u32).map(|i| (i * i / 7) as u8).collect();
        let mut other = many.clone();
        other.remove(3_500);
        other[8_000] ^= 1;
        let marks = steps(&many, &other);
        let count = |mark: char| marks.chars().filter(|c| *c == mark).count();
        assert_eq!((count('='), count('-'), count('+')), (8_998, 2, 1));
    }
}

//! 02, CR 13, by intervals: a stretch of time cut at every start and end, and whose each piece was.

/// A session that is started and unended in some of the stretch.
#[derive(Clone, Debug)]
pub struct Live {
    pub conn: u8,
    pub id: u32,
    pub access: u8,
    pub from: u64,
    /// When it was over, if its end was written.
    pub to: Option<u64>,
    /// Its time on air, in ninths: before the stretch, and then with it.
    pub aired: u64,
    /// PlayedDuration of its end.
    pub said: Option<u32>,
}

/// Gives each piece of the time from one clock to another to the one with the highest AccessType of those
/// started and unended, or to the primary channel, whose part it tells.
pub fn share(from: u64, to: u64, list: &mut [Live]) -> u64 {
    let mut cuts = vec![from, to];
    for live in list.iter() {
        cuts.push(live.from.clamp(from, to));
        cuts.push(live.to.unwrap_or(to).clamp(from, to));
    }
    cuts.sort();
    let mut primary = 0;
    for piece in cuts.windows(2) {
        let (begin, length) = (piece[0], piece[1] - piece[0]);
        let there = |live: &&mut Live| live.from <= begin && live.to.is_none_or(|to| begin < to);
        match list.iter_mut().filter(there).max_by_key(|live| live.access) {
            Some(live) => live.aired += length,
            None => primary += length,
        }
    }
    primary
}

#[cfg(test)]
mod tests {
    use super::*;

    #[test]
    fn pieces_by_hand() {
        let live = |access, from, to| Live { conn: 0, id: 0, access, from, to, aired: 100, said: None };
        let mut list = [live(1, 10, Some(40)), live(5, 20, Some(30)), live(3, 45, None)];
        // 10 to 20 and 30 to 40; 20 to 30; 45 to 50; the rest is the primary channel's
        assert_eq!(share(5, 50, &mut list), 5 + 5);
        assert_eq!(list.map(|l| l.aired), [120, 110, 105]);
        assert_eq!(share(7, 7, &mut []), 0);
    }
}

//! Recordings of whole drivers damaged, each in one way, with the verdict where the damage alone gives it.

use crate::gen::draw::Rng;
use crate::gen::whole_drivers::{bytes_of, calls, config, of_card, recorded, section, Turn};
use crate::referee::{is_call, Card, Kind, Marks, Player, Verdict};

/// A recording, and its verdict if that is known.
pub type Broken = Option<(Vec<u8>, Option<Verdict>)>;
pub type Way = fn(&mut Rng, &[Turn]) -> Broken;

/// Each way, whether it needs further marks, its floor for 60 streams, and how it is done.
pub const WAYS: &[(&str, bool, u64, Way)] = &[
    ("whole", false, 60, whole),
    ("cut in an entry", false, 50, cut),
    ("cut between a call and its records", false, 40, cut_between),
    ("a byte changed", false, 60, byte_changed),
    ("a record dropped", false, 40, dropped),
    ("a record doubled", false, 40, doubled),
    ("a record's byte changed", false, 40, record_changed),
    ("a wrong record, cut", false, 40, wrong_cut),
    ("a record before any call", false, 40, before_any),
    ("entries exchanged", false, 50, exchanged),
    ("marks exchanged", false, 50, marks_exchanged),
    ("an entry dropped", false, 50, entry_dropped),
    ("an unknown mark", false, 50, unknown),
    ("an unknown mark where records are due", false, 40, unknown_due),
    ("two damages", false, 40, twice),
    ("a length above the most", true, 20, too_long),
    ("a name that is not first", true, 40, late_name),
    ("a lent section that is neither", true, 20, neither),
    ("the other card's mark", true, 40, other_card),
    ("a section before the records", true, 20, section_between),
    ("a record behind a section", true, 20, behind_section),
    ("a section lent to the call before", true, 20, lent_before),
    ("a section moved", true, 15, section_moved),
    ("a section added", true, 40, section_added),
    ("cut in the head of a further mark", true, 20, cut_head),
    ("drawn entries", true, 40, drawn),
];

fn verdict(kind: Kind, number: u64, place: usize, good: u64) -> Option<Verdict> {
    Some(Verdict { kind, number, place: place as u64, good })
}

/// The call of this turn is wrong, or the last before it if it is none.
fn wrong(turns: &[Turn], at: usize) -> Option<Verdict> {
    match (0..=at).rev().find(|at| is_call(turns[*at].entry[0])) {
        None => verdict(Kind::Call, 0, 0, 0),
        Some(at) => {
            let number = calls(&turns[..=at]);
            verdict(Kind::Call, number, bytes_of(&turns[..at]).len(), number - 1)
        }
    }
}

/// No call is wrong, and at this place it ends.
fn ended(kind: Kind, turns: &[Turn], place: usize) -> Option<Verdict> {
    let number = calls(turns);
    verdict(kind, number, place, number)
}

fn place(rng: &mut Rng, turns: &[Turn], fits: impl Fn(&Turn) -> bool) -> Option<usize> {
    let list: Vec<usize> = (0..turns.len()).filter(|at| fits(&turns[*at])).collect();
    (!list.is_empty()).then(|| rng.pick(&list))
}

fn answered(turn: &Turn) -> bool {
    !turn.records.is_empty()
}

/// A turn with records, and one of them.
fn some_record(rng: &mut Rng, turns: &[Turn]) -> Option<(usize, usize)> {
    let at = place(rng, turns, answered)?;
    Some((at, rng.below(turns[at].records.len() as u64) as usize))
}

pub fn whole(_: &mut Rng, turns: &[Turn]) -> Broken {
    let bytes = bytes_of(turns);
    let known = ended(Kind::InOrder, turns, bytes.len());
    Some((bytes, known))
}

fn cut(rng: &mut Rng, turns: &[Turn]) -> Broken {
    let at = rng.below(turns.len() as u64) as usize;
    let all: Vec<&Vec<u8>> = std::iter::once(&turns[at].entry).chain(&turns[at].records).collect();
    let which = rng.below(all.len() as u64) as usize;
    let mut bytes = bytes_of(&turns[..at]);
    all[..which].iter().for_each(|entry| bytes.extend(*entry));
    let place = bytes.len();
    bytes.extend(&all[which][..rng.between(1, all[which].len() as u64 - 1) as usize]);
    let before = if which == 0 { &turns[..at] } else { &turns[..=at] };
    Some((bytes, ended(Kind::Cut, before, place)))
}

fn cut_between(rng: &mut Rng, turns: &[Turn]) -> Broken {
    let (at, which) = some_record(rng, turns)?;
    let mut kept = turns[..=at].to_vec();
    kept[at].records.truncate(which);
    Some((bytes_of(&kept), wrong(turns, at)))
}

fn byte_changed(rng: &mut Rng, turns: &[Turn]) -> Broken {
    let mut bytes = bytes_of(turns);
    let at = rng.below(bytes.len() as u64) as usize;
    bytes[at] ^= rng.pick(&[1, 2, 4, 8, 16, 32, 64, 128, rng.between(1, 255) as u8]);
    Some((bytes, None))
}

fn dropped(rng: &mut Rng, turns: &[Turn]) -> Broken {
    let (at, which) = some_record(rng, turns)?;
    let mut turns = turns.to_vec();
    turns[at].records.remove(which);
    Some((bytes_of(&turns), wrong(&turns, at)))
}

fn doubled(rng: &mut Rng, turns: &[Turn]) -> Broken {
    let (at, which) = some_record(rng, turns)?;
    let mut turns = turns.to_vec();
    let record = turns[at].records[which].clone();
    turns[at].records.insert(which, record);
    Some((bytes_of(&turns), wrong(&turns, at)))
}

/// A byte of a record that its length does not hang on.
fn record_changed(rng: &mut Rng, turns: &[Turn]) -> Broken {
    let (at, which) = some_record(rng, turns)?;
    let mut turns = turns.to_vec();
    let record = &mut turns[at].records[which];
    let byte = rng.between(1, record.len() as u64 - 1) as usize;
    let byte = if (4..6).contains(&byte) { 1 } else { byte };
    record[byte] ^= rng.between(1, 255) as u8;
    Some((bytes_of(&turns), wrong(&turns, at)))
}

/// "A cut last record is dropped": what is wrong in it too.
fn wrong_cut(rng: &mut Rng, turns: &[Turn]) -> Broken {
    let (at, which) = some_record(rng, turns)?;
    let mut kept = turns[..=at].to_vec();
    kept[at].records.truncate(which);
    let mut bytes = bytes_of(&kept);
    let place = bytes.len();
    bytes.extend(rng.pick(&[vec![0x52, 0xFF, 0, 0], vec![0x45], vec![0x52, 7, 0, 8, 0, 4, 0, 9, 0xFF, 0xFF, 0]]));
    Some((bytes, ended(Kind::Cut, &turns[..=at], place)))
}

/// Behind the name, if there is one.
fn before_any(rng: &mut Rng, turns: &[Turn]) -> Broken {
    let first = usize::from(turns[0].entry[0] == 0x4E);
    let record = rng.pick(&[vec![0x45, 7], vec![0x52, 0, 0, 0, 0, 0, 0, 103, 255, 255]]);
    let bytes = [bytes_of(&turns[..first]), record, bytes_of(&turns[first..])].concat();
    Some((bytes, verdict(Kind::Call, 0, 0, 0)))
}

/// All entries, records too.
fn all(turns: &[Turn]) -> Vec<Vec<u8>> {
    let each = |turn: &Turn| std::iter::once(turn.entry.clone()).chain(turn.records.clone()).collect::<Vec<_>>();
    turns.iter().flat_map(each).collect()
}

fn exchanged(rng: &mut Rng, turns: &[Turn]) -> Broken {
    let mut list = all(turns);
    let at = rng.below(list.len() as u64) as usize;
    let other = rng.pick(&[at + 1, at + 1, at + 2, rng.below(list.len() as u64) as usize]) % list.len();
    list.swap(at, other);
    Some((list.concat(), None))
}

fn marks_exchanged(rng: &mut Rng, turns: &[Turn]) -> Broken {
    let mut list = all(turns);
    let (at, other) = (rng.below(list.len() as u64) as usize, rng.below(list.len() as u64) as usize);
    let mark = list[at][0];
    list[at][0] = list[other][0];
    list[other][0] = mark;
    Some((list.concat(), None))
}

fn entry_dropped(rng: &mut Rng, turns: &[Turn]) -> Broken {
    let mut list = all(turns);
    list.remove(rng.below(list.len() as u64) as usize);
    Some((list.concat(), None))
}

/// A byte that no recording has as a mark.
fn no_mark(rng: &mut Rng) -> u8 {
    loop {
        let byte = rng.pick(&[0x00, 0x42, 0x44, 0x46, 0x48, 0x4A, 0x4B, 0x50, 0x53, 0x55, 0x56, 0x58, 0xFF, rng.next() as u8]);
        if !b"OCMTERNLQIW".contains(&byte) {
            return byte;
        }
    }
}

fn unknown(rng: &mut Rng, turns: &[Turn]) -> Broken {
    let at = rng.below(turns.len() as u64 + 1) as usize;
    let place = bytes_of(&turns[..at]).len();
    let mut bytes = bytes_of(turns);
    bytes.insert(place, no_mark(rng));
    Some((bytes, ended(Kind::Unknown, &turns[..at], place)))
}

fn unknown_due(rng: &mut Rng, turns: &[Turn]) -> Broken {
    let (at, which) = some_record(rng, turns)?;
    let mut kept = turns.to_vec();
    kept[at].records.truncate(which);
    let mut bytes = bytes_of(&kept[..=at]);
    bytes.push(no_mark(rng));
    Some(([bytes, bytes_of(&turns[at + 1..])].concat(), wrong(turns, at)))
}

fn twice(rng: &mut Rng, turns: &[Turn]) -> Broken {
    let half = turns.len().div_ceil(2);
    let ways: [Way; 4] = [byte_changed, exchanged, entry_dropped, doubled];
    let (one, other) = (rng.pick(&ways), rng.pick(&ways));
    let bytes = [one(rng, &turns[..half])?.0, other(rng, &turns[half..]).map_or(Vec::new(), |broken| broken.0)].concat();
    Some((bytes, None))
}

/// "A length above 1,025 (0x4C) or 513 (0x51) makes the mark an unknown one"
fn too_long(rng: &mut Rng, turns: &[Turn]) -> Broken {
    let at = place(rng, turns, |turn| matches!(turn.entry[0], 0x4C | 0x51))?;
    let mut turns = turns.to_vec();
    let most: u16 = if turns[at].entry[0] == 0x4C { 1_025 } else { 513 };
    let length: u16 = rng.pick(&[most + 1, most + 1, most + 256, 0x8000, 0xFFFF]);
    turns[at].entry[2..4].copy_from_slice(&length.to_be_bytes());
    Some((bytes_of(&turns), ended(Kind::Unknown, &turns[..at], bytes_of(&turns[..at]).len())))
}

fn late_name(rng: &mut Rng, turns: &[Turn]) -> Broken {
    let at = rng.between(1, turns.len() as u64) as usize;
    let name = [&[0x4E, 0][..], b"CH1", &[0; 29]].concat();
    let before = bytes_of(&turns[..at]);
    let known = ended(Kind::Unknown, &turns[..at], before.len());
    Some(([before, name, bytes_of(&turns[at..])].concat(), known))
}

fn neither(rng: &mut Rng, turns: &[Turn]) -> Broken {
    let at = place(rng, turns, |turn| turn.entry[0] == 0x4C)?;
    let mut turns = turns.to_vec();
    turns[at].entry[1] = rng.between(2, 255) as u8;
    Some((bytes_of(&turns), ended(Kind::Unknown, &turns[..at], bytes_of(&turns[..at]).len())))
}

fn other_card(rng: &mut Rng, turns: &[Turn]) -> Broken {
    let decides = turns.iter().position(|turn| Card::of(turn.entry[0]).is_some())?;
    let own = Card::of(turns[decides].entry[0])?;
    let other = if own == Card::Utc { Card::Rolling } else { Card::Utc };
    let at = rng.between(decides as u64 + 1, turns.len() as u64) as usize;
    let before = bytes_of(&turns[..at]);
    let known = ended(Kind::Unknown, &turns[..at], before.len());
    Some(([before, of_card(rng, other), bytes_of(&turns[at..])].concat(), known))
}

/// A section behind a call whose records stand behind it.
fn section_between(rng: &mut Rng, turns: &[Turn]) -> Broken {
    let (at, which) = some_record(rng, turns)?;
    let mut kept = turns[..=at].to_vec();
    kept[at].records.truncate(which);
    let rest = turns[at].records[which..].concat();
    let bytes = [bytes_of(&kept), section(rng), rest, bytes_of(&turns[at + 1..])].concat();
    Some((bytes, wrong(turns, at)))
}

/// "a record behind it is that call's"
fn behind_section(rng: &mut Rng, turns: &[Turn]) -> Broken {
    let at = place(rng, turns, |turn| turn.entry[0] == 0x4C)?;
    let mut turns = turns.to_vec();
    turns[at].records.push(rng.pick(&[vec![0x45, 10], vec![0x52, 0, 0, 0, 0, 0, 0, 103, 255, 255]]));
    Some((bytes_of(&turns), wrong(&turns, at)))
}

/// A request for the configuration whose answer has the section that stands before it but behind the request.
fn lent_before(rng: &mut Rng, turns: &[Turn]) -> Broken {
    let at = rng.below(turns.len() as u64 + 1) as usize;
    let before: Vec<Vec<u8>> = turns[..at].iter().map(|turn| turn.entry.clone()).collect();
    let lent = [0x4C, rng.below(2) as u8, 0, 3, rng.next() as u8, 2, 3].to_vec();
    (0..4).find_map(|conn| {
        let mut call = config(rng);
        call[1] = conn;
        let mut made = recorded(&[&before[..], &[call.clone()]].concat());
        let late = recorded(&[&before[..], &[lent.clone(), call]].concat()).pop()?.records;
        if made[at].records == late {
            return None;
        }
        made[at].records.clear();
        made.push(Turn { entry: lent.clone(), records: late });
        Some((bytes_of(&made), wrong(&made, at)))
    })
}

fn section_moved(rng: &mut Rng, turns: &[Turn]) -> Broken {
    let at = place(rng, turns, |turn| turn.entry[0] == 0x4C)?;
    let mut turns = turns.to_vec();
    let moved = turns.remove(at);
    let near = rng.pick(&[at.saturating_sub(1), at + 1, at + 2]).min(turns.len());
    turns.insert(near, moved);
    Some((bytes_of(&turns), None))
}

fn section_added(rng: &mut Rng, turns: &[Turn]) -> Broken {
    let at = rng.below(turns.len() as u64 + 1) as usize;
    let bytes = [bytes_of(&turns[..at]), section(rng), bytes_of(&turns[at..])].concat();
    Some((bytes, None))
}

fn cut_head(rng: &mut Rng, turns: &[Turn]) -> Broken {
    let at = place(rng, turns, |turn| matches!(turn.entry[0], 0x4C | 0x51 | 0x49 | 0x57 | 0x4E))?;
    let mut bytes = bytes_of(&turns[..at]);
    let place = bytes.len();
    bytes.extend(&turns[at].entry[..rng.between(1, 3) as usize]);
    Some((bytes, ended(Kind::Cut, &turns[..at], place)))
}

/// Entries of drawn marks and fields, each followed by what is due of it, or not.
fn drawn(rng: &mut Rng, _: &[Turn]) -> Broken {
    let (mut bytes, mut player) = (Vec::new(), Player::fresh(&crate::people::card::channel_name()));
    for _ in 0..rng.between(1, 30) {
        let mark = rng.pick(b"OOCTIWLLLQNMRE");
        let entry = match mark {
            b'O' | b'C' | b'E' => vec![mark, rng.below(5) as u8],
            b'T' => vec![mark, 0, 0, 0, 0, rng.below(9) as u8, 0, 0, 0, 0],
            b'I' => vec![mark, 0, 0, 0, 0, rng.below(9) as u8, 0, 0, 0, 0, 0, 0, 0, 0],
            b'W' => vec![mark, 0, 0, 0, 0, rng.below(9) as u8],
            b'L' => [vec![mark, rng.below(2) as u8 + u8::from(rng.chance(3)), 0, 2], vec![7, rng.next() as u8]].concat(),
            b'Q' => [&[mark, 0, 0, 1, 0xFC][..], &[0; 16]].concat(),
            b'N' => [&[mark, 0][..], &[rng.below(2) as u8; 32]].concat(),
            _ => vec![mark, rng.below(4) as u8, 0, rng.pick(&[10, 5, 1]), 0, 0, 0, 100, 0xFF, 0xFF],
        };
        bytes.extend(&entry);
        let other = Card::of(mark).is_some_and(|own| player.card.is_some_and(|card| card != own));
        let made = !b"RE".contains(&mark) && (mark != b'L' || entry[1] < 2) && !other;
        if made && rng.chance(95) {
            bytes.extend(player.make(&entry));
        }
    }
    Some((bytes, None))
}

/// Every recording of a stream with the name of its way.
pub fn of_stream(seed: u64, index: u64, marks: Marks) -> Vec<(&'static str, Vec<u8>, Option<Verdict>)> {
    let turns = recorded(&super::whole_drivers::entries(seed, index, marks));
    let mut rng = super::whole_drivers::rng_of(seed ^ 0xB0, index);
    let mut list = Vec::new();
    for (name, further, _, way) in WAYS {
        if *further && marks == Marks::Plain {
            continue;
        }
        if let Some((bytes, known)) = way(&mut rng, &turns) {
            list.push((*name, bytes, known));
        }
    }
    list
}

//! The command `refereed`: recordings of whole drivers, whole and damaged, judged in one piece and in pieces of any cut, and held to what
//! the damage alone says; and each mistake of a referee.

use crate::gen::broken::{of_stream, WAYS};
use crate::gen::draw::Rng;
use crate::gen::whole_drivers::rng_of;
use crate::hold::faults::{told, Misjudged, MISJUDGED};
use crate::hold::watch::table::Hits;
use crate::people::card::channel_name;
use crate::people::record_lines::Line;
use crate::referee::{Judging, Kind, Marks, Referee, Verdict, JUDGING};

/// What `refereed` is asked for.
pub struct Plan {
    pub seed: u64,
    pub n: u64,
    pub marks: Marks,
    pub out: Option<String>,
    pub table: bool,
    pub floors: bool,
}

/// What came of the further marks, with floors for 60 streams.
const OUTCOMES: &[(&str, bool, u64)] = &[
    ("in order", false, 60),
    ("call 0", false, 40),
    ("a call", false, 300),
    ("told an unknown mark", false, 50),
    ("cut", false, 30),
    ("cut, with records still due", false, 10),
    ("in order, with lent sections", true, 20),
    ("in order, with cues", true, 20),
    ("in order, of a rolling card", true, 15),
    ("in order, with a name", true, 20),
];

fn floors(marks: Marks) -> Vec<(&'static str, u64)> {
    let of = |further: bool, floor: u64| if further && marks == Marks::Plain { 0 } else { floor };
    let ways = WAYS.iter().map(|(name, further, floor, _)| (*name, of(*further, *floor)));
    ways.chain(OUTCOMES.iter().map(|(name, further, floor)| (*name, of(*further, *floor)))).collect()
}

/// The verdict, what is still due at it, and what each piece was answered with.
type Judged = (Verdict, Vec<u8>, Vec<Option<Verdict>>);

/// Judged in these pieces: the places of their ends, in order.
pub fn judged(bytes: &[u8], ends: &[usize], marks: Marks, judging: &'static Judging) -> Judged {
    let mut referee = Referee::fresh_by(&channel_name(), marks, judging);
    let (mut from, mut said) = (0, Vec::new());
    for end in ends.iter().chain([&bytes.len()]) {
        said.push(referee.feed(&bytes[from..*end]));
        from = *end;
    }
    (referee.end(), referee.due.clone(), said)
}

/// Drawn ends of pieces.
pub fn cuts(rng: &mut Rng, length: usize) -> Vec<usize> {
    let count = rng.pick(&[1, 1, 2, 5, 20]);
    let mut ends: Vec<usize> = (0..count).map(|_| rng.below(length as u64 + 1) as usize).collect();
    ends.sort_unstable();
    ends
}

/// What differs: from what the damage says, or in pieces.
fn wrong(rng: &mut Rng, bytes: &[u8], known: Option<Verdict>, marks: Marks) -> Option<String> {
    let (verdict, due, _) = judged(bytes, &[], marks, &JUDGING);
    if let Some(known) = known.filter(|known| *known != verdict) {
        return Some(format!("{}, by its damage {}", verdict.words(), known.words()));
    }
    let ends = cuts(rng, bytes.len());
    let (other, rest, _) = judged(bytes, &ends, marks, &JUDGING);
    ((other, rest) != (verdict, due)).then(|| format!("{}, in pieces {ends:?} {}", verdict.words(), other.words()))
}

fn count(hits: &mut Hits, bytes: &[u8], marks: Marks) {
    let mut referee = Referee::fresh(&channel_name(), marks);
    referee.feed(bytes);
    let verdict = referee.end();
    hits.hit(match verdict.kind {
        Kind::InOrder => "in order",
        Kind::Call if verdict.number == 0 => "call 0",
        Kind::Call => "a call",
        Kind::Unknown => "told an unknown mark",
        Kind::Cut if !referee.due.is_empty() => "cut, with records still due",
        Kind::Cut => "cut",
    });
    if verdict.kind == Kind::InOrder {
        let rolling = referee.player.card == Some(crate::referee::Card::Rolling);
        let cues = bytes.windows(2).any(|two| two == [0x51, 0]);
        let which = [
            ("in order, with lent sections", referee.player.lent.iter().any(|lent| !lent.is_empty())),
            ("in order, with cues", marks == Marks::Further && cues),
            ("in order, of a rolling card", rolling),
            ("in order, with a name", bytes.first() == Some(&0x4E)),
        ];
        which.iter().filter(|(_, there)| *there).for_each(|(name, _)| hits.hit(name));
    }
}

/// Judges the recordings of N streams.
pub fn refereed(plan: &Plan) -> Result<bool, String> {
    let (mut hits, mut recordings, mut bytes, mut differ, mut lines) = (Hits::default(), 0, 0, 0, String::new());
    if let Some(dir) = &plan.out {
        std::fs::create_dir_all(dir).map_err(|e| format!("{dir}: {e}"))?;
    }
    for index in 0..plan.n {
        let mut rng = rng_of(plan.seed ^ 0xC0, index);
        for (place, (way, made, known)) in of_stream(plan.seed, index, plan.marks).into_iter().enumerate() {
            (recordings, bytes) = (recordings + 1, bytes + made.len());
            hits.hit(way);
            count(&mut hits, &made, plan.marks);
            if let Some(text) = wrong(&mut rng, &made, known, plan.marks) {
                println!("stream {index}, {way}: {text}");
                differ += 1;
            }
            if let Some(dir) = &plan.out {
                let name = format!("whole-{}-{index:05}-{place:02}.rec", plan.seed);
                lines += &format!("{name} {}\n", judged(&made, &[], plan.marks, &JUDGING).0.line());
                std::fs::write(format!("{dir}/{name}"), made).map_err(|e| format!("{dir}/{name}: {e}"))?;
            }
        }
    }
    if let Some(dir) = &plan.out {
        std::fs::write(format!("{dir}/lines.txt"), lines).map_err(|e| format!("{dir}/lines.txt: {e}"))?;
    }
    let reached = hits.reached(&floors(plan.marks), plan.table, plan.floors);
    println!("refereed: {recordings} recordings of {} streams, {bytes} bytes, {differ} differ", plan.n);
    Ok(differ == 0 && reached)
}

/// Shows that each deliberate mistake of a referee is noticed, in pieces too.
pub fn faults(seed: u64, n: u64) -> Result<bool, String> {
    let mut rng = rng_of(seed ^ 0xFA, 0);
    let all = (0..n).flat_map(|index| of_stream(seed, index, Marks::Further));
    let all: Vec<(&str, Vec<usize>, Vec<u8>)> = all.map(|(way, bytes, _)| (way, cuts(&mut rng, bytes.len()), bytes)).collect();
    let by = |at: usize, judging: &'static Judging| judged(&all[at].2, &all[at].1, Marks::Further, judging);
    let clean: Vec<Judged> = (0..all.len()).map(|at| by(at, &JUDGING)).collect();
    let seen = |(one, text): &&(Misjudged, &str)| {
        let differs = |at: &usize| by(*at, one.judging()) != clean[*at];
        told(&format!("{one:?}"), text, (0..all.len()).find(differs).map(|at| format!("recording {at}, {}", all[at].0)))
    };
    let unnoticed = MISJUDGED.len() - MISJUDGED.iter().filter(seen).count();
    println!("refereed: {} mistakes, {unnoticed} not noticed", MISJUDGED.len());
    Ok(unnoticed == 0)
}

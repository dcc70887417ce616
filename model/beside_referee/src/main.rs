//! The second program's judgement of recordings and the archive's referee, held to one another: damaged recordings in pieces, every cut
//! of ten, one long stream, the recordings worked by hand, and each mistake of a referee.

mod archive;
mod long;

use archive::Archive;
use model::gen::broken::of_stream;
use model::gen::draw::Rng;
use model::gen::whole_drivers::rng_of;
use model::hold::faults::MISJUDGED;
use model::hold::referee_streams::cuts;
use model::hold::worked;
use model::option;
use model::people::card::channel_name;
use model::referee::judge::here;
use model::referee::{Judging, Kind, Marks, Referee, Verdict, JUDGING};

const HELP: &str = "\
beside_referee [--seed S] [--n N]   the damaged recordings of N streams, in one piece and in pieces, through both; every cut of ten
               [--entries E]        and one stream of E entries
               [--plain]            an archive that knows CR 14's marks alone
";
const FOLDER: &str = concat!(env!("CARGO_MANIFEST_DIR"), "/../scenarios/recordings");

/// The streams in which a mistake must be noticed.
const FOR_A_MISTAKE: u64 = 60;

fn main() {
    model::unwritten("beside_referee");
    match model::words().and_then(command) {
        Ok(true) => {}
        Ok(false) => std::process::exit(1),
        Err(text) => {
            eprintln!("beside_referee: {text}; --help says what it takes");
            std::process::exit(2);
        }
    }
}

fn number(args: &mut Vec<String>, name: &str, usual: u64) -> Result<u64, String> {
    match option(args, name)? {
        None => Ok(usual),
        Some(text) => text.parse().map_err(|_| format!("{name}: no number: {text}")),
    }
}

fn command(mut args: Vec<String>) -> Result<bool, String> {
    if args.iter().any(|word| word == "--help" || word == "-h") {
        print!("{HELP}");
        return Ok(true);
    }
    let (seed, n) = (number(&mut args, "--seed", 42)?, number(&mut args, "--n", 400)?);
    let entries = number(&mut args, "--entries", 200_000)?;
    let plain = args.iter().position(|word| word == "--plain").map(|at| args.remove(at));
    let marks = if plain.is_some() { Marks::Plain } else { Marks::Further };
    if let Some(word) = args.first() {
        return Err(format!("unknown word {word}"));
    }
    let mut results =
        vec![by_hand(marks)?, names(), compared(seed, n, marks), every_cut(seed, marks), long::stream(seed, entries, marks)];
    results.extend(mistakes(seed, marks));
    let passed = results.iter().filter(|good| **good).count();
    println!("{passed} passed, {} failed", results.len() - passed);
    Ok(passed == results.len())
}

/// What both say of a recording in these pieces: after each piece, what is due then, and at the end.
fn wrong(bytes: &[u8], ends: &[usize], marks: Marks, judging: &'static Judging) -> Option<String> {
    let (mut archive, _) = Archive::fresh(&channel_name());
    let mut own = Referee::fresh_by(&channel_name(), marks, judging);
    let mut from = 0;
    for end in ends.iter().chain([&bytes.len()]) {
        let (piece, told) = (&bytes[from..*end], archive.feed(&bytes[from..*end]));
        own.feed(piece);
        let due = own.told.unwrap_or_else(|| here(&own, Kind::InOrder));
        if told != due {
            return Some(format!("at byte {end} the archive says {told:?}, the second program {due:?}"));
        }
        from = *end;
    }
    let differs = same(archive.end(), own.end()).or_else(|| same(archive.due(), own.due.clone()));
    // "further bytes change nothing"
    let told = own.told.and_then(|told| same(archive.feed(&[0x4F, 0, 0xFF]), told).or_else(|| same(archive.end(), told)));
    differs.or(told)
}

fn same<T: PartialEq + std::fmt::Debug>(archive: T, own: T) -> Option<String> {
    (archive != own).then(|| format!("the archive says {archive:?}, the second program {own:?}"))
}

/// The recordings of N streams, each in one piece and in drawn ones.
fn compared(seed: u64, n: u64, marks: Marks) -> bool {
    let (mut recordings, mut bytes, mut differ, mut kinds) = (0, 0, 0, [0u64; 4]);
    for index in 0..n {
        let mut rng = rng_of(seed ^ 0xD0, index);
        for (way, made, known) in all(seed, index, marks) {
            (recordings, bytes) = (recordings + 1, bytes + made.len());
            let verdict = model::referee::judge::refereed(&made, &channel_name(), marks);
            kinds[verdict.kind as usize] += 1;
            let damage = known.filter(|known| *known != verdict).map(|known| format!("{verdict:?}, by its damage {known:?}"));
            let pieces = cuts(&mut rng, made.len());
            let text = damage.or_else(|| wrong(&made, &[], marks, &JUDGING)).or_else(|| wrong(&made, &pieces, marks, &JUDGING));
            if let Some(text) = text {
                differ += 1;
                if differ <= 3 {
                    println!("seed {seed}, stream {index}, {way}: {text}");
                }
            }
        }
    }
    println!("refereed: seed {seed}, {recordings} recordings of {n} streams, {bytes} bytes, {kinds:?} by kind, {differ} differ");
    differ == 0 && (n < 60 || !kinds.contains(&0))
}

/// Recordings of whole drivers, and at times those of the checker.
fn all(seed: u64, index: u64, marks: Marks) -> Vec<(&'static str, Vec<u8>, Option<Verdict>)> {
    let mut list = of_stream(seed, index, marks);
    if index % 16 == 3 {
        let checked = model::recorded_streams::of_stream(seed, index).into_iter();
        list.extend(checked.map(|made| (made.kind, made.bytes, None)));
    }
    list
}

/// Ten recordings, the first ones of some kinds: cut in two at every byte, and byte by byte.
fn every_cut(seed: u64, marks: Marks) -> bool {
    let (mut cut, mut differ) = (0, 0);
    for index in 0..10 {
        let list = of_stream(seed ^ 0x10, index, marks);
        let (way, bytes, _) = &list[(index as usize * 3) % list.len()];
        let bytes = &bytes[..bytes.len().min(6_000)];
        let single = (0..=bytes.len()).map(|at| vec![at]);
        for ends in single.chain([(1..bytes.len()).collect()]) {
            cut += 1;
            if let Some(text) = wrong(bytes, &ends, marks, &JUDGING) {
                differ += 1;
                if differ <= 3 {
                    println!("recording {index}, {way}: {text}");
                }
            }
        }
    }
    println!("refereed: ten recordings in {cut} cuts, {differ} differ");
    differ == 0
}

/// A name without a zero byte is 9, and the referee is one of the empty name.
fn names() -> bool {
    let init = [&[0x4F, 0, 0x4D, 0, 0, 1, 0, 68, 255, 255, 255, 255, 0, 2][..], &[0; 66]].concat();
    let answer = [&[0x52, 0, 0, 2, 0, 34, 0, 100, 255, 255, 0, 2][..], &[0; 32]].concat();
    let good = [(b'X', 9), (0, 0)].iter().all(|(byte, number)| {
        let (mut archive, refused) = Archive::fresh(&[*byte; 32]);
        archive.feed(&[&init[..], &answer].concat());
        refused == *number && archive.end().kind == Kind::InOrder
    });
    println!("refereed: a name without a zero byte, {} differ", usize::from(!good));
    good
}

/// The recordings worked by hand.
fn by_hand(marks: Marks) -> Result<bool, String> {
    let (mut count, mut differ) = (0, 0);
    let folder = std::fs::read_dir(FOLDER).map_err(|e| format!("{FOLDER}: {e}"))?;
    for file in folder {
        let path = file.map_err(|e| e.to_string())?.path();
        let text = std::fs::read_to_string(&path).map_err(|e| format!("{}: {e}", path.display()))?;
        for case in worked::parse(&text)? {
            let verdict = match (marks, &case.plain) {
                (Marks::Plain, Some(plain)) => plain,
                _ => &case.verdict,
            };
            let (mut archive, _) = Archive::fresh(&channel_name());
            case.bytes.iter().for_each(|byte| {
                archive.feed(&[*byte]);
            });
            let due = archive.end().kind != Kind::Call || marks == Marks::Plain || archive.due() == case.wanted;
            count += 1;
            if archive.end().words() != *verdict || !due {
                println!("{}, line {}: {}, due {:02X?}", path.display(), case.line, archive.end().words(), archive.due());
                differ += 1;
            }
        }
    }
    println!("refereed: {count} recordings worked by hand, {differ} differ");
    Ok(differ == 0 && count > 0)
}

/// Each mistake of a referee differs from the archive; those about further marks where it knows them.
fn mistakes(seed: u64, marks: Marks) -> Vec<bool> {
    let mut rng: Rng = rng_of(seed ^ 0xFA, 1);
    let list: Vec<(Vec<u8>, Vec<usize>)> = (0..FOR_A_MISTAKE)
        .flat_map(|index| of_stream(seed, index, marks))
        .map(|(_, bytes, _)| {
            let ends = cuts(&mut rng, bytes.len());
            (bytes, ends)
        })
        .collect();
    let known = MISJUDGED.iter().filter(|(one, _)| marks == Marks::Further || !one.is_further());
    known
        .map(|(one, text)| {
            let noticed = list.iter().position(|(bytes, ends)| wrong(bytes, ends, marks, one.judging()).is_some());
            match noticed {
                Some(at) => println!("noticed in recording {at}: {one:?}: {text}"),
                None => println!("NOT NOTICED: {one:?}: {text}"),
            }
            noticed.is_some()
        })
        .collect()
}

//! The scenario files against the archive: the records of every call and what is read in between. The card
//! program has no call that reads and none with a cue, so `> mux` (02, CR 5), `> map` (02, CR 6), `> cue` (02, CR 7)
//! and `> rows` lines (02, CR 8) are held to it here.

use crate::calls::{self, ask_core, Call};
use crate::looks::{Row, Told};
use crate::maps;
use crate::pages;
use crate::stream_calls::LONGEST;
use crate::wrong::Wrong;
use model::lately::Ended;
use model::people::card;
use model::people::looks::Reads;
use model::people::scenario::{self, Step};
use splicer::{name, Splicer};

const FOLDER: &str = concat!(env!("CARGO_MANIFEST_DIR"), "/../scenarios");

/// Runs every file; the first difference of each is told.
pub fn run() -> bool {
    let (mut files, mut reads, mut cues, mut failed) = (0, 0, 0, 0);
    for path in paths() {
        match run_file(&path) {
            Ok(Some((read, cued))) => {
                files += 1;
                reads += read;
                cues += cued;
            }
            // Those of a rolling card run in `rolled`.
            Ok(None) => {}
            Err(text) => {
                files += 1;
                failed += 1;
                let file = path.rsplit('/').next().unwrap_or(&path);
                println!("{file}: {text}");
            }
        }
    }
    println!("beside: {files} scenarios against the archive, {reads} lines that read, {cues} cues, {failed} differ");
    failed == 0 && files > 0 && reads > 0 && cues > 0
}

/// The scenario files.
pub fn paths() -> Vec<String> {
    let list = std::fs::read_dir(FOLDER).into_iter().flatten().flatten();
    let names = list.map(|entry| entry.path().display().to_string());
    let mut all: Vec<String> = names.filter(|path| path.ends_with(".txt")).collect();
    all.sort();
    all
}

/// Gives the numbers of values read and of cue calls; nothing for a rolling card's.
fn run_file(path: &str) -> Result<Option<(usize, usize)>, String> {
    let text = std::fs::read_to_string(path).map_err(|e| e.to_string())?;
    let steps = scenario::parse(&text)?;
    if scenario::is_rolling(&steps) {
        return Ok(None);
    }
    let (mut core, _) = Splicer::fresh(&name(b"CH1"));
    let mut stopped = false;
    for step in &steps {
        let found = match &step.cue {
            Some(given) => shown(&mut core, &Call::Cue(given.clone())),
            None => records(&mut core, &step.input, &mut stopped),
        };
        if found != step.expected {
            return Err(told(step, "wrote other bytes"));
        }
        if let Some(found) = step.misread(&reads(&core, step.line)?) {
            return Err(told(step, &format!("reads {found}")));
        }
    }
    let reads = steps.iter().filter(|step| step.is_read()).count();
    let cues = steps.iter().filter(|step| step.cue.is_some()).count();
    Ok(Some((reads, cues)))
}

/// All that is read of the core.
fn reads(core: &Splicer, turn: usize) -> Result<Reads, String> {
    let row = |[kept, conn, id, event, result, played]: calls::Row| {
        (kept == 1).then_some(Ended { conn: conn as u8, id, event, result: result as u16, played })
    };
    let mut told = Told::default();
    told.fill(core);
    Ok(Reads {
        mux: core.mux(),
        insertion: maps::read(core, turn, Wrong::Nothing)?,
        rows: pages::read(core, turn, Wrong::Nothing)?.map(row),
        air: told.sessions.first().filter(|s| told.air == Some(s.air())).map(Row::session),
        due: told.due,
        sessions: told.sessions.iter().map(Row::session).collect(),
    })
}

fn told(step: &Step, what: &str) -> String {
    format!("line {}: {}: the archive {what}", step.line, step.text)
}

/// What the card program writes for these records of its input, with the archive in its place.
fn records(core: &mut Splicer, input: &[u8], stopped: &mut bool) -> Vec<u8> {
    let mut found = Vec::new();
    let mut rest = input;
    while !*stopped {
        let Ok((call, length)) = card::next_call(rest) else {
            // "It stops at the end, a cut record or another mark".
            *stopped = !rest.is_empty();
            break;
        };
        rest = &rest[length..];
        let call = Call::from(call);
        // "at a message header with MessageSize above 4,088 it makes the call [..] and stops"
        *stopped = matches!(&call, Call::Message(_, bytes) if bytes[2..4] > [0x0F, 0xF8][..]);
        found.extend(shown(core, &call));
    }
    found
}

/// What a call wrote, or its refusal, as the card program shows it.
fn shown(core: &mut Splicer, call: &Call) -> Vec<u8> {
    let mut out = vec![0; LONGEST];
    let said = ask_core(core, call, &mut out);
    match said.refused {
        0 => said.written,
        number => vec![0x45, number],
    }
}

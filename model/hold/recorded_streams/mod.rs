//! The command `recordings`: recordings of generated streams, whole, cut and damaged, each held to
//! a checker program (02, CR 14). Where the damage alone says what must be found, that is held too.

mod call_damage;
mod kinds;
mod mark_damage;
mod tally;
mod turns;

pub use kinds::of_stream;
pub use tally::Tally;
pub use turns::Made;

use crate::hold::check_mistakes::{checked, Lapse, LAPSES};
use crate::hold::compare;
use crate::hold::faults::told;
use crate::people::check::{check, Finding};
use crate::people::make_recording::recorded;
use crate::people::record_lines::Line;
use crate::people::scenario;

/// What `recordings` is asked for.
pub struct Plan {
    pub seed: u64,
    pub n: u64,
    pub checker: Option<String>,
    pub out: Option<String>,
    pub table: bool,
    pub floors: bool,
    /// Scenario files, whose calls are recorded too.
    pub files: Vec<String>,
}

/// What the card program makes of a scenario's calls.
fn of_scenario(path: &str) -> Result<Option<Made>, String> {
    let text = std::fs::read_to_string(path).map_err(|e| format!("{path}: {e}"))?;
    let steps = scenario::parse(&text).map_err(|e| format!("{path}: {e}"))?;
    // a rolling card's calls have no marks
    let marked = !scenario::is_rolling(&steps) && !scenario::is_cued(&steps);
    Ok(marked.then(|| Made { kind: "scenario", bytes: recorded(&scenario::input_of(&steps)), known: Some(Finding::None) }))
}

/// Every recording with a name.
fn all(plan: &Plan) -> impl Iterator<Item = Result<(String, Made), String>> + '_ {
    let files = plan.files.iter().filter_map(|path| {
        let name = path.rsplit('/').next().unwrap_or(path);
        let made = of_scenario(path).transpose()?;
        Some(made.map(|made| (name.replace(".txt", ".rec"), made)))
    });
    let streams = (0..plan.n).flat_map(move |index| {
        let named = move |(place, made)| {
            let name = format!("recording-{}-{index:05}-{place:04}.rec", plan.seed);
            Ok((name, made))
        };
        of_stream(plan.seed, index).into_iter().enumerate().map(named)
    });
    files.chain(streams)
}

/// Makes the recordings of N streams; holds each to what its damage says and to the checker program.
pub fn recordings(plan: &Plan) -> Result<bool, String> {
    let mut tally = Tally::default();
    let (mut count, mut bytes, mut differ) = (0, 0, 0);
    let mut lines = String::new();
    if let Some(dir) = &plan.out {
        std::fs::create_dir_all(dir).map_err(|e| format!("{dir}: {e}"))?;
    }
    for each in all(plan) {
        let (name, made) = each?;
        count += 1;
        bytes += made.bytes.len();
        tally.count(&made);
        if let Some(text) = wrong(plan, &made)? {
            println!("{name}, {}: {text}", made.kind);
            differ += 1;
        }
        if let Some(dir) = &plan.out {
            let path = format!("{dir}/{name}");
            std::fs::write(&path, &made.bytes).map_err(|e| format!("{path}: {e}"))?;
            lines += &format!("{name} {}\n", check(&made.bytes).line());
        }
    }
    if let Some(dir) = &plan.out {
        let path = format!("{dir}/lines.txt");
        std::fs::write(&path, lines).map_err(|e| format!("{path}: {e}"))?;
    }
    let reached = tally.reached(plan.table, plan.floors);
    println!(
        "recordings: {count} recordings of {} streams and {} scenarios, {bytes} bytes, {differ} differ",
        plan.n,
        tally.of("scenario")
    );
    Ok(differ == 0 && reached)
}

/// What differs in this recording: from what its damage says, or from the checker program's line.
fn wrong(plan: &Plan, made: &Made) -> Result<Option<String>, String> {
    let own = check(&made.bytes);
    if let Some(known) = made.known.filter(|known| *known != own) {
        let (own, known) = (own.line(), known.line());
        return Ok(Some(format!("the second program says {own}, by its damage {known}")));
    }
    let Some(command) = &plan.checker else {
        return Ok(None);
    };
    let output = compare::run_command(command, &made.bytes)?;
    let due = own.line() + "\n";
    if output.bytes == due.as_bytes() {
        return Ok(None);
    }
    let found = String::from_utf8_lossy(&output.bytes).into_owned();
    let trouble = output.trouble.unwrap_or_default();
    Ok(Some(format!("the second program says {due:?}, the checker {found:?} {trouble}")))
}

/// Shows that each deliberate mistake of a checker is noticed.
pub fn faults(seed: u64, n: u64) -> Result<bool, String> {
    let all: Vec<Made> = (0..n).flat_map(|index| of_stream(seed, index)).collect();
    let clean: Vec<Finding> = all.iter().map(|made| check(&made.bytes)).collect();
    let seen = |(lapse, text): &&(Lapse, &str)| {
        let differs = |at: &usize| checked(&all[*at].bytes, Some(*lapse)).0 != clean[*at];
        let place = (0..all.len()).find(differs).map(|at| format!("recording {at}, {}", all[at].kind));
        told(&format!("{lapse:?}"), text, place)
    };
    let unnoticed = LAPSES.len() - LAPSES.iter().filter(seen).count();
    println!("recordings: {} mistakes, {unnoticed} not noticed", LAPSES.len());
    Ok(unnoticed == 0)
}

#[cfg(test)]
mod tests {
    use super::kinds::filled;
    use super::turns::{base, bytes_of};
    use super::*;
    use crate::people::check::LONGEST;

    #[test]
    fn what_the_damage_says_is_found() {
        for index in 0..3 {
            for made in of_stream(5, index) {
                let Some(known) = made.known else {
                    continue;
                };
                assert_eq!(check(&made.bytes), known, "{} of stream {index}", made.kind);
            }
        }
    }

    #[test]
    fn lengths_are_as_said() {
        let turns = base(5, 0, usize::MAX, LONGEST - 40);
        for length in [LONGEST - 1, LONGEST, LONGEST + 1] {
            assert_eq!(bytes_of(&filled(&turns, length)).len(), length);
        }
    }
}

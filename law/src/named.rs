//! `law named`: the wrong readings of law/named.txt, each refused by a worked case.

use crate::law::Law;
use crate::{change, mutate};
use std::path::Path;

/// A line of the file: a name and a mutant's key.
fn lines(root: &Path) -> Result<Vec<(String, String)>, String> {
    let text = std::fs::read_to_string(root.join("law/named.txt")).map_err(|e| format!("law/named.txt: {e}"))?;
    let split = |l: &str| l.split_once(": ").map(|(n, k)| (n.to_string(), k.to_string())).ok_or(format!("law/named.txt: {l}"));
    text.lines().filter(|l| !l.starts_with('#')).map(split).collect()
}

pub fn all(law: &mut Law, root: &Path) -> Result<i32, String> {
    let known = mutate::cases(law);
    let users = mutate::users(law);
    let (mut held, mut missed) = (0, 0);
    for (name, key) in lines(root)? {
        let of = key.split(": ").next().unwrap_or("");
        let def = law.prog.find(of).ok_or(format!("{name}: no definition {of}"))?;
        let mutant =
            change::mutants(law, def).into_iter().find(|m| m.key == key).ok_or(format!("{name}: no such change of {of}"))?;
        let resets = mutate::constants(law, &users, def as usize);
        match mutate::notice(law, &known, &mutant, &resets) {
            Some(by) => {
                held += 1;
                println!("law: {name} is refused by {by}");
            }
            None => {
                missed += 1;
                println!("law: {name} passes every worked case: FAILED");
            }
        }
    }
    println!("{held} passed, {missed} failed");
    Ok(i32::from(missed > 0))
}

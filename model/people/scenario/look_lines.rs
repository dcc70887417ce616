//! A scenario's lines that read: `mux`, `map`, `rows`, `air`, `due` and `sessions`.

use super::words::{small, time, wide};
use crate::people::looks::number;
use rules::lately::KEPT;

/// The words that read, and of each the least and the most words that may follow and how many numbers each of them has; `due`
/// and `map` have words of their own.
const WORDS: [(&str, usize, usize, usize); 6] =
    [("mux", 1, 1, 1), ("map", 1, 1, 0), ("rows", 0, KEPT, 5), ("air", 1, 1, 8), ("due", 1, 2, 0), ("sessions", 0, 74, 11)];

/// The line of a scenario that reads, its numbers as `text` writes them; none of another line.
pub fn wanted(line: &str) -> Result<Option<String>, String> {
    let mut words = line.split_whitespace();
    let first = words.next().unwrap_or_default();
    let Some((_, least, most, numbers)) = WORDS.iter().find(|(word, ..)| *word == first) else {
        return Ok(None);
    };
    let list: Vec<String> = words.map(|word| one(first, *numbers, word)).collect::<Result<_, _>>()?;
    if !(*least..=*most).contains(&list.len()) {
        return Err(format!("{first} takes {least} to {most} words"));
    }
    Ok(Some([vec![first.to_string()], list].concat().join(" ")))
}

/// A word behind the first.
fn one(first: &str, numbers: usize, word: &str) -> Result<String, String> {
    match (first, word) {
        ("map", "primary" | "insertion") | ("air" | "due", "none") | ("due", "never") => return Ok(word.to_string()),
        ("mux", _) => return small(word).map(|value| value.to_string()),
        ("map", _) => return Err(format!("neither primary nor insertion: {word}")),
        ("due", _) if word.contains('.') => return time(word).map(|(s, u)| format!("{s}.{u:06}")),
        _ => {}
    }
    let parts: Vec<&str> = word.split(':').collect();
    if first != "due" && parts.len() != numbers {
        return Err(format!("{numbers} numbers are needed: {word}"));
    }
    let part = |text: &&str| match *text {
        "air" | "covered" | "waiting" if first == "sessions" => Ok(text.to_string()),
        text => wide(text).map(number),
    };
    Ok(parts.iter().map(part).collect::<Result<Vec<_>, _>>()?.join(":"))
}

//! What a comparison says of itself, in one form.

/// The first three differences, the branches never taken, and a line of counts; whether there is no difference and no such branch.
pub fn compared(line: &str, seed: u64, kind: &str, differences: &[String], never: &[&str]) -> bool {
    for text in differences.iter().take(3) {
        print!("seed {seed}, {kind}{text}");
    }
    for branch in never {
        println!("never taken: {branch}");
    }
    println!("beside: seed {seed}, {line}, {} differences", differences.len());
    differences.is_empty() && never.is_empty()
}

/// Where a mistake was noticed, or that it was not; whether it was. `by` says what had to notice it, if not the comparison.
pub fn noticed(mistake: &str, place: Option<&str>, by: &str) -> bool {
    match place {
        Some(place) => println!("noticed in {place}: {mistake}"),
        None => println!("NOT NOTICED{by}: {mistake}"),
    }
    place.is_some()
}

/// The place that a difference begins with.
pub fn place(difference: &str) -> &str {
    difference.split([':', '\n']).next().unwrap_or(difference)
}

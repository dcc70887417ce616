//! The command `pieces`: the card program's input arrives in pieces, and its output does not change.

use crate::gen;
use crate::hold::compare;
use crate::people::card;

/// How the input is cut: the first piece and all others, in bytes.
const CUTS: [(usize, usize); 5] = [(1, 1), (7, 7), (101, 101), (4096, 4096), (1, 4096)];

fn cut(input: &[u8], (first, others): (usize, usize)) -> Vec<&[u8]> {
    let (head, rest) = input.split_at(first.min(input.len()));
    std::iter::once(head).filter(|head| !head.is_empty()).chain(rest.chunks(others)).collect()
}

/// N streams, and the one that fills the output buffer.
fn streams(seed: u64, n: u64) -> Vec<(String, Vec<u8>)> {
    let drawn = |index| (format!("seed {seed} stream {index}"), gen::stream(seed, index));
    let filling = ("the filling stream".to_string(), gen::filling());
    (0..n).map(drawn).chain([filling]).collect()
}

/// Runs the card program on them in every cut; a line for each cut, and how many passed.
pub fn pieces(seed: u64, n: u64, card: &str) -> Result<bool, String> {
    let streams = streams(seed, n);
    let mut failed = 0;
    for sizes in CUTS {
        let mut differ = 0;
        for (name, input) in &streams {
            let output = compare::run_in_pieces(card, &cut(input, sizes))?;
            let same = output.bytes == card::run(input).output();
            if !same || output.trouble.is_some() {
                println!("{name}, pieces of {sizes:?}: differs");
                differ += 1;
            }
        }
        let (first, others) = sizes;
        let all = streams.len();
        println!("pieces: first {first}, then {others} bytes: {all} streams, {differ} differ");
        failed += u64::from(differ > 0);
    }
    println!("{} passed, {failed} failed", CUTS.len() as u64 - failed);
    Ok(failed == 0)
}

#[cfg(test)]
mod tests {
    use super::*;

    #[test]
    fn a_cut_input_is_the_input() {
        let input: Vec<u8> = (0..=255).collect();
        for sizes in CUTS {
            let pieces = cut(&input, sizes);
            assert_eq!(pieces.concat(), input);
            assert_eq!(pieces[0].len(), sizes.0.min(input.len()));
            assert!(pieces[1..].iter().all(|p| p.len() <= sizes.1));
        }
        assert!(cut(&[], (1, 1)).is_empty());
    }
}

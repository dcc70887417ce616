//! A first look (`tools/example.sh`): the day of a scenario file, with the rules and what is for people and no more, so that it is built
//! within seconds (2 s of processor time, where the whole second program takes 35), of the same files. `day SCENARIO IN OUT` writes the
//! card input to IN and what the second program answers to OUT, and prints the calls with their answers decoded, then the as-run list.
#![allow(dead_code, unused_imports, clippy::new_without_default, clippy::should_implement_trait)]

mod names;
#[path = "../people/mod.rs"]
mod people;
#[path = "../referee/mod.rs"]
mod referee;

use names::*;
use people::{asrun, card, decode, scenario};
use std::fs;
use std::io::Write;

fn main() {
    let args: Vec<String> = std::env::args().skip(1).collect();
    if let Err(text) = day(&args) {
        eprintln!("day: {text}");
        std::process::exit(2);
    }
}

fn day(args: &[String]) -> Result<(), String> {
    let [path, input, output] = args else {
        return Err("the files SCENARIO, IN and OUT are needed".to_string());
    };
    let text = fs::read_to_string(path).map_err(|e| format!("{path}: {e}"))?;
    let steps = scenario::parse(&text).map_err(|e| format!("{path}: {e}"))?;
    let calls = scenario::input_of(&steps);
    let answers = card::run(&calls).output();
    fs::write(input, &calls).map_err(|e| format!("{input}: {e}"))?;
    fs::write(output, &answers).map_err(|e| format!("{output}: {e}"))?;
    let (decoded, _) = decode::decode(&calls, &answers);
    let (listed, _) = asrun::as_run(&calls, &answers);
    let shown = format!("{decoded}{listed}");
    let mut out = std::io::stdout().lock();
    out.write_all(shown.as_bytes()).map_err(|e| e.to_string())
}

//! Cue calls as `model cues --rows` writes them, with what the definitions give in place of the second program's word.

use crate::law::Law;
use crate::value::{self, V};
use std::io::Read;

fn number(bytes: &[u8]) -> u128 {
    bytes.iter().fold(0, |a, b| a * 256 + u128::from(*b))
}

/// The words for what one connection is written: they are those of `model cues --rows`.
fn comes(told: &[u8]) -> Result<String, String> {
    match told {
        [] => Ok("nothing".to_string()),
        [0x45, n] => Ok(format!("refused {n}")),
        [0x52, _, 0, 0, ..] => Ok("bad".to_string()),
        [0x52, _, 0, 0x0C, ..] if told.len() > 18 => Ok(format!("passes {} {}", number(&told[10..14]), number(&told[14..18]))),
        _ => Err("an output of another kind".to_string()),
    }
}

/// A splicer of which connection 0 is initialised.
fn splicer(law: &mut Law) -> Result<V, String> {
    let def = law.prog.find("rules.Answers.answer_init").ok_or("no rules.Answers.answer_init")?;
    let initialised = law.argument(law.prog.infos[def as usize].module, "Initialised")?;
    let named = law.value("rules.Calls.named", vec![V::Nil])?;
    law.value("rules.State.with_link", vec![V::Num(0), initialised, named])
}

pub fn rows(law: &mut Law) -> Result<i32, String> {
    let mut text = String::new();
    std::io::stdin().read_to_string(&mut text).map_err(|e| e.to_string())?;
    let state = splicer(law)?;
    for line in text.lines() {
        let words: Vec<&str> = line.split(' ').collect();
        let section = law.argument(0, &format!("hex:{}", words[0].trim_matches('-')))?;
        let mut args = vec![section];
        for w in &words[1..4] {
            args.push(V::Num(w.parse().map_err(|_| format!("no row: {line}"))?));
        }
        args.extend([V::Num(4096), state.clone()]);
        let called = law.value("rules.Calls.cue_call", args)?;
        let answer = law.field(&called, "answer")?;
        let told = law.value("rules.Card.told", vec![answer])?;
        let told = value::as_bytes(&told).ok_or("the output is not bytes")?;
        println!("{} {}", words[..4].join(" "), comes(&told)?);
    }
    Ok(0)
}

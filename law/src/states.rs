//! Output, state and all reads after each call, as `model states` writes them; rolling cards' calls, recordings and the second engine's
//! rules on the streams of the second program's generator. No rule stands here: each word is a definition's value.

use crate::law::Law;
use crate::value::{self, V};
use std::io::Read;

type Got<T> = Result<T, String>;

fn hex(v: &V) -> Got<String> {
    let bytes = value::as_bytes(v).ok_or("no bytes")?;
    Ok(format!("-{}", bytes.iter().map(|b| format!("{b:02X}")).collect::<String>()))
}

fn number(v: &V) -> Got<u128> {
    match v {
        V::Num(n) => Ok(*n),
        _ => Err("no number".to_string()),
    }
}

fn words(v: &V) -> Got<String> {
    let all = value::all(v).iter().map(number).collect::<Got<Vec<_>>>()?;
    Ok(all.iter().map(u128::to_string).collect::<Vec<_>>().join(","))
}

/// The name of a constructor, and what it is made of.
fn made(law: &Law, v: &V) -> Got<(String, Vec<V>)> {
    match v {
        V::Con(def, args) => Ok((law.prog.infos[*def as usize].name.clone(), args.to_vec())),
        _ => Err("no constructor".to_string()),
    }
}

fn fields(law: &mut Law, v: &V, names: &[&str]) -> Got<Vec<V>> {
    names.iter().map(|n| law.field(v, n)).collect()
}

/// How far a connection is: 0 closed, 1 open, 2 initialised.
fn link(law: &mut Law, v: &V) -> Got<u128> {
    let known = ["is_open", "is_initialised"].map(|f| law.value(&format!("rules.State.{f}"), vec![v.clone()]));
    known.into_iter().map(|k| k.map(|k| u128::from(matches!(k, V::Bool(true))))).sum()
}

/// The sixteen rows of what ended lately.
fn rows(law: &mut Law, lately: V) -> Got<String> {
    let mut all = Vec::new();
    for past in value::all(&law.value("rules.Recent.recent", vec![lately])?) {
        all.extend(fields(law, &past, &["conn", "id", "event", "result", "played"])?);
    }
    words(&value::vals(all))
}

/// A call's line: c, what it gave.
fn line(law: &mut Law, c: &V) -> Got<String> {
    let (answer, s) = (law.field(c, "answer")?, law.field(c, "splicer")?);
    let queue = law.field(&s, "queue")?;
    let started = law.field(&queue, "started")?;
    let told = law.value("rules.Card.told", vec![answer])?;
    let mut numbers = fields(law, &s, &["clock", "primary"])?;
    numbers.push(law.field(c, "moved")?);
    numbers.push(law.value("rules.Answers.air_mux", vec![started.clone()])?);
    numbers.push(law.value("rules.Answers.air_feed", vec![started.clone()])?);
    let mut out = vec![hex(&told)?, words(&value::vals(numbers))?];
    for h in value::all(&law.field(&s, "hardware")?) {
        out.push(hex(&h)?);
    }
    let links = value::all(&law.field(&s, "links")?).iter().map(|l| link(law, l).map(V::Num)).collect::<Got<Vec<_>>>()?;
    out.push(words(&value::vals(links))?);
    out.push(words(&law.value("rules.Answers.air_row", vec![started])?)?);
    let due = law.value("rules.State.due", vec![queue.clone()])?;
    out.push(words(&law.value("rules.Calls.due_row", vec![due])?)?);
    let lately = law.field(&queue, "lately")?;
    out.push(rows(law, lately)?);
    let all = law.value("rules.Listing.held_number", vec![queue.clone()])?;
    out.push(words(&law.value("rules.Listing.held_rows", vec![all, queue])?)?);
    Ok(out.join(" "))
}

fn fresh(law: &mut Law) -> Got<V> {
    let name = law.value("rules.Card.card_name", vec![])?;
    law.value("rules.Bytes.padded", vec![name])
}

/// The card program's input, a line for each call.
fn stream(law: &mut Law, input: Vec<u8>) -> Got<String> {
    let name = fresh(law)?;
    let first = law.value("rules.Calls.fresh", vec![name])?;
    let mut s = law.field(&first, "splicer")?;
    let (mut left, mut text) = (value::bytes(input), String::new());
    loop {
        law.machine.clear();
        let next = law.value("rules.Card.next", vec![left])?;
        let (kind, parts) = made(law, &next)?;
        if kind == "stops" {
            return Ok(text);
        }
        let c = law.value("rules.Calls.call", vec![parts[0].clone(), s])?;
        text += &format!("{}\n", line(law, &c)?);
        if kind == "ends" {
            return Ok(text);
        }
        s = law.field(&c, "splicer")?;
        left = parts[1].clone();
    }
}

/// Each file's lines to FILE.states; with `recalls`, the output by the second engine's rules to FILE.recall.
pub fn files(law: &mut Law, files: &[String], recalls: bool) -> Got<i32> {
    for file in files {
        let input = std::fs::read(file).map_err(|e| format!("{file}: {e}"))?;
        let (out, ending) = if recalls {
            law.machine.clear();
            let v = law.value("cases.Recalled.recalled", vec![value::bytes(input)]).map_err(|e| format!("{file}: {e}"))?;
            (value::as_bytes(&v).ok_or("the output is not bytes")?, "recall")
        } else {
            (stream(law, input).map_err(|e| format!("{file}: {e}"))?.into_bytes(), "states")
        };
        std::fs::write(format!("{file}.{ending}"), out).map_err(|e| format!("{file}: {e}"))?;
    }
    Ok(0)
}

/// A rolling card's call of a row, in the words of the definitions.
fn rolling_call(law: &mut Law, given: &[&str]) -> Got<V> {
    let module = law.prog.find("rules.Rolling.roll").ok_or("no rules.Rolling.roll")?;
    let module = law.prog.infos[module as usize].module;
    match given {
        ["plain", bytes, _] => {
            let bytes = law.argument(module, &format!("hex:{}", bytes.trim_start_matches('-')))?;
            let next = law.value("rules.Card.next", vec![bytes])?;
            let (_, parts) = made(law, &next)?;
            let known = law.prog.find("rules.Rolling.known").ok_or("no rules.Rolling.known")?;
            Ok(V::Con(known, std::rc::Rc::new(vec![parts[0].clone()])))
        }
        ["instant", s, u, x, room] => law.argument(module, &format!("instants {s} {u} {x} {room}")),
        ["reading", x, room] => law.argument(module, &format!("readings {x} {room}")),
        _ => Err(format!("no call: {}", given.join(" "))),
    }
}

/// What follows a rolling card's call: the last reading, and the step to what is due.
fn rolled(law: &mut Law, r: &V) -> Got<String> {
    let (called, last) = (law.field(r, "called")?, law.field(r, "last")?);
    let s = law.field(&called, "splicer")?;
    let (clock, queue) = (law.field(&s, "clock")?, law.field(&s, "queue")?);
    let due = law.value("rules.State.due", vec![queue])?;
    let step = law.value("rules.Rolling.step_row", vec![last.clone(), clock, due])?;
    let reading = match made(law, &last)?.1.first() {
        Some(x) => number(x)?.to_string(),
        None => "none".to_string(),
    };
    Ok(format!("{} {reading} {}", line(law, &called)?, words(&step)?))
}

/// Rows of `model states --rolling`, with what the definitions give behind the sign of equality.
pub fn rolls(law: &mut Law) -> Got<i32> {
    let mut text = String::new();
    std::io::stdin().read_to_string(&mut text).map_err(|e| e.to_string())?;
    let mut card = V::Nil;
    for row in text.lines() {
        law.machine.clear();
        if row == "fresh" {
            let name = fresh(law)?;
            let first = law.value("rules.Follows.Sequences.rolling_fresh", vec![name])?;
            card = law.value("rules.Follows.Sequences.rolling_of", vec![first])?;
            println!("fresh");
            continue;
        }
        let given = row.split(" = ").next().unwrap_or("");
        let call = rolling_call(law, &given.split(' ').collect::<Vec<_>>())?;
        let r = law.value("rules.Rolling.roll", vec![call, card])?;
        println!("{given} = {}", rolled(law, &r)?);
        card = law.value("rules.Follows.Sequences.rolling_of", vec![r])?;
    }
    Ok(0)
}

/// Of each recording of a folder that `model recordings --out` wrote, in its order, what the definition `checked` finds.
pub fn recordings(law: &mut Law, dir: &str) -> Got<i32> {
    let lines = std::fs::read_to_string(format!("{dir}/lines.txt")).map_err(|e| format!("{dir}: {e}"))?;
    for name in lines.lines().filter_map(|l| l.split(' ').next()) {
        law.machine.clear();
        let bytes = std::fs::read(format!("{dir}/{name}")).map_err(|e| format!("{name}: {e}"))?;
        let found = law.value("recording.Recording.checked", vec![value::bytes(bytes)])?;
        // an Option of a finding
        let (kind, at) = match made(law, &found)? {
            (some, of) if some == "Some" => made(law, &of[0])?,
            none => none,
        };
        let house = law.value("recording.Recording.house_number", vec![found])?;
        let place = at.first().map(number).transpose()?.map_or(String::new(), |n| format!(" {n}"));
        match kind.as_str() {
            "None" => println!("{name} none"),
            "Differs" => println!("{name} call{place}"),
            _ => println!("{name} refused {}{}", number(&house)?, place.replacen(' ', " at ", 1)),
        }
    }
    Ok(0)
}

//! Worked cases: the statements of crates/cases and of proofs/Worked*, each decided by computing it.

use crate::code::{Def, LamCode};
use crate::compile;
use crate::eval::Stop;
use crate::law::Law;
use crate::load::What;
use crate::tree::{Ex, Kind};
use crate::value::{Ty, V};
use std::rc::Rc;

type Decided = Result<Option<bool>, Stop>;

/// A statement of a table.
pub struct Case {
    pub title: String,
    pub code: Rc<LamCode>,
}

fn names(ex: &Ex, name: &str) -> bool {
    let mut found = false;
    ex.walk(&mut |e| found |= matches!(&e.kind, Kind::Name(n) if n == name));
    found
}

/// The types of a record type's fields; none where one speaks of an earlier field.
fn fields(law: &mut Law, def: Def) -> Vec<Option<Rc<LamCode>>> {
    if let Some(f) = law.fields.get(&def) {
        return f.clone();
    }
    let info = law.prog.infos[def as usize].clone();
    let What::Record { params, fields } = info.what else { return vec![None] };
    let params: Vec<String> = params.iter().flat_map(|p| p.names.clone()).collect();
    let mut out = Vec::new();
    for (i, (_, kind)) in fields.iter().enumerate() {
        let free = fields[..i].iter().all(|(n, _)| params.contains(n) || !names(kind, n));
        let code = compile::expression(&mut law.prog, &mut law.regions, info.module, &params, kind);
        out.push(code.ok().filter(|_| free).map(Rc::new));
    }
    law.fields.insert(def, out.clone());
    out
}

fn record(law: &mut Law, def: Def, args: &[V]) -> Decided {
    let mut whole = Some(true);
    for field in fields(law, def) {
        let held = match field {
            Some(code) => {
                let kind = law.machine.closed(&code, args.to_vec())?;
                decide(law, &kind)?
            }
            None => None,
        };
        match held {
            Some(false) => return Ok(Some(false)),
            None => whole = None,
            Some(true) => {}
        }
    }
    Ok(whole)
}

/// A statement about all numbers is tried on some; that it holds of all is for the prover.
const SOME: [u128; 8] = [0, 1, 2, 3, 4, 7, 8, 9];

fn every(law: &mut Law, n: usize, each: &V, numbers: &mut Vec<V>) -> Decided {
    if numbers.len() == n {
        let kind = law.machine.apply(each.clone(), numbers.clone())?;
        return decide(law, &kind);
    }
    let mut whole = Some(true);
    for number in SOME {
        numbers.push(V::Num(number));
        let held = every(law, n, each, numbers);
        numbers.pop();
        match held? {
            Some(false) => return Ok(Some(false)),
            None => whole = None,
            Some(true) => {}
        }
    }
    Ok(whole)
}

/// Whether a statement holds; none if that cannot be told by computing.
pub fn decide(law: &mut Law, v: &V) -> Decided {
    let v = law.machine.force(v.clone())?;
    let V::Ty(ty) = &v else { return Ok(None) };
    match &**ty {
        Ty::True => Ok(Some(true)),
        Ty::False => Ok(Some(false)),
        Ty::Eq(a, b) if matches!((a, b), (V::Ty(_), _) | (V::Fun(_), _)) => Ok(None),
        Ty::Eq(a, b) => law.machine.same(a, b).map(Some),
        Ty::Le(m, n) => Ok(Some(m <= n)),
        Ty::Lt(m, n) => Ok(Some(m < n)),
        Ty::And(a, b) => match (decide(law, a)?, decide(law, b)?) {
            (Some(false), _) | (_, Some(false)) => Ok(Some(false)),
            (Some(true), Some(true)) => Ok(Some(true)),
            _ => Ok(None),
        },
        Ty::Or(a, b) => match (decide(law, a)?, decide(law, b)?) {
            (Some(true), _) | (_, Some(true)) => Ok(Some(true)),
            (Some(false), Some(false)) => Ok(Some(false)),
            _ => Ok(None),
        },
        Ty::Imp(a, b) => match decide(law, a)? {
            Some(false) => Ok(Some(true)),
            Some(true) => decide(law, b),
            None => Ok(None),
        },
        Ty::Every(n, each) => every(law, *n, each, &mut vec![]),
        Ty::Rec(def, args) => record(law, *def, args),
        Ty::Other => Ok(None),
    }
}

/// The statements that speak of no variable.
pub fn listed(law: &mut Law) -> Vec<Case> {
    let mut out = Vec::new();
    for def in 0..law.prog.infos.len() {
        let info = law.prog.infos[def].clone();
        let What::Fun { sig: Some(kind), .. } = info.what else { continue };
        if !law.prog.is_table(def as Def) || info.under || matches!(&kind.kind, Kind::Pi(names, ..) if !names.is_empty()) {
            continue;
        }
        if let Ok(code) = compile::expression(&mut law.prog, &mut law.regions, info.module, &[], &kind) {
            out.push(Case { title: law.prog.title(def as Def), code: Rc::new(code) });
        }
    }
    law.machine.names = law.prog.names.clone();
    out
}

pub fn holds(law: &mut Law, case: &Case) -> Decided {
    law.machine.clear();
    let kind = law.machine.closed(&case.code, vec![])?;
    if matches!(&kind, V::Ty(t) if matches!(**t, Ty::Other)) {
        return Ok(None);
    }
    decide(law, &kind)
}

/// What is no statement at all: the type of a table, of a number, of a function of these.
fn is_type(law: &mut Law, case: &Case) -> bool {
    let kind = law.machine.closed(&case.code, vec![]);
    kind.is_ok_and(|v| plain(law, &v))
}

fn plain(law: &Law, v: &V) -> bool {
    let V::Ty(t) = v else { return false };
    match &**t {
        Ty::Other => true,
        Ty::Imp(a, _) => plain(law, a),
        Ty::Rec(def, _) => matches!(&law.prog.infos[*def as usize].what, What::Record { params, .. } if params.is_empty()),
        _ => false,
    }
}

pub fn all(law: &mut Law, words: &[String]) -> Result<i32, String> {
    let (mut held, mut broken, mut open) = (0, 0, 0);
    for case in listed(law) {
        if !words.is_empty() && !words.iter().any(|w| case.title.contains(w.as_str())) {
            continue;
        }
        if is_type(law, &case) {
            continue;
        }
        let from = std::time::Instant::now();
        let got = holds(law, &case);
        let took = from.elapsed().as_millis();
        match got {
            Ok(Some(true)) => held += 1,
            Ok(None) => {
                open += 1;
                println!("law: {}: cannot be decided by computing", case.title);
            }
            Ok(Some(false)) | Err(_) => {
                broken += 1;
                println!("law: {}: {got:?}", case.title);
            }
        }
        if !words.is_empty() {
            println!("{}: {took} ms", case.title);
        }
    }
    if held + broken + open == 0 {
        return Err(format!("no case {}", words.join(", ")));
    }
    println!("law: {held} cases hold, {open} cannot be decided");
    println!("{held} passed, {broken} failed");
    Ok(i32::from(broken > 0))
}

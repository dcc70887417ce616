//! Mechanical changes of a definition, one at a time: wrong readings that nobody had to think of.

use crate::code::Def;
use crate::law::Law;
use crate::load::{Res, What};
use crate::tree::{Clause, Ex, Id, Kind};

/// One changed definition: its clauses, where the change stands, and how it reads.
pub struct Mutant {
    pub def: Def,
    pub key: String,
    pub line: u32,
    pub at: Id,
    pub clauses: Vec<Clause>,
}

/// A change of one expression: what stands there afterwards.
struct Change {
    at: Id,
    line: u32,
    old: String,
    new: Ex,
}

const KIT: &str = "@std.Prelude.";

fn name(n: &str) -> Ex {
    Ex { id: 0, line: 0, kind: Kind::Name(n.to_string()) }
}

fn num(n: u128) -> Ex {
    Ex { id: 0, line: 0, kind: Kind::Num(n) }
}

fn app(f: &str, args: &[&Ex]) -> Ex {
    Ex { id: 0, line: 0, kind: Kind::App(Box::new(name(f)), args.iter().map(|a| (*a).clone()).collect()) }
}

fn op(o: &str, a: &Ex, b: &Ex) -> Ex {
    Ex { id: 0, line: 0, kind: Kind::Op(o.to_string(), Box::new(a.clone()), Box::new(b.clone())) }
}

fn nat(o: &str, a: &Ex, n: u128) -> Ex {
    app(&format!("{KIT}{o}"), &[a, &num(n)])
}

/// one up, one down, and a width in place of another
fn numeral(n: u128) -> Vec<Ex> {
    let mut out = vec![n + 1];
    out.extend(n.checked_sub(1));
    out.extend(match n {
        2 => Some(4),
        4 | 8 => Some(n / 2),
        _ => None,
    });
    out.into_iter().map(num).collect()
}

/// turned, strict or not, an equality, and in the low 7 or 8 bits only
fn comparison(f: &str, a: &Ex, b: &Ex) -> Vec<Ex> {
    let test = |g: &str, x: &Ex, y: &Ex| app(&format!("{KIT}{g}"), &[x, y]);
    let is_zero = |e: &Ex| matches!(e.kind, Kind::Num(0));
    let mut out = Vec::new();
    for g in ["eqb", "leb", "ltb"] {
        // x ≤ 0 is x = 0
        if g != f && !(is_zero(b) && f != "ltb" && g != "ltb") {
            out.push(test(g, a, b));
        }
    }
    if f != "eqb" {
        out.push(test(f, b, a));
    } else if !is_zero(a) {
        out.extend([test("leb", b, a), test("ltb", b, a)]);
    }
    let low = |e: &Ex, m: u128| match e.kind {
        Kind::Num(n) => num(n % m),
        _ => nat("%", e, m),
    };
    out.extend([128, 256].map(|m| test(f, &low(a, m), &low(b, m))));
    out
}

/// a number read from bytes, without its highest bit; of two bytes, its low twelve bits
fn fewer_bits(f: &str, args: &[Ex], whole: &Ex) -> Vec<Ex> {
    let width = match (f, args.get(1).map(|e| &e.kind)) {
        ("get_or", _) => Some(1),
        ("field", Some(Kind::Num(n))) => Some(*n as u32),
        _ => None,
    };
    let Some(w) = width.filter(|w| (1..9).contains(w)) else { return vec![] };
    let mut out = vec![nat("%", whole, 1 << (8 * w - 1))];
    if w == 2 {
        out.push(nat("%", whole, 4096));
    }
    out
}

/// a place or a length that is no numeral, one off
fn one_off(f: &Ex, args: &[Ex], i: usize) -> Vec<Ex> {
    if matches!(args[i].kind, Kind::Num(_)) {
        return vec![];
    }
    let with = |e: Ex| {
        let mut args = args.to_vec();
        args[i] = e;
        Ex { id: 0, line: 0, kind: Kind::App(Box::new(f.clone()), args) }
    };
    vec![with(nat("+", &args[i], 1)), with(nat("-", &args[i], 1))]
}

fn operator(o: &str, a: &Ex, b: &Ex) -> Vec<Ex> {
    let arith = |g: &str| app(&format!("{KIT}{g}"), &[a, b]);
    let turned = |g: &str| app(&format!("{KIT}{g}"), &[b, a]);
    match o {
        "+" => vec![arith("-")],
        "-" => vec![arith("+"), turned("-")],
        "*" => vec![arith("+"), arith("/")],
        "/" => vec![arith("%"), arith("*"), turned("/")],
        "%" => vec![arith("/"), a.clone(), turned("%")],
        "&&" => vec![app("@std.Prelude.||", &[a, b]), a.clone(), b.clone()],
        "||" => vec![app("@std.Prelude.&&", &[a, b]), a.clone(), b.clone()],
        "++" => appended(a, b),
        "∷" => listed(a, b),
        "≤" => vec![op("@<", a, b), op("@≤", b, a)],
        "<" => vec![op("@≤", a, b), op("@<", b, a)],
        "×" => vec![a.clone(), b.clone()],
        _ => vec![],
    }
}

/// the order of parts exchanged, a part left out
fn appended(a: &Ex, b: &Ex) -> Vec<Ex> {
    let mut out = vec![op("++", b, a), a.clone(), b.clone()];
    if let Kind::Op(o, c, d) = &b.kind {
        if o == "++" {
            out.push(op("++", c, &op("++", a, d)));
        }
    }
    if let Kind::Op(o, c, d) = &a.kind {
        if o == "++" {
            out.push(op("++", &op("++", c, b), d));
        }
    }
    out
}

fn listed(a: &Ex, b: &Ex) -> Vec<Ex> {
    let mut out = vec![b.clone()];
    if let Kind::Op(o, c, d) = &b.kind {
        if o == "∷" && c.text() != a.text() {
            out.push(op("∷", c, &op("∷", a, d)));
        }
    }
    out
}

fn call(law: &Law, module: usize, ex: &Ex, f: &str, args: &[Ex]) -> Vec<Ex> {
    let kit = match law.prog.resolve(module, f) {
        Some(Res::Prim(p)) => format!("{p:?}"),
        Some(Res::Def(_)) => f.to_string(),
        _ => return vec![],
    };
    let head = name(f);
    match (kit.as_str(), args) {
        ("Eqb", [a, b]) => comparison("eqb", a, b),
        ("Leb", [a, b]) => comparison("leb", a, b),
        ("Ltb", [a, b]) => comparison("ltb", a, b),
        ("Cond", [a, b, c]) => vec![app(f, &[a, c, b])],
        ("Not", [a]) => vec![a.clone()],
        ("Suc", [a]) => vec![a.clone()],
        ("Max", [a, b]) => vec![app("@std.Prelude.min", &[a, b])],
        ("Min", [a, b]) => vec![app("@std.Prelude.max", &[a, b])],
        ("Take", [n, l]) => [one_off(&head, args, 0), vec![app("@std.Prelude.drop", &[n, l]), l.clone()]].concat(),
        ("Drop", [n, l]) => [one_off(&head, args, 0), vec![app("@std.Prelude.take", &[n, l]), l.clone()]].concat(),
        ("GetOr", [_, _, _]) => [one_off(&head, args, 1), fewer_bits("get_or", args, ex)].concat(),
        ("field", [_, _, _]) => [one_off(&head, args, 0), one_off(&head, args, 1), fewer_bits("field", args, ex)].concat(),
        ("part", [_, _, _]) => [one_off(&head, args, 0), one_off(&head, args, 1)].concat(),
        _ => vec![],
    }
}

/// each other field of its type
fn fields(law: &Law, e: &Ex, field: &str) -> Vec<Ex> {
    let mut out: Vec<String> = Vec::new();
    for fs in &law.prog.structs {
        let Some((_, kind)) = fs.iter().find(|(n, _)| n == field) else { continue };
        for (n, k) in fs {
            if n != field && k == kind && !out.contains(n) {
                out.push(n.clone());
            }
        }
    }
    out.iter().map(|n| Ex { id: 0, line: 0, kind: Kind::Proj(Box::new(e.clone()), n.clone()) }).collect()
}

fn changes_at(law: &Law, module: usize, ex: &Ex) -> Vec<Ex> {
    match &ex.kind {
        Kind::Num(n) => numeral(*n),
        Kind::Op(o, a, b) if o == "==" => comparison("eqb", a, b),
        Kind::Op(o, a, b) => operator(o, a, b),
        Kind::App(f, args) => match &f.kind {
            Kind::Name(n) => call(law, module, ex, n, args),
            _ => vec![],
        },
        Kind::Proj(e, f) => fields(law, e, f),
        _ => vec![],
    }
}

/// names that a pattern binds below `suc`, and as the tail of a list
fn below(pats: &[Ex]) -> (Vec<String>, Vec<String>) {
    let (mut numbers, mut tails) = (vec![], vec![]);
    for p in pats {
        p.walk(&mut |e| match &e.kind {
            Kind::App(f, args) => {
                if let (Kind::Name(s), Some(Kind::Name(n))) = (&f.kind, args.first().map(|a| &a.kind)) {
                    if s == "suc" {
                        numbers.push(n.clone());
                    }
                }
            }
            Kind::Op(o, _, b) => {
                if let ("∷", Kind::Name(n)) = (o.as_str(), &b.kind) {
                    tails.push(n.clone());
                }
            }
            _ => {}
        });
    }
    (numbers, tails)
}

/// a recursion that stops one early, or leaves one out
fn recursion(me: &str, clause: &Clause, ex: &Ex) -> Vec<Ex> {
    let Kind::App(f, args) = &ex.kind else { return vec![] };
    if !matches!(&f.kind, Kind::Name(n) if n == me) {
        return vec![];
    }
    let (numbers, tails) = below(&clause.pats);
    let mut out = Vec::new();
    for (i, a) in args.iter().enumerate() {
        let Kind::Name(n) = &a.kind else { continue };
        let with = |e: Ex| {
            let mut args = args.clone();
            args[i] = e;
            Ex { id: 0, line: 0, kind: Kind::App(f.clone(), args) }
        };
        if numbers.contains(n) {
            out.push(with(nat("-", a, 1)));
        }
        if tails.contains(n) {
            let less = nat("-", &app("@std.Prelude.length", &[a]), 1);
            out.push(with(app("@std.Prelude.take", &[&less, a])));
            out.push(with(app("@std.Prelude.drop", &[&num(1), a])));
        }
    }
    out
}

fn replaced(ex: &Ex, at: Id, new: &Ex) -> Ex {
    if ex.id == at {
        return Ex { id: at, ..new.clone() };
    }
    let mut out = ex.clone();
    for c in out.children_mut() {
        *c = replaced(c, at, new);
    }
    out
}

fn in_clause(law: &Law, module: usize, me: &str, clause: &Clause) -> Vec<Change> {
    let mut out: Vec<Change> = Vec::new();
    clause.body.walk(&mut |e| {
        let mut all = changes_at(law, module, e);
        all.extend(recursion(me, clause, e));
        let old = e.text();
        out.extend(all.into_iter().filter(|n| n.text() != old).map(|new| Change { at: e.id, line: e.line, old: old.clone(), new }));
    });
    out
}

/// A definition's mutants.
pub fn mutants(law: &Law, def: Def) -> Vec<Mutant> {
    let info = &law.prog.infos[def as usize];
    let What::Fun { clauses, .. } = &info.what else { return vec![] };
    let title = law.prog.title(def);
    let mut out = Vec::new();
    for (i, clause) in clauses.iter().enumerate() {
        for c in in_clause(law, info.module, &info.name, clause) {
            let mut changed = clauses.clone();
            changed[i].body = replaced(&clause.body, c.at, &c.new);
            let key = format!("{title}: {} => {}", c.old, c.new.text());
            out.push(Mutant { def, key, line: c.line, at: c.at, clauses: changed });
        }
        for j in [i.wrapping_sub(1), i + 1] {
            if clauses.get(j).is_some_and(|n| n.body.text() != clause.body.text()) {
                let mut changed = clauses.clone();
                changed[i].body = clauses[j].body.clone();
                let key = format!("{title}: clause {} => the result of clause {}", i + 1, j + 1);
                out.push(Mutant { def, key, line: clause.line, at: clause.body.id, clauses: changed });
            }
        }
    }
    number(&mut out);
    out
}

/// keys that are alike get a number behind them
fn number(all: &mut [Mutant]) {
    let mut seen: std::collections::HashMap<String, usize> = std::collections::HashMap::new();
    for m in all {
        let n = seen.entry(m.key.clone()).or_insert(0);
        *n += 1;
        if *n > 1 {
            m.key = format!("{} #{n}", m.key);
        }
    }
}

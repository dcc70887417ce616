//! `law mutate`: each mutant against the worked cases that reach it, or, for a figure only, against streams of card input.

use crate::cases::{self, Case};
use crate::change::{self, Mutant};
use crate::code::Def;
use crate::compile::{self, Regions};
use crate::eval::Stop;
use crate::law::Law;
use crate::load::{Res, What};
use crate::tree::Kind;
use crate::value::{self, V};
use std::collections::{BTreeMap, HashMap, HashSet};
use std::rc::Rc;

/// What a mutant is held to: a worked case, or what the card program wrote for some input before it.
enum Test {
    Case(Case),
    Stream { file: String, input: V, output: V },
}

impl Test {
    fn title(&self) -> &str {
        match self {
            Test::Case(c) => &c.title,
            Test::Stream { file, .. } => file,
        }
    }

    fn holds(&self, law: &mut Law) -> Result<Option<bool>, Stop> {
        match self {
            Test::Case(c) => cases::holds(law, c),
            Test::Stream { input, output, .. } => {
                law.machine.clear();
                let card = law.prog.find("rules.Card.card").expect("the card program");
                let written = law.machine.define(card, vec![input.clone()])?;
                law.machine.same(&written, output).map(Some)
            }
        }
    }
}

/// A test, what it reaches and how many calls it takes.
pub struct Known {
    test: Test,
    seen: Vec<bool>,
    cost: u64,
}

impl Known {
    pub fn title(&self) -> &str {
        self.test.title()
    }

    pub fn comes_to(&self, region: usize) -> bool {
        self.seen.get(region) == Some(&true)
    }
}

/// The worked cases, the shortest first.
pub fn cases(law: &mut Law) -> Vec<Known> {
    let tests = cases::listed(law).into_iter().map(Test::Case).collect();
    known(law, tests)
}

#[derive(Clone, Copy, PartialEq)]
enum Fate {
    Noticed,
    Equal,
    Open,
    Unreached,
    /// not well formed: it is no reading
    None,
}

#[derive(Default)]
struct Score {
    noticed: usize,
    equal: usize,
    open: usize,
    unreached: usize,
}

const PLENTY: u64 = u64::MAX;

/// The files of card input, each with its output by the definitions as they stand.
fn streams(law: &mut Law, files: &[String]) -> Result<Vec<Test>, String> {
    let mut out = Vec::new();
    for file in files {
        let input = value::bytes(std::fs::read(file).map_err(|e| format!("{file}: {e}"))?);
        let output = law.value("rules.Card.card", vec![input.clone()])?;
        out.push(Test::Stream { file: file.clone(), input, output });
    }
    Ok(out)
}

fn known(law: &mut Law, tests: Vec<Test>) -> Vec<Known> {
    let mut out = Vec::new();
    for test in tests {
        law.machine.cafs.iter_mut().for_each(|c| *c = None);
        law.machine.seen = Some(vec![false; law.regions.count as usize]);
        law.machine.fuel = PLENTY;
        let held = test.holds(law);
        let seen = law.machine.seen.take().unwrap_or_default();
        if let Ok(Some(true)) = held {
            out.push(Known { test, seen, cost: PLENTY - law.machine.fuel });
        }
    }
    out.sort_by_key(|k| k.cost);
    out
}

/// Functions of one argument of the tables that no definition of the law stands behind: `hex`, `input`.
fn keep(law: &mut Law, users: &[HashSet<usize>]) {
    let n = law.prog.infos.len();
    let mut touched = HashSet::new();
    let own = |law: &Law, d: usize| law.prog.is_table(d as Def);
    let mut todo: Vec<usize> = (0..n).filter(|d| !own(law, *d)).collect();
    while let Some(d) = todo.pop() {
        if touched.insert(d) {
            todo.extend(&users[d]);
        }
    }
    for d in 0..n {
        let one = law.machine.code[d].as_ref().is_some_and(|c| c.arity == 1);
        law.machine.keeps[d] = one && !touched.contains(&d);
    }
}

/// By each definition, those that name it.
pub fn users(law: &Law) -> Vec<HashSet<usize>> {
    let n = law.prog.infos.len();
    let mut users: Vec<HashSet<usize>> = vec![HashSet::new(); n];
    for def in 0..n {
        let info = &law.prog.infos[def];
        let What::Fun { clauses, .. } = &info.what else { continue };
        for c in clauses {
            c.body.walk(&mut |e| {
                let name = match &e.kind {
                    Kind::Name(n) | Kind::Op(n, ..) => n,
                    _ => return,
                };
                if let Some(Res::Def(d)) = law.prog.resolve(info.module, name) {
                    users[d as usize].insert(def);
                }
            });
        }
    }
    users
}

/// The constants that need a definition, directly or through others.
pub fn constants(law: &Law, users: &[HashSet<usize>], def: usize) -> Vec<Def> {
    let (mut todo, mut seen) = (vec![def], HashSet::new());
    while let Some(d) = todo.pop() {
        if seen.insert(d) {
            todo.extend(&users[d]);
        }
    }
    let constant = |d: &usize| law.machine.code[*d].as_ref().is_some_and(|c| c.arity == 0);
    seen.into_iter().filter(constant).map(|d| d as Def).collect()
}

/// One case under a mutant: whether it is noticed; none if the mutant is no reading.
fn notices(law: &mut Law, k: &Known) -> Option<bool> {
    law.machine.fuel = k.cost * 20 + 100_000;
    match k.test.holds(law) {
        Ok(Some(held)) => Some(!held),
        Ok(None) => Some(true),
        Err(Stop::Fuel) => Some(true),
        Err(Stop::Error(e)) if e.contains("too large") || e.contains("fits") || e.contains("Replicate") => Some(true),
        Err(Stop::Error(_)) => None,
    }
}

fn fate(law: &mut Law, known: &[Known], m: &Mutant, resets: &[Def]) -> (Fate, String) {
    let mut scratch = Regions { count: law.regions.count, ..Regions::default() };
    let Ok(code) = compile::function(&mut law.prog, &mut scratch, m.def, &m.clauses) else { return (Fate::None, String::new()) };
    let region = law.regions.of.get(&m.at).copied().unwrap_or(0) as usize;
    let reached: Vec<&Known> = known.iter().filter(|k| k.comes_to(region)).collect();
    if reached.is_empty() {
        return (Fate::Unreached, String::new());
    }
    let before = law.machine.code[m.def as usize].replace(Rc::new(code));
    let mut fate = (Fate::Open, String::new());
    for k in reached {
        resets.iter().for_each(|d| law.machine.cafs[*d as usize] = None);
        match notices(law, k) {
            Some(true) => fate = (Fate::Noticed, k.title().to_string()),
            Some(false) => continue,
            None => fate = (Fate::None, String::new()),
        }
        break;
    }
    law.machine.code[m.def as usize] = before;
    resets.iter().for_each(|d| law.machine.cafs[*d as usize] = None);
    fate
}

/// The case that notices a mutant.
pub fn notice(law: &mut Law, known: &[Known], m: &Mutant, resets: &[Def]) -> Option<String> {
    let (fate, by) = fate(law, known, m, resets);
    (fate == Fate::Noticed).then_some(by)
}

/// law/equal.txt: `KEY -- REASON` in each line; a key may end in a star.
fn equals(root: &std::path::Path) -> Vec<(String, bool)> {
    let text = std::fs::read_to_string(root.join("law/equal.txt")).unwrap_or_default();
    let keys = text.lines().filter(|l| !l.starts_with('#')).filter_map(|l| l.split_once(" -- ")).map(|(k, _)| k.trim());
    keys.map(|k| (k.trim_end_matches('*').to_string(), k.ends_with('*'))).collect()
}

/// law/closed.txt: the modules of which no mutant may be open.
fn closed(root: &std::path::Path) -> HashSet<String> {
    let text = std::fs::read_to_string(root.join("law/closed.txt")).unwrap_or_default();
    text.lines().filter(|l| !l.starts_with('#')).map(|l| l.trim().to_string()).collect()
}

fn is_equal(list: &[(String, bool)], key: &str) -> bool {
    list.iter().any(|(k, star)| if *star { key.starts_with(k.as_str()) } else { key == k })
}

struct Words {
    files: Vec<String>,
    part: (usize, usize),
    every: bool,
    streams: Vec<String>,
}

fn words(args: &[String]) -> Result<Words, String> {
    let mut out = Words { files: vec![], part: (0, 1), every: false, streams: vec![] };
    let mut it = args.iter();
    while let Some(w) = it.next() {
        match w.as_str() {
            "--part" => {
                let text = it.next().ok_or("--part needs I/N")?;
                let (i, n) = text.split_once('/').ok_or("--part needs I/N")?;
                let number = |t: &str| t.parse::<usize>().map_err(|_| format!("--part: no number: {t}"));
                out.part = (number(i)?, number(n)?.max(1));
            }
            "--every" => out.every = true,
            "--stream" => out.streams.push(it.next().ok_or("--stream needs a file")?.clone()),
            other if other.starts_with('-') => return Err(format!("mutate has no option {other}")),
            file => out.files.push(file.to_string()),
        }
    }
    Ok(out)
}

fn chosen(law: &Law, w: &Words, def: Def) -> bool {
    let info = &law.prog.infos[def as usize];
    let key = &law.prog.modules[info.module].key;
    let title = law.prog.title(def);
    let law_itself = ["rules.", "demands.", "recording.", "recall_rules.", "follow."].iter().any(|c| key.starts_with(c))
        && !law.prog.is_table(def);
    if w.files.is_empty() {
        law_itself
    } else {
        w.files.iter().any(|f| key == f || &title == f)
    }
}

/// The words; one that names no module and no definition would try nothing and pass.
fn meant(law: &Law, args: &[String]) -> Result<Words, String> {
    let w = words(args)?;
    let known = |f: &&String| law.prog.find(f).is_some() || law.prog.modules.iter().any(|m| &m.key == *f);
    match w.files.iter().find(|f| !known(f)) {
        Some(word) => Err(format!("no module and no definition {word}")),
        None => Ok(w),
    }
}

fn add(s: &mut Score, fate: Fate) {
    match fate {
        Fate::Noticed => s.noticed += 1,
        Fate::Equal => s.equal += 1,
        Fate::Open => s.open += 1,
        Fate::Unreached => s.unreached += 1,
        Fate::None => {}
    }
}

fn all(law: &Law, w: &Words) -> Vec<Mutant> {
    let defs = (0..law.prog.infos.len() as Def).filter(|d| chosen(law, w, *d));
    let all: Vec<Mutant> = defs.flat_map(|d| change::mutants(law, d)).collect();
    all.into_iter().enumerate().filter(|(i, _)| i % w.part.1 == w.part.0 % w.part.1).map(|(_, m)| m).collect()
}

pub fn run(law: &mut Law, args: &[String], root: &std::path::Path) -> Result<i32, String> {
    let w = meant(law, args)?;
    let (list, users) = (equals(root), users(law));
    let closed = closed(root);
    let known = match w.streams.is_empty() {
        true => cases(law),
        false => {
            let tests = streams(law, &w.streams)?;
            known(law, tests)
        }
    };
    keep(law, &users);
    let mut deps: HashMap<Def, Vec<Def>> = HashMap::new();
    let mut scores: BTreeMap<String, Score> = BTreeMap::new();
    let mut wrong = 0;
    for m in all(law, &w) {
        let module = law.prog.infos[m.def as usize].module;
        let file = law.prog.modules[module].file.clone();
        let resets = deps.entry(m.def).or_insert_with(|| constants(law, &users, m.def as usize)).clone();
        let (mut f, by) = fate(law, &known, &m, &resets);
        let listed = is_equal(&list, &m.key);
        if listed && f == Fate::Noticed && w.streams.is_empty() {
            println!("listed as equal, but noticed by {by}: {}", m.key);
            wrong += 1;
        }
        if listed && matches!(f, Fate::Open | Fate::Unreached) {
            f = Fate::Equal;
        }
        if matches!(f, Fate::Open | Fate::Unreached) && w.streams.is_empty() && closed.contains(&law.prog.modules[module].key) {
            wrong += 1;
        }
        add(scores.entry(file.clone()).or_default(), f);
        tell(f, &format!("{file}:{}: {}", m.line, m.key), &by, w.every);
    }
    let held = table(&scores);
    println!("{held} passed, {wrong} failed");
    Ok(i32::from(wrong > 0))
}

fn tell(fate: Fate, mutant: &str, by: &str, every: bool) {
    match fate {
        Fate::Open => println!("open: {mutant}"),
        Fate::Unreached => println!("reached by no case: {mutant}"),
        Fate::Noticed if every => println!("noticed by {by}: {mutant}"),
        _ => {}
    }
}

/// The scores by file; how many mutants are noticed or equal.
fn table(scores: &BTreeMap<String, Score>) -> usize {
    let mut sum = Score::default();
    println!("| File | Mutants | Noticed | Equal | Open | Reached by no case |\n|---|---|---|---|---|---|");
    let row = |name: &str, s: &Score| {
        let n = s.noticed + s.equal + s.open + s.unreached;
        println!("| {name} | {n} | {} | {} | {} | {} |", s.noticed, s.equal, s.open, s.unreached);
    };
    for (file, s) in scores {
        row(file, s);
        sum.noticed += s.noticed;
        sum.equal += s.equal;
        sum.open += s.open;
        sum.unreached += s.unreached;
    }
    row("all", &sum);
    sum.noticed + sum.equal
}

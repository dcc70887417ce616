//! The whole law: every definition read, and the commands.

use crate::code::{Def, FunCode, LamCode};
use crate::compile::{self, Regions};
use crate::eval::{Machine, Stop};
use crate::load::{self, Program, What};
use crate::tree::Kind;
use crate::value::{self, V};
use crate::{cases, cues, lex, mutate, named, parse, reach, show, states, table};
use std::collections::HashMap;
use std::io::{Read, Write};
use std::path::Path;
use std::rc::Rc;

pub struct Law {
    pub prog: Program,
    pub regions: Regions,
    pub machine: Machine,
    pub fields: HashMap<Def, Vec<Option<Rc<LamCode>>>>,
    /// definitions that could not be read, with their places
    pub errors: Vec<String>,
}

const HELP: &str = "\
law: the definitions of crates/*/specs, run
  law read                   reads every definition; each that it cannot read is a line with file and line
  law run <IN                the card program, by its definition: input to output
  law runs FILE..            the same for each file, its output to FILE.law
  law states FILE..          for each file of card input: output, state and all reads after each call, to FILE.states
  law recalls FILE..         its output by the second engine's rules, to FILE.recall
  law rolls <ROWS            rolling cards' calls, as `model states --rolling` writes them, with what the definitions give
  law recordings DIR         what is found in each recording of a folder that `model recordings --out` wrote
  law show DEF ARGS          a definition's value, as law show rules.Reading.read_alive hex:0000000000000000
  law cues <ROWS             cue calls, as `model cues --rows` writes them, with what the definitions give
  law kit                    the kit's functions on a table of arguments, as statements for the prover
  law cases                  every worked case of crates/cases that it can decide
  law named                  the wrong readings of law/named.txt, each refused by name
  law reach                  which worked cases come to which definition
  law mutate [--every] [--part I/N] [--stream FILE].. [MODULE..]
                             mechanical changes of definitions, one at a time, each against the worked cases that reach it: of rules and
                             demands, of recordings and of the second engine, or of the named modules or definitions (rules.Reading,
                             rules.Descriptors.mux_of); with --stream against the card program's output for such input in place of cases
The repository is the present folder, or that in LAW_ROOT.";

impl Law {
    pub fn read(root: &Path) -> Law {
        let mut prog = load::load(root);
        let mut regions = Regions { count: 1, ..Regions::default() };
        let mut errors = prog.bad.clone();
        let mut code: Vec<Option<Rc<FunCode>>> = vec![None; prog.infos.len()];
        for def in 0..prog.infos.len() {
            let What::Fun { clauses, sig } = prog.infos[def].what.clone() else { continue };
            if prog.infos[def].under {
                continue;
            }
            let lemma = prog.is_table(def as Def) && sig.is_some_and(|s| matches!(s.kind, Kind::Pi(..)));
            match compile::function(&mut prog, &mut regions, def as Def, &clauses) {
                Ok(made) => code[def] = Some(Rc::new(made)),
                // a lemma of the tables' proofs is no definition
                Err(_) if lemma => {}
                Err(e) => errors.push(e),
            }
        }
        let titles = (0..prog.infos.len()).map(|d| prog.title(d as Def)).collect();
        let machine = Machine::new(code, prog.names.clone(), titles);
        Law { prog, regions, machine, fields: HashMap::new(), errors }
    }

    /// A module that no file has, its definitions read.
    pub fn text(&mut self, key: &str, text: &str) -> Result<usize, String> {
        let from = self.prog.infos.len();
        let module = self.prog.text(key, text);
        for def in from..self.prog.infos.len() {
            let What::Fun { clauses, .. } = self.prog.infos[def].what.clone() else { continue };
            let made = compile::function(&mut self.prog, &mut self.regions, def as Def, &clauses)?;
            self.machine.code.push(Some(Rc::new(made)));
            self.machine.cafs.push(None);
        }
        Ok(module)
    }

    pub fn value(&mut self, name: &str, args: Vec<V>) -> Result<V, String> {
        let def = self.prog.find(name).ok_or(format!("no definition {name}"))?;
        let arity = self.machine.code[def as usize].as_ref().map_or(0, |c| c.arity);
        let got = if arity == 0 {
            self.machine.caf(def)
        } else if args.len() >= arity {
            let mut args = args;
            let rest = args.split_off(arity);
            self.machine.define(def, args).and_then(|v| if rest.is_empty() { Ok(v) } else { self.machine.apply(v, rest) })
        } else {
            Err(Stop::Error(format!("{name} takes {arity} arguments")))
        };
        got.map_err(|e| format!("{name}: {e:?}"))
    }

    pub fn field(&mut self, v: &V, name: &str) -> Result<V, String> {
        let V::Rec(r) = v else { return Err(format!("no record, for its field {name}")) };
        let at = r.names.iter().position(|s| self.machine.names[*s as usize] == name);
        at.map(|i| r.vals[i].clone()).ok_or(format!("no field {name}"))
    }

    pub fn argument(&mut self, module: usize, word: &str) -> Result<V, String> {
        if let Some(digits) = word.strip_prefix("hex:") {
            return hex(digits).map(value::bytes);
        }
        let words = lex::words(word)?;
        let ex = parse::expression(&words, &mut self.prog.ids)?;
        let code = compile::expression(&mut self.prog, &mut self.regions, module, &[], &ex)?;
        self.machine.names = self.prog.names.clone();
        self.machine.closed(&code, vec![]).map_err(|e| format!("{word}: {e:?}"))
    }
}

fn hex(digits: &str) -> Result<Vec<u8>, String> {
    let d: Vec<char> = digits.chars().filter(|c| !c.is_whitespace()).collect();
    if d.len() % 2 == 1 {
        return Err(format!("half a byte: {digits}"));
    }
    let pair = |p: &[char]| u8::from_str_radix(&p.iter().collect::<String>(), 16).map_err(|_| format!("no bytes: {digits}"));
    d.chunks(2).map(pair).collect()
}

fn read(law: &mut Law) -> i32 {
    let mut by: std::collections::BTreeMap<String, usize> = std::collections::BTreeMap::new();
    for (def, info) in law.prog.infos.iter().enumerate() {
        if law.machine.code[def].is_some() {
            *by.entry(law.prog.modules[info.module].file.clone()).or_default() += 1;
        }
    }
    for (file, n) in &by {
        println!("{file}: {n}");
    }
    for e in &law.errors {
        println!("not read: {e}");
    }
    println!("{} passed, {} failed", by.values().sum::<usize>(), law.errors.len());
    i32::from(!law.errors.is_empty())
}

fn card(law: &mut Law, input: Vec<u8>) -> Result<Vec<u8>, String> {
    let out = law.value("rules.Card.card", vec![value::bytes(input)])?;
    value::as_bytes(&out).ok_or("the output is not bytes".to_string())
}

fn run(law: &mut Law) -> Result<i32, String> {
    let mut input = Vec::new();
    std::io::stdin().read_to_end(&mut input).map_err(|e| e.to_string())?;
    let out = card(law, input)?;
    std::io::stdout().write_all(&out).map_err(|e| e.to_string())?;
    Ok(0)
}

fn runs(law: &mut Law, files: &[String]) -> Result<i32, String> {
    for file in files {
        let input = std::fs::read(file).map_err(|e| format!("{file}: {e}"))?;
        let out = card(law, input).map_err(|e| format!("{file}: {e}"))?;
        std::fs::write(format!("{file}.law"), out).map_err(|e| format!("{file}: {e}"))?;
    }
    Ok(0)
}

/// definitions of that name in some module, for one who gave the name alone
fn meant(law: &Law, name: &str) -> String {
    let ends = format!(".{name}");
    let titles = (0..law.prog.infos.len()).map(|d| law.prog.title(d as Def));
    let some: Vec<String> = titles.filter(|t| t.ends_with(&ends)).take(5).collect();
    if some.is_empty() {
        format!("no definition {name}")
    } else {
        format!("no definition {name}; there is {}", some.join(", "))
    }
}

fn shown(law: &mut Law, words: &[String]) -> Result<i32, String> {
    let name = words.first().ok_or("a definition is needed")?;
    let def = law.prog.find(name).ok_or_else(|| meant(law, name))?;
    let module = law.prog.infos[def as usize].module;
    let args = words[1..].iter().map(|w| law.argument(module, w)).collect::<Result<Vec<_>, _>>()?;
    let v = law.value(name, args)?;
    println!("{}", show::text(law, &v)?);
    Ok(0)
}

pub fn command(args: &[String]) -> i32 {
    let root = std::env::var("LAW_ROOT").unwrap_or_else(|_| ".".to_string());
    let word = args.first().map_or("--help", String::as_str);
    if ["--help", "-h", "help"].contains(&word) {
        println!("{HELP}");
        return 0;
    }
    let mut law = Law::read(Path::new(&root));
    let done = match word {
        "read" => Ok(read(&mut law)),
        "run" => run(&mut law),
        "runs" => runs(&mut law, &args[1..]),
        "states" => states::files(&mut law, &args[1..], false),
        "recalls" => states::files(&mut law, &args[1..], true),
        "rolls" => states::rolls(&mut law),
        "recordings" => states::recordings(&mut law, args.get(1).map_or(".", String::as_str)),
        "show" => shown(&mut law, &args[1..]),
        "cases" => cases::all(&mut law, &args[1..]),
        "cues" => cues::rows(&mut law),
        "named" => named::all(&mut law, Path::new(&root)),
        "reach" => reach::all(&mut law),
        "mutate" => mutate::run(&mut law, &args[1..], Path::new(&root)),
        "kit" => table::statements(&mut law),
        _ => Err(format!("no command {word}")),
    };
    done.unwrap_or_else(|e| {
        eprintln!("law: {e}");
        2
    })
}

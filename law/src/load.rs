//! All files of crates/*/specs, and the types that crates/*/src declare; what each name means in each module.

use crate::code::{Def, Sym};
use crate::kit::{self, kit};
use crate::tree::{Clause, Ex, Id, Item, Kind, Param, Placed};
use crate::{lex, parse};
use std::collections::HashMap;
use std::path::Path;

#[derive(Clone, Debug)]
pub enum Res {
    Def(Def),
    Prim(crate::code::Prim),
    Bool(bool),
    Nil,
    Zero,
    Unit,
    Truth(bool),
    Type,
    /// a name of the kit that no definition is computed with
    Foreign(String),
}

#[derive(Clone, Debug)]
pub enum What {
    Fun { sig: Option<Ex>, clauses: Vec<Clause> },
    Con { arity: usize },
    Record { params: Vec<Param>, fields: Vec<(String, Ex)> },
    Type,
}

#[derive(Clone, Debug)]
pub struct Info {
    pub name: String,
    pub module: usize,
    pub what: What,
    pub under: bool,
}

#[derive(Default)]
pub struct Module {
    pub key: String,
    pub file: String,
    own: HashMap<String, Def>,
    used: HashMap<String, (String, String)>,
    whole: HashMap<String, String>,
}

#[derive(Default)]
pub struct Program {
    pub modules: Vec<Module>,
    pub infos: Vec<Info>,
    pub ids: Id,
    pub bad: Vec<String>,
    keys: HashMap<String, usize>,
    syms: HashMap<String, Sym>,
    pub names: Vec<String>,
    /// of each record type and struct, its fields and their types
    pub structs: Vec<Vec<(String, String)>>,
}

fn explicit(kind: &Ex) -> usize {
    match &kind.kind {
        Kind::Pi(names, _, rest, implicit) => explicit(rest) + if *implicit { 0 } else { names.len().max(1) },
        _ => 0,
    }
}

/// "Rattle.rules.specs.Lists" is the module rules.Lists
fn key(path: &[String]) -> String {
    let rest = if path[0] == "Rattle" { &path[1..] } else { path };
    rest.iter().map(String::as_str).filter(|p| *p != "specs").collect::<Vec<_>>().join(".")
}

impl Program {
    pub fn sym(&mut self, name: &str) -> Sym {
        if let Some(s) = self.syms.get(name) {
            return *s;
        }
        let s = self.names.len() as Sym;
        self.names.push(name.to_string());
        self.syms.insert(name.to_string(), s);
        s
    }

    fn module(&mut self, key: &str, file: &str) -> usize {
        if let Some(m) = self.keys.get(key) {
            return *m;
        }
        self.modules.push(Module { key: key.to_string(), file: file.to_string(), ..Module::default() });
        self.keys.insert(key.to_string(), self.modules.len() - 1);
        self.modules.len() - 1
    }

    fn define(&mut self, module: usize, name: &str, what: What) -> Def {
        let def = self.infos.len() as Def;
        self.infos.push(Info { name: name.to_string(), module, what, under: false });
        self.modules[module].own.insert(name.to_string(), def);
        def
    }

    fn fun(&mut self, module: usize, name: &str) -> Def {
        match self.modules[module].own.get(name) {
            Some(def) => *def,
            None => self.define(module, name, What::Fun { sig: None, clauses: vec![] }),
        }
    }

    fn put(&mut self, m: usize, placed: Placed) {
        match placed.item {
            Item::Use { path, names: Some(names), .. } => {
                let from = key(&path);
                for (name, here) in names {
                    self.modules[m].used.insert(here, (from.clone(), name));
                }
            }
            Item::Use { path, alias, .. } => {
                self.modules[m].whole.insert(alias, key(&path));
            }
            Item::Record { name, params, fields } => {
                self.structs.push(fields.iter().map(|(n, k)| (n.clone(), k.text())).collect());
                self.define(m, &name, What::Record { params, fields });
            }
            Item::Data { name, cons } => {
                self.define(m, &name, What::Type);
                for (con, kind) in cons {
                    let what = What::Con { arity: explicit(&kind) };
                    self.define(m, &con, what);
                }
            }
            Item::Sig { name, kind } => {
                let def = self.fun(m, &name);
                self.infos[def as usize].under = placed.under;
                if let What::Fun { sig, .. } = &mut self.infos[def as usize].what {
                    *sig = Some(kind);
                }
            }
            Item::Eqn { name, clause } => {
                let def = self.fun(m, &name);
                if let What::Fun { clauses, .. } = &mut self.infos[def as usize].what {
                    clauses.push(clause);
                }
            }
        }
    }

    /// A module that no file has.
    pub fn text(&mut self, key: &str, text: &str) -> usize {
        let m = self.module(key, key);
        let (items, _) = parse::file(&lex::words(text).unwrap_or_default(), &mut self.ids);
        for item in items {
            self.put(m, item);
        }
        m
    }

    fn file(&mut self, key: &str, path: &Path, shown: &str) {
        let text = match std::fs::read_to_string(path) {
            Ok(text) => text,
            Err(e) => return self.bad.push(format!("{shown}: {e}")),
        };
        let words = match lex::words(&text) {
            Ok(words) => words,
            Err(e) => return self.bad.push(format!("{shown}:{e}")),
        };
        let m = self.module(key, shown);
        let (items, bad) = parse::file(&words, &mut self.ids);
        self.bad.extend(bad.into_iter().map(|(line, e)| format!("{shown}:{line}: {e}")));
        for item in items {
            self.put(m, item);
        }
    }

    /// `pub enum Name { A(u64), B }` and `pub struct Name ..` of a source file
    fn declared(&mut self, prefix: &str, path: &Path) {
        let text = std::fs::read_to_string(path).unwrap_or_default();
        let plain: String = text.lines().map(|l| l.split("//").next().unwrap_or("").to_string() + "\n").collect();
        for word in ["struct ", "enum "] {
            for (at, _) in plain.match_indices(word).filter(|(i, _)| *i == 0 || plain[..*i].ends_with(['\n', ' '])) {
                self.declaration(prefix, &plain[at + word.len()..], word == "enum ");
            }
        }
    }

    fn declaration(&mut self, prefix: &str, text: &str, is_enum: bool) {
        let name: String = text.chars().take_while(|c| c.is_alphanumeric() || *c == '_').collect();
        let m = self.module(&format!("{prefix}.{name}"), "");
        self.define(m, &name, What::Type);
        if !is_enum {
            let body = text.split(['{', ';']).nth(1).and_then(|b| b.split('}').next()).unwrap_or("");
            let fields = body.split(',').filter_map(|f| f.trim().trim_start_matches("pub ").split_once(": "));
            self.structs.push(fields.map(|(n, k)| (n.trim().to_string(), k.trim().to_string())).collect());
            return;
        }
        let body = text.split('{').nth(1).and_then(|b| b.split('}').next()).unwrap_or("");
        let v = self.module(&format!("{prefix}.{name}.TheVariants"), "");
        let mut depth = 0;
        let parts = body.split(|c| {
            depth += i32::from(c == '(') - i32::from(c == ')');
            c == ',' && depth == 0
        });
        for part in parts.map(str::trim).filter(|p| !p.is_empty()) {
            let con: String = part.chars().take_while(|c| c.is_alphanumeric() || *c == '_').collect();
            let arity = if part.contains('(') { part.matches(',').count() + 1 } else { 0 };
            self.define(v, &con, What::Con { arity });
        }
    }

    pub fn resolve(&self, module: usize, name: &str) -> Option<Res> {
        let m = &self.modules[module];
        if let Some(def) = m.own.get(name) {
            return Some(Res::Def(*def));
        }
        if let Some((from, orig)) = m.used.get(name) {
            return self.from(from, orig);
        }
        if let Some((q, rest)) = name.split_once('.') {
            if let Some(from) = m.whole.get(q) {
                return self.from(from, rest);
            }
        }
        kit("", name)
    }

    fn from(&self, key: &str, name: &str) -> Option<Res> {
        match self.keys.get(kit::declared(key, name).unwrap_or(key)) {
            Some(m) => self.resolve(*m, name),
            None if key.contains("declared") => None,
            None => Some(kit(key, name).unwrap_or(Res::Foreign(format!("{key}.{name}")))),
        }
    }

    pub fn find(&self, name: &str) -> Option<Def> {
        let (module, name) = name.rsplit_once('.')?;
        let m = self.keys.get(module)?;
        self.modules[*m].own.get(name).copied()
    }

    /// a definition of a table of worked cases: of the crate cases, or of a file proofs/Worked*
    pub fn is_table(&self, def: Def) -> bool {
        let key = &self.modules[self.infos[def as usize].module].key;
        key.starts_with("cases.") || key.contains(".proofs.Worked")
    }

    pub fn title(&self, def: Def) -> String {
        let info = &self.infos[def as usize];
        format!("{}.{}", self.modules[info.module].key, info.name)
    }
}

fn listed(dir: &Path, ending: &str) -> Vec<std::path::PathBuf> {
    let entries = std::fs::read_dir(dir).into_iter().flatten().flatten().map(|e| e.path());
    let mut all: Vec<_> = entries.filter(|p| ending.is_empty() || p.to_string_lossy().ends_with(ending)).collect();
    all.sort();
    all
}

fn stem(p: &Path) -> String {
    p.file_stem().map(|s| s.to_string_lossy().to_string()).unwrap_or_default()
}

/// All of the repository at root.
pub fn load(root: &Path) -> Program {
    let mut p = Program::default();
    for (module, text) in kit::ENUMS {
        p.declaration(module, text, true);
    }
    for dir in listed(&root.join("crates"), "") {
        let name = stem(&dir);
        for src in listed(&dir.join("src"), ".rt") {
            let sub = if ["lib", "main"].contains(&stem(&src).as_str()) { String::new() } else { format!(".{}", stem(&src)) };
            p.declared(&format!("{name}.declared{sub}"), &src);
        }
        for spec in listed(&dir.join("specs"), ".antt") {
            if stem(&spec) != "Lib" && !spec.with_extension("").is_dir() {
                let shown = format!("crates/{name}/specs/{}.antt", stem(&spec));
                p.file(&format!("{name}.{}", stem(&spec)), &spec, &shown);
            }
        }
        // worked cases of a crate that stands above the crate cases
        for table in listed(&dir.join("proofs"), ".antt").into_iter().filter(|t| stem(t).starts_with("Worked")) {
            let shown = format!("crates/{name}/proofs/{}.antt", stem(&table));
            p.file(&format!("{name}.proofs.{}", stem(&table)), &table, &shown);
        }
        // a folder of definitions has a file of its name that only lists it
        for folder in listed(&dir.join("specs"), "").into_iter().filter(|f| f.is_dir()) {
            for spec in listed(&folder, ".antt") {
                let part = stem(&folder);
                let shown = format!("crates/{name}/specs/{part}/{}.antt", stem(&spec));
                p.file(&format!("{name}.{part}.{}", stem(&spec)), &spec, &shown);
            }
        }
    }
    p
}

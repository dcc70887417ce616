//! Definitions made into code. Arguments are computed before a call; what `let` names, the branches of `cond` and the right sides of
//! `&&` and `||` only when they are asked for. An expression that stands twice in a clause is computed once.

use crate::code::{ClauseCode, Def, FunCode, LamCode, Pat, Prim, Region, C};
use crate::kit::{arity, kit};
use crate::load::{Program, Res, What};
use crate::tree::{Clause, Ex, Id, Kind};
use crate::value::{bytes, Fun, Ty, V};
use std::cell::Cell;
use std::collections::{HashMap, HashSet};
use std::rc::Rc;

#[derive(Default)]
struct Frame {
    names: Vec<(String, u32)>,
    slots: u32,
    takes: Vec<(u32, u32)>,
}

impl Frame {
    fn slot(&mut self) -> u32 {
        self.slots += 1;
        self.slots - 1
    }

    fn bind(&mut self, name: &str) -> u32 {
        let slot = self.slot();
        self.names.push((name.to_string(), slot));
        slot
    }
}

/// Which region each expression stands in: a part of a definition that is computed as a whole or not at all.
#[derive(Default)]
pub struct Regions {
    pub of: HashMap<Id, Region>,
    pub all: HashMap<Def, Vec<Region>>,
    pub count: Region,
}

pub struct Compiler<'a> {
    prog: &'a mut Program,
    regions: &'a mut Regions,
    module: usize,
    def: Def,
    frames: Vec<Frame>,
    region: Region,
    shared: HashSet<String>,
}

const NOWHERE: Region = Region::MAX;

type Made<T> = Result<T, String>;

fn arity_of(what: &What) -> usize {
    match what {
        What::Fun { clauses, .. } => clauses.first().map_or(0, |c| c.pats.len()),
        What::Con { arity } => *arity,
        What::Record { params, .. } => params.iter().map(|p| p.names.len()).sum(),
        What::Type => 0,
    }
}

/// A name of the kit by its module, or a statement's sign, in a changed definition.
fn absolute(name: &str) -> Option<Res> {
    match name {
        "<" => Some(Res::Prim(Prim::Lt)),
        "≤" => Some(Res::Prim(Prim::Le)),
        _ => name.rsplit_once('.').and_then(|(m, n)| kit(m, n)),
    }
}

fn other() -> C {
    C::Val(V::Ty(Rc::new(Ty::Other)))
}

impl Compiler<'_> {
    fn top(&mut self) -> &mut Frame {
        self.frames.last_mut().expect("a frame")
    }

    fn local(&mut self, name: &str, level: usize) -> Option<u32> {
        if let Some((_, slot)) = self.frames[level].names.iter().rev().find(|(n, _)| n == name) {
            return Some(*slot);
        }
        if level == 0 {
            return None;
        }
        let outer = self.local(name, level - 1)?;
        let frame = &mut self.frames[level];
        let inner = frame.slot();
        frame.takes.push((outer, inner));
        frame.names.insert(0, (name.to_string(), inner));
        Some(inner)
    }

    fn here(&mut self, name: &str) -> Option<u32> {
        self.local(name, self.frames.len() - 1)
    }

    fn marked(&mut self, ex: &Ex) -> Made<C> {
        let before = self.region;
        self.region = self.regions.count;
        self.regions.count += 1;
        self.regions.all.entry(self.def).or_default().push(self.region);
        let region = self.region;
        let body = self.ex(ex);
        self.region = before;
        Ok(C::Mark(region, Box::new(body?)))
    }

    /// code of its own, with parameters
    fn code(&mut self, params: &[String], body: &Ex) -> Made<Rc<LamCode>> {
        self.frames.push(Frame::default());
        for p in params {
            self.top().bind(p);
        }
        let body = self.marked(body);
        let frame = self.frames.pop().expect("a frame");
        Ok(Rc::new(LamCode { takes: frame.takes, params: params.len(), slots: frame.slots as usize, body: body? }))
    }

    fn all(&mut self, es: &[Ex]) -> Made<Vec<C>> {
        es.iter().map(|e| self.ex(e)).collect()
    }

    fn note(&mut self, ex: &Ex) {
        let region = self.region;
        if region == NOWHERE {
            return;
        }
        let of = &mut self.regions.of;
        ex.walk(&mut |e| {
            of.entry(e.id).or_insert(region);
        });
    }

    pub fn ex(&mut self, ex: &Ex) -> Made<C> {
        if !self.shared.is_empty() && matches!(ex.kind, Kind::App(..) | Kind::Op(..)) {
            let text = ex.text();
            if self.shared.contains(&text) {
                self.note(ex);
                return Ok(C::Local(self.here(&format!("#{text}")).expect("bound before")));
            }
        }
        self.plain(ex)
    }

    /// the region of one expression
    fn stands(&mut self, ex: &Ex) {
        if self.region != NOWHERE {
            self.regions.of.entry(ex.id).or_insert(self.region);
        }
    }

    fn plain(&mut self, ex: &Ex) -> Made<C> {
        self.stands(ex);
        match &ex.kind {
            Kind::Name(n) => self.applied(ex, n, &[]),
            Kind::Num(n) => Ok(C::Val(V::Num(*n))),
            Kind::Text(s) if s.is_ascii() => Ok(C::Val(bytes(s.bytes().collect()))),
            Kind::Text(s) => Ok(C::Val(crate::value::vals(s.chars().map(|c| V::Num(c as u128)).collect()))),
            Kind::App(f, args) => match &f.kind {
                Kind::Name(n) => self.applied(f, n, args),
                _ => Ok(C::App(Box::new(self.ex(f)?), self.all(args)?)),
            },
            Kind::Op(o, a, b) => self.applied(ex, o, &[(**a).clone(), (**b).clone()]),
            Kind::Lam(ps, b) => Ok(C::Lam(self.code(ps, b)?)),
            Kind::Let(n, a, b) => {
                let value = self.code(&[], a)?;
                let slot = self.top().bind(n);
                let body = self.ex(b)?;
                let at = self.top().names.iter().rposition(|(m, s)| m == n && *s == slot).expect("bound");
                self.top().names.remove(at);
                Ok(C::Let(slot, value, Box::new(body)))
            }
            Kind::Proj(e, f) => {
                let sym = self.prog.sym(f);
                Ok(C::Proj(Box::new(self.ex(e)?), sym, Cell::new(0)))
            }
            Kind::Rec(fs) => self.record(fs.iter().map(|(n, e)| (n.clone(), e)).collect()),
            Kind::Tuple(es) => self.tuple(es),
            Kind::Pi(names, a, b, _) if names.is_empty() => {
                let a = self.ex(a)?;
                Ok(C::Imp(Box::new(a), self.code(&[], b)?))
            }
            Kind::Pi(names, a, b, false) if matches!(&a.kind, Kind::Name(n) if n == "ℕ") => {
                Ok(C::Every(self.code(names, b)?, names.len()))
            }
            Kind::Pi(..) => Ok(other()),
        }
    }

    fn tuple(&mut self, es: &[Ex]) -> Made<C> {
        match es {
            [] => Ok(C::Val(V::Unit)),
            [one] => self.ex(one),
            [first, rest @ ..] => {
                let names: Rc<[u32]> = vec![self.prog.sym("0"), self.prog.sym("1")].into();
                Ok(C::Rec(names, vec![self.ex(first)?, self.tuple(rest)?]))
            }
        }
    }

    fn record(&mut self, fs: Vec<(String, &Ex)>) -> Made<C> {
        let mut fields: Vec<(u32, &Ex)> = fs.into_iter().map(|(n, e)| (self.prog.sym(&n), e)).collect();
        fields.sort_by_key(|f| f.0);
        let names: Rc<[u32]> = fields.iter().map(|f| f.0).collect::<Vec<_>>().into();
        let vals = fields.iter().map(|f| self.ex(f.1)).collect::<Made<Vec<C>>>()?;
        Ok(C::Rec(names, vals))
    }

    fn applied(&mut self, at: &Ex, name: &str, args: &[Ex]) -> Made<C> {
        self.stands(at);
        if let Some(slot) = self.here(name) {
            return self.wrap(C::Local(slot), args);
        }
        let res = match name.strip_prefix('@') {
            Some(rest) => absolute(rest),
            None => self.prog.resolve(self.module, name),
        };
        let Some(res) = res else {
            return Err(format!("{}:{}: no such name: {name}", self.prog.modules[self.module].file, at.line));
        };
        match res {
            Res::Def(def) => self.global(def, args),
            Res::Prim(prim) => self.prim(prim, args),
            Res::Bool(b) => Ok(C::Val(V::Bool(b))),
            Res::Nil => Ok(C::Val(V::Nil)),
            Res::Zero => Ok(C::Val(V::Num(0))),
            Res::Unit => Ok(C::Val(V::Unit)),
            Res::Truth(b) => Ok(C::Val(V::Ty(Rc::new(if b { Ty::True } else { Ty::False })))),
            Res::Type => Ok(other()),
            Res::Foreign(n) => Ok(C::Fail(format!("{n} of the kit is not built in").into())),
        }
    }

    fn wrap(&mut self, f: C, args: &[Ex]) -> Made<C> {
        if args.is_empty() {
            return Ok(f);
        }
        Ok(C::App(Box::new(f), self.all(args)?))
    }

    fn global(&mut self, def: Def, args: &[Ex]) -> Made<C> {
        let what = &self.prog.infos[def as usize].what;
        let (n, is_con, is_record) = (arity_of(what), matches!(what, What::Con { .. }), matches!(what, What::Record { .. }));
        let is_type = matches!(what, What::Type);
        if is_type {
            return Ok(other());
        }
        if args.len() < n {
            let f = if is_con { Fun::Con { def, arity: n, args: vec![] } } else { Fun::Def { def, arity: n, args: vec![] } };
            let f = if is_record { statement(def, n) } else { C::Val(V::Fun(Rc::new(f))) };
            return self.wrap(f, args);
        }
        let (mine, rest) = args.split_at(n);
        let mine = self.all(mine)?;
        let made = match (n, is_con) {
            _ if is_record => C::RecType(def, mine),
            (0, true) => C::Val(V::Con(def, Rc::new(vec![]))),
            (0, false) => C::Caf(def),
            (_, true) => C::Con(def, mine),
            (_, false) => C::Call(def, mine),
        };
        self.wrap(made, rest)
    }

    fn prim(&mut self, prim: Prim, args: &[Ex]) -> Made<C> {
        let n = arity(prim);
        if args.len() < n {
            return self.wrap(C::Val(V::Fun(Rc::new(Fun::Prim { prim, args: vec![] }))), args);
        }
        let (mine, rest) = args.split_at(n);
        let made = match prim {
            Prim::Cond => vec![self.ex(&mine[0])?, self.marked(&mine[1])?, self.marked(&mine[2])?],
            Prim::And | Prim::Or => vec![self.ex(&mine[0])?, self.marked(&mine[1])?],
            _ => self.all(mine)?,
        };
        self.wrap(C::Prim(prim, made), rest)
    }

    fn pat(&mut self, ex: &Ex) -> Made<Pat> {
        let (name, args): (&str, Vec<&Ex>) = match &ex.kind {
            Kind::Name(n) => (n, vec![]),
            Kind::App(f, args) => match &f.kind {
                Kind::Name(n) => (n, args.iter().collect()),
                _ => return Err(format!("line {}: no pattern", ex.line)),
            },
            Kind::Op(o, a, b) => (o, vec![a, b]),
            Kind::Num(n) => return Ok(Pat::Lit(*n)),
            Kind::Tuple(es) => {
                let parts = es.iter().map(|e| self.pat(e)).collect::<Made<Vec<_>>>()?;
                return Ok(Pat::Tuple(parts));
            }
            _ => return Err(format!("line {}: no pattern", ex.line)),
        };
        if name == "_" {
            return Ok(Pat::Any);
        }
        let res = self.prog.resolve(self.module, name);
        let mut sub = args.iter().map(|a| self.pat(a)).collect::<Made<Vec<_>>>()?;
        match res {
            Some(Res::Def(def)) if matches!(self.prog.infos[def as usize].what, What::Con { .. }) => Ok(Pat::Con(def, sub)),
            Some(Res::Prim(Prim::Suc)) if sub.len() == 1 => Ok(Pat::Suc(Box::new(sub.remove(0)))),
            Some(Res::Prim(Prim::Cons)) if sub.len() == 2 => {
                let tail = sub.remove(1);
                Ok(Pat::Cons(Box::new(sub.remove(0)), Box::new(tail)))
            }
            Some(Res::Zero) => Ok(Pat::Lit(0)),
            Some(Res::Nil) => Ok(Pat::Nil),
            Some(Res::Bool(b)) => Ok(Pat::Bool(b)),
            Some(Res::Unit) => Ok(Pat::Any),
            _ if args.is_empty() => Ok(Pat::Var(self.top().bind(name))),
            _ => Err(format!("line {}: no pattern: {name}", ex.line)),
        }
    }

    /// the expressions that stand more than once, the smaller first
    fn repeated(&self, body: &Ex) -> Vec<Ex> {
        let mut inner = HashSet::new();
        body.walk(&mut |e| match &e.kind {
            Kind::Lam(ps, _) | Kind::Pi(ps, ..) => inner.extend(ps.iter().cloned()),
            Kind::Let(n, _, _) => {
                inner.insert(n.clone());
            }
            _ => {}
        });
        let mut seen: HashMap<String, (usize, Ex)> = HashMap::new();
        body.walk(&mut |e| {
            let mut free = matches!(e.kind, Kind::App(..) | Kind::Op(..));
            if free {
                e.walk(&mut |x| free &= !matches!(&x.kind, Kind::Name(n) if inner.contains(n)) && !matches!(x.kind, Kind::Pi(..)));
            }
            if free {
                seen.entry(e.text()).or_insert((0, e.clone())).0 += 1;
            }
        });
        let mut twice: Vec<(String, Ex)> = seen.into_iter().filter(|(_, (n, _))| *n > 1).map(|(t, (_, e))| (t, e)).collect();
        twice.sort_by(|a, b| (a.0.len(), &a.0).cmp(&(b.0.len(), &b.0)));
        twice.into_iter().map(|t| t.1).collect()
    }

    fn body(&mut self, body: &Ex) -> Made<C> {
        let mut lets = Vec::new();
        // what stands twice stands where it is used
        self.region = NOWHERE;
        for e in self.repeated(body) {
            self.frames.push(Frame::default());
            let code = self.plain(&e);
            let frame = self.frames.pop().expect("a frame");
            let code = LamCode { takes: frame.takes, params: 0, slots: frame.slots as usize, body: code? };
            let text = e.text();
            lets.push((self.top().bind(&format!("#{text}")), Rc::new(code)));
            self.shared.insert(text);
        }
        let mut code = self.marked(body)?;
        while let Some((slot, value)) = lets.pop() {
            code = C::Let(slot, value, Box::new(code));
        }
        self.shared.clear();
        Ok(code)
    }

    fn clause(&mut self, clause: &Clause) -> Made<ClauseCode> {
        self.frames = vec![Frame { slots: clause.pats.len() as u32, ..Frame::default() }];
        let mut pats = Vec::new();
        for (i, p) in clause.pats.iter().enumerate() {
            let pat = self.pat(p)?;
            if let (Pat::Var(_), Some((_, slot))) = (&pat, self.top().names.last_mut()) {
                *slot = i as u32;
                pats.push(Pat::Any);
            } else {
                pats.push(pat);
            }
        }
        let body = self.body(&clause.body)?;
        Ok(ClauseCode { pats, slots: self.top().slots as usize, body })
    }
}

/// A record type as a function of its parameters.
fn statement(def: Def, n: usize) -> C {
    let body = C::RecType(def, (0..n as u32).map(C::Local).collect());
    C::Lam(Rc::new(LamCode { takes: vec![], params: n, slots: n, body }))
}

pub fn function(prog: &mut Program, regions: &mut Regions, def: Def, clauses: &[Clause]) -> Result<FunCode, String> {
    let module = prog.infos[def as usize].module;
    let file = prog.modules[module].file.clone();
    let mut c = Compiler { prog, regions, module, def, frames: vec![], region: 0, shared: HashSet::new() };
    let arity = clauses.first().map_or(0, |c| c.pats.len());
    let mut out = Vec::new();
    for clause in clauses {
        let made =
            c.clause(clause).map_err(|e| if e.starts_with("crates/") { e } else { format!("{file}:{}: {e}", clause.line) })?;
        out.push(made);
    }
    Ok(FunCode { arity, clauses: out })
}

/// An expression by itself, in a module, with names for parameters.
pub fn expression(prog: &mut Program, regions: &mut Regions, module: usize, params: &[String], ex: &Ex) -> Result<LamCode, String> {
    let mut c =
        Compiler { prog, regions, module, def: Def::MAX, frames: vec![Frame::default()], region: 0, shared: HashSet::new() };
    for p in params {
        c.top().bind(p);
    }
    let body = c.marked(ex)?;
    let slots = c.top().slots as usize;
    Ok(LamCode { takes: vec![], params: params.len(), slots, body })
}

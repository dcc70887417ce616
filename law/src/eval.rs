//! The machine that computes values.

use crate::code::{Def, FunCode, LamCode, Pat, Prim, Region, Sym, C};
use crate::kit::arity;
use crate::value::{self, Fun, Rec, Thunk, Ty, V};
use std::cell::RefCell;
use std::collections::HashMap;
use std::rc::Rc;

#[derive(Debug, Clone)]
pub enum Stop {
    /// more calls than were allowed
    Fuel,
    Error(String),
}

pub type Got = Result<V, Stop>;

pub struct Machine {
    pub code: Vec<Option<Rc<FunCode>>>,
    pub names: Vec<String>,
    pub titles: Rc<Vec<String>>,
    pub cafs: Vec<Option<V>>,
    pub fuel: u64,
    pub seen: Option<Vec<bool>>,
    /// functions of one list that no definition of the law changes: their values are kept
    pub keeps: Vec<bool>,
    kept: HashMap<(Def, usize, u32, u32), (V, V)>,
    stack: Vec<V>,
}

fn error<T>(text: &str) -> Result<T, Stop> {
    Err(Stop::Error(text.to_string()))
}

fn fits(pat: &Pat, v: &V) -> bool {
    match (pat, v) {
        (Pat::Any | Pat::Var(_), _) => true,
        (Pat::Lit(n), V::Num(m)) => n == m,
        (Pat::Suc(p), V::Num(m)) => *m > 0 && fits(p, &V::Num(m - 1)),
        (Pat::Nil, V::Nil) => true,
        (Pat::Cons(p, q), v) => match (&**p, &**q) {
            (Pat::Any | Pat::Var(_), Pat::Any | Pat::Var(_)) => value::is_list(v) && !matches!(v, V::Nil),
            _ => value::head(v).is_some_and(|h| fits(p, &h) && fits(q, &value::tail(v))),
        },
        (Pat::Bool(b), V::Bool(c)) => b == c,
        (Pat::Con(d, ps), V::Con(e, vs)) => d == e && ps.iter().zip(vs.iter()).all(|(p, v)| fits(p, v)),
        (Pat::Tuple(ps), V::Rec(r)) => parts(ps.len(), r).is_some_and(|vs| ps.iter().zip(vs).all(|(p, v)| fits(p, &v))),
        _ => false,
    }
}

/// the parts of pairs in pairs
fn parts(n: usize, r: &Rc<Rec>) -> Option<Vec<V>> {
    let mut out = Vec::new();
    let mut r = r.clone();
    while out.len() + 2 < n {
        out.push(r.vals.first()?.clone());
        let V::Rec(next) = r.vals.get(1)?.clone() else { return None };
        r = next;
    }
    out.extend(r.vals.iter().cloned());
    Some(out)
}

impl Machine {
    pub fn new(code: Vec<Option<Rc<FunCode>>>, names: Vec<String>, titles: Vec<String>) -> Machine {
        let cafs = vec![None; code.len()];
        let (keeps, kept) = (vec![false; code.len()], HashMap::new());
        Machine { code, names, titles: Rc::new(titles), cafs, fuel: u64::MAX, seen: None, keeps, kept, stack: Vec::new() }
    }

    /// What an earlier fault left behind is removed.
    pub fn clear(&mut self) {
        self.stack.clear();
    }

    fn bind(&mut self, pat: &Pat, v: V, base: usize) {
        match (pat, v) {
            (Pat::Var(i), v) => self.stack[base + *i as usize] = v,
            (Pat::Suc(p), V::Num(m)) => self.bind(p, V::Num(m - 1), base),
            (Pat::Cons(p, q), v) => {
                if let Some(h) = value::head(&v) {
                    self.bind(p, h, base);
                }
                if !matches!(**q, Pat::Any) {
                    self.bind(q, value::tail(&v), base);
                }
            }
            (Pat::Con(_, ps), V::Con(_, vs)) => {
                for (p, v) in ps.iter().zip(vs.iter()) {
                    self.bind(p, v.clone(), base);
                }
            }
            (Pat::Tuple(ps), V::Rec(r)) => {
                for (p, v) in ps.iter().zip(parts(ps.len(), &r).unwrap_or_default()) {
                    self.bind(p, v, base);
                }
            }
            _ => {}
        }
    }

    fn call(&mut self, def: Def, base: usize) -> Got {
        if self.keeps.get(def as usize) == Some(&true) {
            if let Some(place) = place(&self.stack[base]) {
                return self.kept(def, place, base);
            }
        }
        self.compute(def, base)
    }

    /// a value that was computed before is not computed again
    fn kept(&mut self, def: Def, at: (usize, u32, u32), base: usize) -> Got {
        let key = (def, at.0, at.1, at.2);
        if let Some((_, v)) = self.kept.get(&key) {
            let v = v.clone();
            self.stack.truncate(base);
            return Ok(v);
        }
        let arg = self.stack[base].clone();
        let got = self.compute(def, base)?;
        self.kept.insert(key, (arg, got.clone()));
        Ok(got)
    }

    /// its arguments stand at the end of the stack, from base on
    fn compute(&mut self, def: Def, base: usize) -> Got {
        if self.fuel == 0 {
            return Err(Stop::Fuel);
        }
        self.fuel -= 1;
        let Some(code) = self.code[def as usize].clone() else {
            return error(&format!("{} could not be read", self.titles[def as usize]));
        };
        for clause in &code.clauses {
            if clause.pats.iter().enumerate().all(|(i, p)| fits(p, &self.stack[base + i])) {
                self.stack.resize(base + clause.slots.max(code.arity), V::Unit);
                for (i, p) in clause.pats.iter().enumerate() {
                    if !matches!(p, Pat::Any | Pat::Lit(_) | Pat::Nil | Pat::Bool(_)) {
                        let v = self.stack[base + i].clone();
                        self.bind(p, v, base);
                    }
                }
                let got = self.eval(&clause.body, base);
                self.stack.truncate(base);
                return got;
            }
        }
        self.stack.truncate(base);
        error(&format!("no clause of {} fits", self.titles[def as usize]))
    }

    pub fn define(&mut self, def: Def, args: Vec<V>) -> Got {
        let base = self.stack.len();
        self.stack.extend(args);
        self.call(def, base)
    }

    pub fn caf(&mut self, def: Def) -> Got {
        if let Some(v) = &self.cafs[def as usize] {
            return Ok(v.clone());
        }
        let v = self.define(def, vec![])?;
        self.cafs[def as usize] = Some(v.clone());
        Ok(v)
    }

    fn enter(&mut self, code: &LamCode, caps: &[V], args: Vec<V>) -> Got {
        let base = self.stack.len();
        self.stack.extend(args);
        self.stack.resize(base + code.slots.max(code.params), V::Unit);
        for ((_, inner), v) in code.takes.iter().zip(caps) {
            self.stack[base + *inner as usize] = v.clone();
        }
        let got = self.eval(&code.body, base);
        self.stack.truncate(base);
        got
    }

    pub fn closed(&mut self, code: &LamCode, args: Vec<V>) -> Got {
        self.enter(code, &[], args)
    }

    pub fn force(&mut self, v: V) -> Got {
        let V::Thunk(cell) = &v else { return Ok(v) };
        let todo = std::mem::replace(&mut *cell.borrow_mut(), Thunk::Busy);
        let got = match todo {
            Thunk::Done(v) => v,
            Thunk::Todo { code, caps } => match self.enter(&code, &caps, vec![]) {
                Ok(v) => v,
                Err(e) => {
                    *cell.borrow_mut() = Thunk::Todo { code, caps };
                    return Err(e);
                }
            },
            Thunk::Busy => return error("a value that needs itself"),
        };
        *cell.borrow_mut() = Thunk::Done(got.clone());
        Ok(got)
    }

    fn caps(&self, code: &LamCode, base: usize) -> Vec<V> {
        code.takes.iter().map(|(outer, _)| self.stack[base + *outer as usize].clone()).collect()
    }

    pub fn apply(&mut self, f: V, mut args: Vec<V>) -> Got {
        let V::Fun(fun) = &f else {
            return match f {
                V::Ty(_) => Ok(f),
                _ => error("no function is applied"),
            };
        };
        let (need, had) = match &**fun {
            Fun::Lam { code, .. } => (code.params, None),
            Fun::Def { arity, args, .. } | Fun::Con { arity, args, .. } => (*arity, Some(args)),
            Fun::Prim { prim, args } => (arity(*prim), Some(args)),
            Fun::Part { fun, args: had } => {
                let all = had.iter().cloned().chain(args).collect();
                return self.apply(fun.clone(), all);
            }
        };
        let had = had.cloned().unwrap_or_default();
        if had.len() + args.len() < need {
            return Ok(V::Fun(Rc::new(Fun::Part { fun: f.clone(), args })));
        }
        let rest = args.split_off(need - had.len());
        let all: Vec<V> = had.into_iter().chain(args).collect();
        let got = match &**fun {
            Fun::Lam { code, caps } => self.enter(code, caps, all)?,
            Fun::Def { def, .. } => self.define(*def, all)?,
            Fun::Con { def, .. } => V::Con(*def, Rc::new(all)),
            Fun::Prim { prim, .. } => self.prim(*prim, all)?,
            Fun::Part { .. } => return error("no function is applied"),
        };
        if rest.is_empty() {
            Ok(got)
        } else {
            self.apply(got, rest)
        }
    }

    fn all(&mut self, cs: &[C], base: usize) -> Result<Vec<V>, Stop> {
        cs.iter().map(|c| self.eval(c, base)).collect()
    }

    fn truth(&mut self, c: &C, base: usize) -> Result<bool, Stop> {
        match self.eval(c, base)? {
            V::Bool(b) => Ok(b),
            _ => error("no truth value"),
        }
    }

    fn name(&self, sym: Sym) -> &str {
        self.names.get(sym as usize).map_or("that was made anew", String::as_str)
    }

    fn project(&mut self, v: V, sym: Sym, hint: &std::cell::Cell<usize>) -> Got {
        match v {
            V::Rec(r) => {
                let i = hint.get();
                if r.names.get(i) == Some(&sym) {
                    return Ok(r.vals[i].clone());
                }
                match r.names.iter().position(|s| *s == sym) {
                    Some(i) => {
                        hint.set(i);
                        Ok(r.vals[i].clone())
                    }
                    None => error(&format!("no field {}", self.name(sym))),
                }
            }
            _ => error(&format!("no record, for its field {}", self.name(sym))),
        }
    }

    fn mark(&mut self, region: Region) {
        if let Some(seen) = &mut self.seen {
            let region = region as usize;
            if region >= seen.len() {
                seen.resize(region + 1, false);
            }
            seen[region] = true;
        }
    }

    fn eval(&mut self, c: &C, base: usize) -> Got {
        match c {
            C::Local(i) => match &self.stack[base + *i as usize] {
                V::Thunk(_) => {
                    let v = self.stack[base + *i as usize].clone();
                    self.force(v)
                }
                v => Ok(v.clone()),
            },
            C::Val(v) => Ok(v.clone()),
            C::Caf(def) => self.caf(*def),
            C::Call(def, args) => {
                let from = self.stack.len();
                for a in args {
                    let v = self.eval(a, base)?;
                    self.stack.push(v);
                }
                self.call(*def, from)
            }
            C::Con(def, args) => Ok(V::Con(*def, Rc::new(self.all(args, base)?))),
            C::Prim(prim, args) => self.operate(*prim, args, base),
            C::App(f, args) => {
                let f = self.eval(f, base)?;
                let args = self.all(args, base)?;
                self.apply(f, args)
            }
            C::Lam(code) => Ok(V::Fun(Rc::new(Fun::Lam { caps: self.caps(code, base), code: code.clone() }))),
            C::Let(slot, code, body) => {
                let todo = Thunk::Todo { code: code.clone(), caps: self.caps(code, base) };
                self.stack[base + *slot as usize] = V::Thunk(Rc::new(RefCell::new(todo)));
                self.eval(body, base)
            }
            C::Proj(e, sym, hint) => {
                let v = self.eval(e, base)?;
                self.project(v, *sym, hint)
            }
            C::Rec(names, vals) => {
                let vals = self.all(vals, base)?;
                Ok(V::Rec(Rc::new(Rec { names: names.clone(), vals })))
            }
            C::Mark(region, body) => {
                self.mark(*region);
                self.eval(body, base)
            }
            C::Every(code, n) => {
                let each = V::Fun(Rc::new(Fun::Lam { caps: self.caps(code, base), code: code.clone() }));
                Ok(V::Ty(Rc::new(Ty::Every(*n, each))))
            }
            C::Imp(a, b) => {
                let a = self.eval(a, base)?;
                let b = Thunk::Todo { code: b.clone(), caps: self.caps(b, base) };
                Ok(V::Ty(Rc::new(Ty::Imp(a, V::Thunk(Rc::new(RefCell::new(b)))))))
            }
            C::RecType(def, args) => Ok(V::Ty(Rc::new(Ty::Rec(*def, self.all(args, base)?)))),
            C::Fail(text) => error(text),
        }
    }

    /// what need not compute all its arguments
    fn operate(&mut self, prim: Prim, args: &[C], base: usize) -> Got {
        match prim {
            Prim::Cond => {
                let b = self.truth(&args[0], base)?;
                self.eval(&args[if b { 1 } else { 2 }], base)
            }
            Prim::And if !self.truth(&args[0], base)? => Ok(V::Bool(false)),
            Prim::Or if self.truth(&args[0], base)? => Ok(V::Bool(true)),
            Prim::And | Prim::Or => self.eval(&args[1], base),
            _ => {
                let a = self.eval(&args[0], base)?;
                if args.len() == 1 {
                    return self.prim(prim, vec![a]);
                }
                let b = self.eval(&args[1], base)?;
                if let (V::Num(m), V::Num(n)) = (&a, &b) {
                    if let Some(v) = numbers(prim, *m, *n) {
                        return v;
                    }
                }
                let mut all = vec![a, b];
                if let Some(c) = args.get(2) {
                    all.push(self.eval(c, base)?);
                }
                self.prim(prim, all)
            }
        }
    }

    pub fn prim(&mut self, prim: Prim, args: Vec<V>) -> Got {
        if let [V::Num(m), V::Num(n)] = args[..] {
            if let Some(v) = numbers(prim, m, n) {
                return v;
            }
        }
        let mut it = args.into_iter();
        let (a, b, c) = (it.next(), it.next(), it.next());
        match (prim, a, b, c) {
            (Prim::Suc, Some(V::Num(n)), ..) => n.checked_add(1).map(V::Num).map_or_else(|| error("a number too large"), Ok),
            (Prim::Not, Some(V::Bool(b)), ..) => Ok(V::Bool(!b)),
            (Prim::And, Some(V::Bool(a)), Some(V::Bool(b)), _) => Ok(V::Bool(a && b)),
            (Prim::Or, Some(V::Bool(a)), Some(V::Bool(b)), _) => Ok(V::Bool(a || b)),
            (Prim::Cond, Some(V::Bool(a)), Some(x), Some(y)) => Ok(if a { x } else { y }),
            (Prim::Cons, Some(h), Some(t), _) => Ok(value::cons(h, t)),
            (Prim::Append, Some(x), Some(y), _) => Ok(value::append(x, y)),
            (Prim::Map, Some(f), Some(l), _) => {
                let mut out = Vec::new();
                for x in value::all(&l) {
                    out.push(self.apply(f.clone(), vec![x])?);
                }
                Ok(value::vals(out))
            }
            (Prim::Length, Some(l), ..) => Ok(V::Num(value::len(&l) as u128)),
            (Prim::Take, Some(V::Num(n)), Some(l), _) => Ok(value::take(clamp(n), l)),
            (Prim::Drop, Some(V::Num(0)), Some(l), _) => Ok(l),
            (Prim::Drop, Some(V::Num(n)), Some(l), _) => Ok(value::drop(clamp(n), l)),
            (Prim::GetOr, Some(l), Some(V::Num(n)), Some(d)) => Ok(value::nth(&l, n).unwrap_or(d)),
            (Prim::Set, Some(l), Some(V::Num(n)), Some(x)) => Ok(value::set(l, n, x)),
            (Prim::Replicate, Some(V::Num(n)), Some(x), _) if n < 1 << 24 => Ok(value::vals(vec![x; n as usize])),
            (Prim::Slice, Some(V::Num(a)), Some(V::Num(b)), Some(l)) => Ok(value::take(clamp(b.saturating_sub(a)), dropped(a, l))),
            (Prim::Code, Some(c), ..) => Ok(c),
            (p, a, b, _) => statement(p, a, b),
        }
    }

    pub fn same(&mut self, a: &V, b: &V) -> Result<bool, Stop> {
        let (a, b) = (self.force(a.clone())?, self.force(b.clone())?);
        match (&a, &b) {
            (V::Unit, V::Unit) => Ok(true),
            (V::Num(m), V::Num(n)) => Ok(m == n),
            (V::Bool(m), V::Bool(n)) => Ok(m == n),
            (V::Bytes(x, i, j), V::Bytes(y, k, l)) => Ok(x[*i as usize..*j as usize] == y[*k as usize..*l as usize]),
            (x, y) if value::is_list(x) && value::is_list(y) => {
                Ok(value::len(x) == value::len(y) && self.each(&value::all(x), &value::all(y))?)
            }
            (V::Con(d, xs), V::Con(e, ys)) => Ok(d == e && self.each(xs, ys)?),
            (V::Rec(x), V::Rec(y)) => Ok(x.names == y.names && self.each(&x.vals, &y.vals)?),
            (V::Fun(_), _) | (_, V::Fun(_)) => error("functions are not compared"),
            _ => Ok(false),
        }
    }

    fn each(&mut self, xs: &[V], ys: &[V]) -> Result<bool, Stop> {
        for (x, y) in xs.iter().zip(ys) {
            if !self.same(x, y)? {
                return Ok(false);
            }
        }
        Ok(xs.len() == ys.len())
    }
}

/// where a list stands in memory
fn place(v: &V) -> Option<(usize, u32, u32)> {
    match v {
        V::Cons(l) => Some((Rc::as_ptr(l) as usize, 0, 0)),
        V::Bytes(b, i, j) => Some((Rc::as_ptr(b) as usize, *i, *j)),
        V::Vals(b, i, j) => Some((Rc::as_ptr(b) as usize, *i, *j)),
        _ => None,
    }
}

fn clamp(n: u128) -> usize {
    n.min(u32::MAX as u128) as usize
}

fn dropped(n: u128, l: V) -> V {
    if n == 0 {
        l
    } else {
        value::drop(clamp(n), l)
    }
}

fn numbers(prim: Prim, m: u128, n: u128) -> Option<Got> {
    let wide = |x: Option<u128>| x.map(V::Num).map_or_else(|| error("a number too large"), Ok);
    Some(match prim {
        Prim::Add => wide(m.checked_add(n)),
        Prim::Sub => Ok(V::Num(m.saturating_sub(n))),
        Prim::Mul => wide(m.checked_mul(n)),
        Prim::Div => Ok(V::Num(m.checked_div(n).unwrap_or(0))),
        Prim::Mod => Ok(V::Num(m.checked_rem(n).unwrap_or(m))),
        Prim::Pow => wide(u32::try_from(n).ok().and_then(|n| m.checked_pow(n))),
        Prim::Max => Ok(V::Num(m.max(n))),
        Prim::Min => Ok(V::Num(m.min(n))),
        Prim::Eqb => Ok(V::Bool(m == n)),
        Prim::Leb => Ok(V::Bool(m <= n)),
        Prim::Ltb => Ok(V::Bool(m < n)),
        Prim::BitXor => Ok(V::Num(m ^ n)),
        _ => return None,
    })
}

fn statement(prim: Prim, a: Option<V>, b: Option<V>) -> Got {
    let ty = match (prim, a, b) {
        (Prim::T, Some(V::Bool(b)), _) => {
            if b {
                Ty::True
            } else {
                Ty::False
            }
        }
        (Prim::Eq, Some(a), Some(b)) => Ty::Eq(a, b),
        (Prim::Le, Some(V::Num(m)), Some(V::Num(n))) => Ty::Le(m, n),
        (Prim::Lt, Some(V::Num(m)), Some(V::Num(n))) => Ty::Lt(m, n),
        (Prim::Pair, Some(a), Some(b)) => Ty::And(a, b),
        (Prim::Either, Some(a), Some(b)) => Ty::Or(a, b),
        (p, ..) => return error(&format!("{p:?} of other values")),
    };
    Ok(V::Ty(Rc::new(ty)))
}

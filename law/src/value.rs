//! Values: numbers, lists, constructors, records, functions, and types as far as they are statements.

use crate::code::{Def, LamCode, Prim, Sym};
use std::cell::RefCell;
use std::rc::Rc;

#[derive(Clone)]
pub enum V {
    Unit,
    Num(u128),
    Bool(bool),
    Nil,
    Cons(Rc<Link>),
    /// a part of some bytes, or of some values; never empty
    Bytes(Rc<Vec<u8>>, u32, u32),
    Vals(Rc<Vec<V>>, u32, u32),
    Con(Def, Rc<Vec<V>>),
    Rec(Rc<Rec>),
    Fun(Rc<Fun>),
    Thunk(Rc<RefCell<Thunk>>),
    Ty(Rc<Ty>),
}

pub struct Link {
    pub len: usize,
    pub head: V,
    pub tail: V,
}

pub struct Rec {
    pub names: Rc<[Sym]>,
    pub vals: Vec<V>,
}

pub enum Fun {
    Lam { code: Rc<LamCode>, caps: Vec<V> },
    Def { def: Def, arity: usize, args: Vec<V> },
    Con { def: Def, arity: usize, args: Vec<V> },
    Prim { prim: Prim, args: Vec<V> },
    Part { fun: V, args: Vec<V> },
}

pub enum Thunk {
    Todo { code: Rc<LamCode>, caps: Vec<V> },
    Done(V),
    Busy,
}

pub enum Ty {
    True,
    False,
    Eq(V, V),
    Le(u128, u128),
    Lt(u128, u128),
    And(V, V),
    Or(V, V),
    /// if the first, then the second, which is computed only then
    Imp(V, V),
    /// of so many numbers, the second: a statement about each
    Every(usize, V),
    /// a record type with its arguments
    Rec(Def, Vec<V>),
    /// another type: no statement that can be decided
    Other,
}

pub fn cons(head: V, tail: V) -> V {
    V::Cons(Rc::new(Link { len: 1 + len(&tail), head, tail }))
}

pub fn is_list(v: &V) -> bool {
    matches!(v, V::Nil | V::Cons(_) | V::Bytes(..) | V::Vals(..))
}

pub fn len(v: &V) -> usize {
    match v {
        V::Cons(l) => l.len,
        V::Bytes(_, a, b) | V::Vals(_, a, b) => (b - a) as usize,
        _ => 0,
    }
}

pub fn bytes(l: Vec<u8>) -> V {
    let n = l.len() as u32;
    if n == 0 {
        return V::Nil;
    }
    V::Bytes(Rc::new(l), 0, n)
}

pub fn vals(l: Vec<V>) -> V {
    if l.iter().all(|v| matches!(v, V::Num(n) if *n < 256)) {
        return bytes(l.iter().map(|v| if let V::Num(n) = v { *n as u8 } else { 0 }).collect());
    }
    let n = l.len() as u32;
    V::Vals(Rc::new(l), 0, n)
}

pub fn head(v: &V) -> Option<V> {
    match v {
        V::Cons(l) => Some(l.head.clone()),
        V::Bytes(b, i, _) => Some(V::Num(b[*i as usize] as u128)),
        V::Vals(b, i, _) => Some(b[*i as usize].clone()),
        _ => None,
    }
}

pub fn tail(v: &V) -> V {
    match v {
        V::Cons(l) => l.tail.clone(),
        _ => drop(1, v.clone()),
    }
}

pub fn drop(n: usize, v: V) -> V {
    let n32 = n.min(u32::MAX as usize) as u32;
    match v {
        V::Bytes(b, i, j) if n32 < j - i => V::Bytes(b, i + n32, j),
        V::Vals(b, i, j) if n32 < j - i => V::Vals(b, i + n32, j),
        V::Cons(_) if n < len(&v) => {
            let (mut v, mut n) = (v, n);
            while let (V::Cons(l), true) = (&v, n > 0) {
                v = l.tail.clone();
                n -= 1;
            }
            drop_rest(n, v)
        }
        _ => V::Nil,
    }
}

fn drop_rest(n: usize, v: V) -> V {
    if n == 0 {
        v
    } else {
        drop(n, v)
    }
}

pub fn take(n: usize, v: V) -> V {
    if n == 0 || n >= len(&v) {
        return if n == 0 { V::Nil } else { v };
    }
    match v {
        V::Bytes(b, i, _) => V::Bytes(b, i, i + n as u32),
        V::Vals(b, i, _) => V::Vals(b, i, i + n as u32),
        v => vals(elements(&v, n)),
    }
}

/// The first n elements.
pub fn elements(v: &V, n: usize) -> Vec<V> {
    let mut out = Vec::with_capacity(n.min(len(v)));
    let mut v = v.clone();
    while out.len() < n {
        let Some(h) = head(&v) else { break };
        out.push(h);
        v = tail(&v);
    }
    out
}

pub fn all(v: &V) -> Vec<V> {
    elements(v, usize::MAX)
}

/// The list as bytes, if it is one of these.
pub fn as_bytes(v: &V) -> Option<Vec<u8>> {
    match v {
        V::Bytes(b, i, j) => Some(b[*i as usize..*j as usize].to_vec()),
        v => all(v).iter().map(|v| if let V::Num(n) = v { u8::try_from(*n).ok() } else { None }).collect(),
    }
}

pub fn append(a: V, b: V) -> V {
    if let V::Nil = a {
        return b;
    }
    if let V::Nil = b {
        return a;
    }
    if let (V::Bytes(x, i, j), V::Bytes(y, k, l)) = (&a, &b) {
        let mut out = Vec::with_capacity((j - i + l - k) as usize);
        out.extend_from_slice(&x[*i as usize..*j as usize]);
        out.extend_from_slice(&y[*k as usize..*l as usize]);
        return bytes(out);
    }
    let mut out = all(&a);
    out.extend(all(&b));
    vals(out)
}

pub fn nth(v: &V, i: u128) -> Option<V> {
    if i >= len(v) as u128 {
        return None;
    }
    head(&drop(i as usize, v.clone()))
}

pub fn set(v: V, i: u128, x: V) -> V {
    if i >= len(&v) as u128 {
        return v;
    }
    let mut l = all(&v);
    l[i as usize] = x;
    vals(l)
}

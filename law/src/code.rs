//! What definitions are made into before they run.

use crate::value::V;
use std::cell::Cell;
use std::rc::Rc;

pub type Sym = u32;
pub type Def = u32;
pub type Region = u32;

#[derive(Clone, Copy, PartialEq, Debug)]
pub enum Prim {
    Suc,
    Add,
    Sub,
    Mul,
    Div,
    Mod,
    Pow,
    Max,
    Min,
    Eqb,
    Leb,
    Ltb,
    Not,
    And,
    Or,
    Cond,
    Cons,
    Append,
    Map,
    Length,
    Take,
    Drop,
    GetOr,
    Set,
    Replicate,
    Slice,
    BitXor,
    Code,
    T,
    Eq,
    Le,
    Lt,
    Pair,
    Either,
}

/// A function's code: its parameters stand first; what it takes along, by its place outside and inside.
pub struct LamCode {
    pub takes: Vec<(u32, u32)>,
    pub params: usize,
    pub slots: usize,
    pub body: C,
}

pub enum C {
    Local(u32),
    Val(V),
    Caf(Def),
    Call(Def, Vec<C>),
    Con(Def, Vec<C>),
    Prim(Prim, Vec<C>),
    App(Box<C>, Vec<C>),
    Lam(Rc<LamCode>),
    /// a value that is computed when it is first asked for
    Let(u32, Rc<LamCode>, Box<C>),
    Proj(Box<C>, Sym, Cell<usize>),
    Rec(Rc<[Sym]>, Vec<C>),
    /// notes that it was come to
    Mark(Region, Box<C>),
    /// an implication: the second is code without parameters
    Imp(Box<C>, Rc<LamCode>),
    RecType(Def, Vec<C>),
    /// a statement about so many numbers, whichever they are
    Every(Rc<LamCode>, usize),
    Fail(Rc<str>),
}

pub enum Pat {
    Any,
    Var(u32),
    Lit(u128),
    Suc(Box<Pat>),
    Nil,
    Cons(Box<Pat>, Box<Pat>),
    Bool(bool),
    Con(Def, Vec<Pat>),
    Tuple(Vec<Pat>),
}

pub struct ClauseCode {
    pub pats: Vec<Pat>,
    pub slots: usize,
    pub body: C,
}

pub struct FunCode {
    pub arity: usize,
    pub clauses: Vec<ClauseCode>,
}

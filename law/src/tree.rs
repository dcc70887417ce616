//! What is read of a file: expressions, clauses, declarations.

pub type Id = u32;

#[derive(Clone, Debug)]
pub struct Ex {
    pub id: Id,
    pub line: u32,
    pub kind: Kind,
}

#[derive(Clone, Debug)]
pub enum Kind {
    Name(String),
    Num(u128),
    Text(String),
    App(Box<Ex>, Vec<Ex>),
    Op(String, Box<Ex>, Box<Ex>),
    Lam(Vec<String>, Box<Ex>),
    Let(String, Box<Ex>, Box<Ex>),
    Proj(Box<Ex>, String),
    Rec(Vec<(String, Ex)>),
    Tuple(Vec<Ex>),
    /// names that are bound (none for a plain arrow), their type, and the rest; whether they are implicit
    Pi(Vec<String>, Box<Ex>, Box<Ex>, bool),
}

/// A clause: what stands before the sign of equality, without the name, and behind it.
#[derive(Clone, Debug)]
pub struct Clause {
    pub line: u32,
    pub pats: Vec<Ex>,
    pub body: Ex,
}

#[derive(Clone, Debug)]
pub struct Param {
    pub names: Vec<String>,
}

#[derive(Clone, Debug)]
pub enum Item {
    Use { path: Vec<String>, names: Option<Vec<(String, String)>>, alias: String },
    Record { name: String, params: Vec<Param>, fields: Vec<(String, Ex)> },
    Data { name: String, cons: Vec<(String, Ex)> },
    Sig { name: String, kind: Ex },
    Eqn { name: String, clause: Clause },
}

#[derive(Clone, Debug)]
pub struct Placed {
    pub item: Item,
    /// under `module _ (x : T) where`: only proofs stand there
    pub under: bool,
}

impl Ex {
    pub fn children(&self) -> Vec<&Ex> {
        match &self.kind {
            Kind::Name(_) | Kind::Num(_) | Kind::Text(_) => vec![],
            Kind::App(f, args) => std::iter::once(&**f).chain(args).collect(),
            Kind::Op(_, a, b) | Kind::Let(_, a, b) | Kind::Pi(_, a, b, _) => vec![a, b],
            Kind::Lam(_, b) | Kind::Proj(b, _) => vec![b],
            Kind::Rec(fs) => fs.iter().map(|f| &f.1).collect(),
            Kind::Tuple(es) => es.iter().collect(),
        }
    }

    pub fn children_mut(&mut self) -> Vec<&mut Ex> {
        match &mut self.kind {
            Kind::Name(_) | Kind::Num(_) | Kind::Text(_) => vec![],
            Kind::App(f, args) => std::iter::once(&mut **f).chain(args).collect(),
            Kind::Op(_, a, b) | Kind::Let(_, a, b) | Kind::Pi(_, a, b, _) => vec![a, b],
            Kind::Lam(_, b) | Kind::Proj(b, _) => vec![b],
            Kind::Rec(fs) => fs.iter_mut().map(|f| &mut f.1).collect(),
            Kind::Tuple(es) => es.iter_mut().collect(),
        }
    }

    pub fn walk<'a>(&'a self, f: &mut dyn FnMut(&'a Ex)) {
        f(self);
        for c in self.children() {
            c.walk(f);
        }
    }

    /// The expression as text, one line, with all its brackets.
    pub fn text(&self) -> String {
        let all = |es: &[Ex]| es.iter().map(|e| e.text()).collect::<Vec<_>>();
        match &self.kind {
            Kind::Name(n) => n.clone(),
            Kind::Num(n) => n.to_string(),
            Kind::Text(s) => format!("{s:?}"),
            Kind::App(f, args) => format!("({} {})", f.text(), all(args).join(" ")),
            Kind::Op(o, a, b) => format!("({} {o} {})", a.text(), b.text()),
            Kind::Lam(ps, b) => format!("(λ {}. {})", ps.join(" "), b.text()),
            Kind::Let(n, a, b) => format!("(let {n} = {} in {})", a.text(), b.text()),
            Kind::Proj(e, f) => format!("{}.{f}", e.text()),
            Kind::Rec(fs) => {
                let fs: Vec<_> = fs.iter().map(|(n, e)| format!("{n} = {}", e.text())).collect();
                format!("record {{ {} }}", fs.join("; "))
            }
            Kind::Tuple(es) => format!("({})", all(es).join(", ")),
            Kind::Pi(ns, a, b, _) => format!("(({} : {}) → {})", ns.join(" "), a.text(), b.text()),
        }
    }
}

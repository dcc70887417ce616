//! Items, clauses and expressions of a file.

use crate::lex::{items, Tok, Token};
use crate::tree::{Clause, Ex, Id, Item, Kind, Param, Placed};
use std::collections::HashMap;

/// Each operator's strength, and whether it goes on to the right (1), the left (-1) or not (0); as the kit declares them.
const STRENGTHS: [(&str, u32, i8); 19] = [
    ("^", 75, 1),
    ("*", 70, -1),
    ("/", 70, -1),
    ("%", 70, -1),
    ("∷", 67, 1),
    ("+", 65, -1),
    ("-", 65, -1),
    ("++", 65, -1),
    ("≤", 50, 0),
    ("<", 50, 0),
    ("==", 40, 0),
    ("&&", 35, -1),
    ("||", 30, -1),
    ("∙", 30, 1),
    ("≡", 4, 0),
    ("≢", 4, 0),
    ("×", 2, 1),
    ("⊎", 2, 1),
    ("↔", 1, 0),
];

const KEYWORDS: [&str; 7] = ["let", "in", "record", "where", "elim", "unfolding", "do"];

pub struct Parser<'a> {
    words: &'a [Token],
    at: usize,
    ids: &'a mut Id,
    ops: &'a HashMap<String, (u32, i8)>,
}

type Read<T> = Result<T, (u32, String)>;

impl Parser<'_> {
    fn peek(&self) -> Option<&Tok> {
        self.words.get(self.at).map(|t| &t.tok)
    }

    fn line(&self) -> u32 {
        let at = self.at.min(self.words.len().saturating_sub(1));
        self.words.get(at).map_or(0, |t| t.line)
    }

    fn fail<T>(&self, what: &str) -> Read<T> {
        Err((self.line(), format!("{what}, not {:?}", self.peek())))
    }

    fn is(&self, tok: &Tok) -> bool {
        self.peek() == Some(tok)
    }

    fn take(&mut self, tok: &Tok) -> Read<()> {
        if !self.is(tok) {
            return self.fail(&format!("{tok:?} is wanted"));
        }
        self.at += 1;
        Ok(())
    }

    fn take_word(&mut self, w: &str) -> Read<()> {
        self.take(&Tok::Word(w.to_string()))
    }

    fn ex(&mut self, line: u32, kind: Kind) -> Ex {
        *self.ids += 1;
        Ex { id: *self.ids, line, kind }
    }

    fn name(&mut self) -> Read<String> {
        let name = match self.peek() {
            Some(Tok::Word(w)) if !KEYWORDS.contains(&w.as_str()) => w.clone(),
            Some(Tok::Num(n)) => n.to_string(),
            _ => return self.fail("a name is wanted"),
        };
        self.at += 1;
        Ok(name)
    }

    /// `(x y :` or `{x :` begins here
    fn binds(&self) -> bool {
        let mut i = self.at + 1;
        while matches!(self.words.get(i).map(|t| &t.tok), Some(Tok::Word(_))) {
            i += 1;
        }
        matches!(self.peek(), Some(Tok::Open(_))) && i > self.at + 1 && self.words.get(i).map(|t| &t.tok) == Some(&Tok::Colon)
    }

    /// `(x y : T)` or `{x : T}`; whether it is implicit
    fn binder(&mut self) -> Read<(Vec<String>, Ex, bool)> {
        let implicit = self.is(&Tok::Open('{'));
        self.at += 1;
        let mut names = Vec::new();
        while !self.is(&Tok::Colon) {
            names.push(self.name()?);
        }
        self.at += 1;
        let kind = self.expr()?;
        self.take(&Tok::Close(if implicit { '}' } else { ')' }))?;
        Ok((names, kind, implicit))
    }

    pub fn expr(&mut self) -> Read<Ex> {
        let line = self.line();
        if self.binds() {
            let (names, kind, implicit) = self.binder()?;
            if self.is(&Tok::Arrow) {
                self.at += 1;
            } else if !self.binds() {
                return self.fail("an arrow is wanted");
            }
            let rest = self.expr()?;
            return Ok(self.ex(line, Kind::Pi(names, Box::new(kind), Box::new(rest), implicit)));
        }
        let left = self.ops(0)?;
        if self.is(&Tok::Arrow) {
            self.at += 1;
            let rest = self.expr()?;
            return Ok(self.ex(line, Kind::Pi(vec![], Box::new(left), Box::new(rest), false)));
        }
        Ok(left)
    }

    fn op(&self) -> Option<(String, u32, i8)> {
        match self.peek() {
            Some(Tok::Word(w)) => self.ops.get(w).map(|(s, a)| (w.clone(), *s, *a)),
            _ => None,
        }
    }

    fn ops(&mut self, least: u32) -> Read<Ex> {
        let mut left = self.apply()?;
        while let Some((op, strength, side)) = self.op().filter(|o| o.1 >= least) {
            let line = self.line();
            self.at += 1;
            let right = self.ops(if side > 0 { strength } else { strength + 1 })?;
            left = self.ex(line, Kind::Op(op, Box::new(left), Box::new(right)));
        }
        Ok(left)
    }

    fn lambda(&mut self) -> Read<Ex> {
        let line = self.line();
        self.at += 1;
        let mut names = Vec::new();
        while !self.is(&Tok::Dot) {
            if self.binds() {
                names.extend(self.binder()?.0);
            } else {
                names.push(self.name()?);
            }
        }
        self.at += 1;
        let body = self.expr()?;
        Ok(self.ex(line, Kind::Lam(names, Box::new(body))))
    }

    fn binding(&mut self) -> Read<Ex> {
        let line = self.line();
        self.at += 1;
        let name = self.name()?;
        if self.is(&Tok::Colon) {
            self.at += 1;
            self.expr()?;
        }
        self.take(&Tok::Equals)?;
        let value = self.expr()?;
        self.take_word("in")?;
        let body = self.expr()?;
        Ok(self.ex(line, Kind::Let(name, Box::new(value), Box::new(body))))
    }

    fn record(&mut self) -> Read<Ex> {
        let line = self.line();
        self.at += 1;
        self.take(&Tok::Open('{'))?;
        let mut fields = Vec::new();
        while !self.is(&Tok::Close('}')) {
            let name = self.name()?;
            self.take(&Tok::Equals)?;
            fields.push((name, self.expr()?));
            if self.is(&Tok::Semi) {
                self.at += 1;
            }
        }
        self.at += 1;
        Ok(self.ex(line, Kind::Rec(fields)))
    }

    /// `elim x [ ]`, in proofs alone
    fn elim(&mut self) -> Read<Ex> {
        let line = self.line();
        self.at += 1;
        let Some(x) = self.atom()? else { return self.fail("an expression is wanted") };
        self.take_word("[")?;
        self.take_word("]")?;
        let absurd = self.ex(line, Kind::Name("absurd".to_string()));
        Ok(self.ex(line, Kind::App(Box::new(absurd), vec![x])))
    }

    fn bracket(&mut self) -> Read<Ex> {
        let line = self.line();
        self.at += 1;
        let mut parts = Vec::new();
        while !self.is(&Tok::Close(')')) {
            parts.push(self.expr()?);
            if self.is(&Tok::Comma) {
                self.at += 1;
            } else if !self.is(&Tok::Close(')')) {
                return self.fail("a comma or a bracket is wanted");
            }
        }
        self.at += 1;
        Ok(if parts.len() == 1 { parts.remove(0) } else { self.ex(line, Kind::Tuple(parts)) })
    }

    /// `x.f.g`, `(f x).g`: fields stand tight
    fn atom(&mut self) -> Read<Option<Ex>> {
        let line = self.line();
        let Some(mut ex) = self.plain()? else { return Ok(None) };
        while let Some(Tok::Field(f)) = self.peek() {
            let field = f.clone();
            self.at += 1;
            ex = self.ex(line, Kind::Proj(Box::new(ex), field));
        }
        Ok(Some(ex))
    }

    fn plain(&mut self) -> Read<Option<Ex>> {
        let line = self.line();
        let kind = match self.peek() {
            Some(Tok::Lambda) => return self.lambda().map(Some),
            Some(Tok::Open('(')) if !self.binds() => return self.bracket().map(Some),
            Some(Tok::Num(n)) => Kind::Num(*n),
            Some(Tok::Text(s)) => Kind::Text(s.clone()),
            Some(Tok::Word(w)) if w == "let" => return self.binding().map(Some),
            Some(Tok::Word(w)) if w == "record" => return self.record().map(Some),
            Some(Tok::Word(w)) if w == "elim" => return self.elim().map(Some),
            Some(Tok::Word(w)) if KEYWORDS.contains(&w.as_str()) || self.ops.contains_key(w) => return Ok(None),
            Some(Tok::Word(w)) => Kind::Name(w.clone()),
            _ => return Ok(None),
        };
        self.at += 1;
        Ok(Some(self.ex(line, kind)))
    }

    /// `{x}` or `{name = x}`: no value depends on it
    fn implicit(&mut self) -> Read<()> {
        self.at += 1;
        if self.words.get(self.at + 1).map(|t| &t.tok) == Some(&Tok::Equals) {
            self.at += 2;
        }
        self.expr()?;
        self.take(&Tok::Close('}'))
    }

    fn apply(&mut self) -> Read<Ex> {
        let line = self.line();
        let Some(head) = self.atom()? else { return self.fail("an expression is wanted") };
        let mut args = Vec::new();
        loop {
            if self.is(&Tok::Open('{')) && !self.binds() {
                self.implicit()?;
            } else if let Some(arg) = self.atom()? {
                args.push(arg);
            } else {
                return Ok(self.applied(line, head, args));
            }
        }
    }

    fn applied(&mut self, line: u32, head: Ex, args: Vec<Ex>) -> Ex {
        if args.is_empty() {
            head
        } else {
            self.ex(line, Kind::App(Box::new(head), args))
        }
    }

    fn whole<T>(&self, got: T) -> Read<T> {
        if self.at < self.words.len() {
            return self.fail("the end is wanted");
        }
        Ok(got)
    }
}

fn path(words: &[Token]) -> Vec<String> {
    let mut out = Vec::new();
    for t in words {
        match &t.tok {
            Tok::Word(w) if out.is_empty() => out.extend(w.split('.').map(str::to_string)),
            Tok::Field(f) => out.push(f.clone()),
            _ => break,
        }
    }
    out
}

fn imported(words: &[Token]) -> Vec<(String, String)> {
    let plain = |w: &str| w.trim_matches('◌').to_string();
    let names: Vec<String> = words.iter().map(|t| if let Tok::Word(w) = &t.tok { w.clone() } else { ",".to_string() }).collect();
    let parts = names.split(|n| n == ",").filter(|p| !p.is_empty());
    parts.map(|p| (plain(&p[0]), plain(p.last().unwrap()))).collect()
}

fn usage(words: &[Token]) -> Item {
    let path = path(&words[1..]);
    let alias = match words {
        [.., Token { tok: Tok::Word(a), .. }, Token { tok: Tok::Word(w), .. }] if a == "as" => w.clone(),
        _ => path.last().cloned().unwrap_or_default(),
    };
    let open = words.iter().position(|t| t.tok == Tok::Open('{'));
    let names = open.map(|i| imported(&words[i + 1..words.len() - 1]));
    Item::Use { path, names, alias }
}

/// The operators that a file may use: the kit's, and those under another name.
fn operators(words: &[Token]) -> HashMap<String, (u32, i8)> {
    let mut ops: HashMap<String, (u32, i8)> = STRENGTHS.iter().map(|(n, s, a)| (n.to_string(), (*s, *a))).collect();
    for w in words.windows(3) {
        if let (Tok::Word(a), Tok::Word(b), Tok::Word(c)) = (&w[0].tok, &w[1].tok, &w[2].tok) {
            if let (Some(s), "as", true) = (ops.get(a.trim_matches('◌')), b.as_str(), c.starts_with('◌')) {
                let s = *s;
                ops.insert(c.trim_matches('◌').to_string(), s);
            }
        }
    }
    ops
}

pub struct File<'a> {
    ids: &'a mut Id,
    ops: HashMap<String, (u32, i8)>,
    out: Vec<Placed>,
}

impl File<'_> {
    fn parser<'b>(&'b mut self, words: &'b [Token]) -> Parser<'b> {
        Parser { words, at: 0, ids: self.ids, ops: &self.ops }
    }

    fn put(&mut self, item: Item, under: bool) {
        self.out.push(Placed { item, under });
    }

    /// name, parameters, and the lines behind `where`
    fn headed<'w>(&mut self, words: &'w [Token]) -> Read<(String, Vec<Param>, Vec<&'w [Token]>)> {
        let end = words.iter().position(|t| t.tok == Tok::Word("where".to_string())).unwrap_or(words.len());
        let mut p = self.parser(&words[..end]);
        let name = p.name()?;
        let mut params = Vec::new();
        while p.binds() {
            let (names, _, _) = p.binder()?;
            params.push(Param { names });
        }
        let body = words.get(end + 1..).unwrap_or(&[]);
        let col = body.first().map_or(0, |t| t.col);
        Ok((name, params, items(body, col)))
    }

    fn sigs(&mut self, lines: Vec<&[Token]>) -> Read<Vec<(String, Ex)>> {
        let mut out = Vec::new();
        for line in lines {
            let skip = usize::from(line[0].tok == Tok::Word("pub".to_string()));
            let mut p = self.parser(&line[skip..]);
            let name = p.name()?;
            p.take(&Tok::Colon)?;
            let kind = p.expr()?;
            out.push((name, p.whole(kind)?));
        }
        Ok(out)
    }

    fn block(&mut self, words: &[Token], under: bool) -> Read<()> {
        let end = words.iter().position(|t| t.tok == Tok::Word("where".to_string())).unwrap_or(words.len());
        let explicit = words[..end].iter().any(|t| t.tok == Tok::Open('('));
        let body = words.get(end + 1..).unwrap_or(&[]);
        let col = body.first().map_or(0, |t| t.col);
        for item in items(body, col) {
            self.item(item, under || explicit)?;
        }
        Ok(())
    }

    fn clause(&mut self, words: &[Token]) -> Read<(String, Clause)> {
        let line = words[0].line;
        let mut p = self.parser(words);
        let left = p.apply()?;
        p.take(&Tok::Equals)?;
        let body = p.expr()?;
        let body = p.whole(body)?;
        match left.kind {
            Kind::Name(name) => Ok((name, Clause { line, pats: vec![], body })),
            Kind::App(f, pats) => match f.kind {
                Kind::Name(name) => Ok((name, Clause { line, pats, body })),
                _ => Err((line, "a clause of no name".to_string())),
            },
            _ => Err((line, "no clause".to_string())),
        }
    }

    fn item(&mut self, words: &[Token], under: bool) -> Read<()> {
        let first =
            words.iter().position(|t| !matches!(&t.tok, Tok::Word(w) if ["pub", "abbrev", "unfoldable"].contains(&w.as_str())));
        let words = &words[first.unwrap_or(0)..];
        let line = words[0].line;
        let Tok::Word(word) = &words[0].tok else { return Err((line, "no declaration".to_string())) };
        match word.as_str() {
            "use" => self.put(usage(words), under),
            "mod" | "unfolding" => {}
            "module" => self.block(words, under)?,
            "record" => {
                let (name, params, lines) = self.headed(&words[1..])?;
                let fields = self.sigs(lines)?;
                self.put(Item::Record { name, params, fields }, under);
            }
            "data" => {
                let (name, _, lines) = self.headed(&words[1..])?;
                let cons = self.sigs(lines)?;
                self.put(Item::Data { name, cons }, under);
            }
            _ if words.get(1).map(|t| &t.tok) == Some(&Tok::Colon) => {
                let (name, kind) = self.sigs(vec![words])?.remove(0);
                self.put(Item::Sig { name, kind }, under);
            }
            _ => {
                let (name, clause) = self.clause(words)?;
                self.put(Item::Eqn { name, clause }, under);
            }
        }
        Ok(())
    }
}

/// The items of a file, and those that cannot be read, each with its line.
pub fn file(words: &[Token], ids: &mut Id) -> (Vec<Placed>, Vec<(u32, String)>) {
    let mut f = File { ids, ops: operators(words), out: Vec::new() };
    let mut bad = Vec::new();
    for item in items(words, 0) {
        if let Err(e) = f.item(item, false) {
            bad.push(e);
        }
    }
    (f.out, bad)
}

pub fn expression(words: &[Token], ids: &mut Id) -> Result<Ex, String> {
    let ops = operators(words);
    let mut p = Parser { words, at: 0, ids, ops: &ops };
    let e = p.expr().and_then(|e| p.whole(e));
    e.map_err(|e| e.1)
}

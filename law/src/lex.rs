//! Words of an .antt file, with their places.

#[derive(Clone, Debug, PartialEq)]
pub enum Tok {
    Word(String),
    Field(String),
    Num(u128),
    Text(String),
    Open(char),
    Close(char),
    Comma,
    Semi,
    Dot,
    Lambda,
    Arrow,
    Colon,
    Equals,
}

#[derive(Clone, Debug)]
pub struct Token {
    pub tok: Tok,
    pub line: u32,
    pub col: u32,
}

struct Reader<'a> {
    text: &'a [char],
    at: usize,
    line: u32,
    col: u32,
    out: Vec<Token>,
}

fn ends_word(c: char) -> bool {
    c.is_whitespace() || "(){};,\"".contains(c)
}

fn number(word: &str) -> Option<Result<u128, String>> {
    if !word.starts_with(|c: char| c.is_ascii_digit()) {
        return None;
    }
    let read = match word.strip_prefix("0x") {
        Some(digits) => u128::from_str_radix(digits, 16),
        None => word.parse(),
    };
    Some(read.map_err(|_| format!("no number: {word}")))
}

impl Reader<'_> {
    fn step(&mut self) -> char {
        let c = self.text[self.at];
        self.at += 1;
        self.col += 1;
        if c == '\n' {
            self.line += 1;
            self.col = 0;
        }
        c
    }

    fn push(&mut self, tok: Tok, line: u32, col: u32) {
        self.out.push(Token { tok, line, col });
    }

    fn comment(&mut self) {
        while self.at < self.text.len() && self.text[self.at] != '\n' {
            self.step();
        }
    }

    fn quoted(&mut self) -> Result<String, String> {
        self.step();
        let mut s = String::new();
        while self.at < self.text.len() {
            match self.step() {
                '"' => return Ok(s),
                '\\' => s.push(self.step()),
                c => s.push(c),
            }
        }
        Err("a string without its end".to_string())
    }

    fn word(&mut self) -> String {
        let from = self.at;
        while self.at < self.text.len() && !ends_word(self.text[self.at]) {
            self.step();
        }
        self.text[from..self.at].iter().collect()
    }

    fn kind(&mut self, word: String, line: u32, col: u32) -> Result<(), String> {
        let tok = match word.as_str() {
            "λ" => Tok::Lambda,
            "→" => Tok::Arrow,
            ":" => Tok::Colon,
            "=" => Tok::Equals,
            "." => Tok::Dot,
            _ => match number(&word) {
                Some(n) => Tok::Num(n?),
                None => return self.named(word, line, col),
            },
        };
        self.push(tok, line, col);
        Ok(())
    }

    /// `x`, `M.x`, `x.f`, `M.x.f`, `x.` in front of a body, and `.f` that stands tight behind a bracket
    fn named(&mut self, word: String, line: u32, col: u32) -> Result<(), String> {
        if let Some(fields) = word.strip_prefix('.') {
            let tight = self.out.last().is_some_and(|t| t.tok == Tok::Close(')') && (t.line, t.col + 1) == (line, col));
            if !tight {
                return Err(format!("a field that stands alone: {word}"));
            }
            self.fields(fields, line, col);
            return Ok(());
        }
        let (named, ends) = word.strip_suffix('.').map_or((word.as_str(), false), |w| (w, true));
        let parts: Vec<&str> = named.split('.').collect();
        // modules have capitals: what stands behind them is the name
        let modules = parts.iter().take_while(|p| p.starts_with(char::is_uppercase)).count();
        let name = (modules + 1).min(parts.len());
        let plain = |p: &&str| p.trim_start_matches('«').trim_end_matches('»').to_string();
        let spelled = parts[..name].iter().map(plain).collect::<Vec<_>>().join(".");
        self.push(Tok::Word(spelled), line, col);
        self.fields(&parts[name..].join("."), line, col);
        if ends {
            self.push(Tok::Dot, line, col);
        }
        Ok(())
    }

    fn fields(&mut self, all: &str, line: u32, col: u32) {
        for f in all.split('.').filter(|f| !f.is_empty()) {
            self.push(Tok::Field(f.to_string()), line, col);
        }
    }

    fn next(&mut self) -> Result<(), String> {
        let (line, col) = (self.line, self.col);
        match self.text[self.at] {
            c if c.is_whitespace() => {
                self.step();
            }
            '-' if self.text.get(self.at + 1) == Some(&'-') => self.comment(),
            c @ ('(' | '{') => {
                self.step();
                self.push(Tok::Open(c), line, col);
            }
            c @ (')' | '}') => {
                self.step();
                self.push(Tok::Close(c), line, col);
            }
            c @ (',' | ';') => {
                self.step();
                self.push(if c == ',' { Tok::Comma } else { Tok::Semi }, line, col);
            }
            '"' => {
                let s = self.quoted()?;
                self.push(Tok::Text(s), line, col);
            }
            _ => {
                let word = self.word();
                self.kind(word, line, col)?;
            }
        }
        Ok(())
    }
}

pub fn words(text: &str) -> Result<Vec<Token>, String> {
    let chars: Vec<char> = text.chars().collect();
    let mut r = Reader { text: &chars, at: 0, line: 1, col: 0, out: Vec::new() };
    while r.at < r.text.len() {
        let line = r.line;
        r.next().map_err(|e| format!("{line}: {e}"))?;
    }
    Ok(aliased(r.out))
}

/// A module that `use .. as name` names has a small letter: `name.x` is one word.
fn aliased(words: Vec<Token>) -> Vec<Token> {
    let is = |t: &Token, w: &str| t.tok == Tok::Word(w.to_string());
    let named = |w: &[Token]| is(&w[0], "as") && w[2].col == 0;
    let mut names = Vec::new();
    for w in words.windows(3).filter(|w| named(w)) {
        if let Tok::Word(name) = &w[1].tok {
            names.push(name.clone());
        }
    }
    let mut out: Vec<Token> = Vec::new();
    for t in words {
        match (&t.tok, out.last_mut()) {
            (Tok::Field(f), Some(Token { tok: Tok::Word(w), col, .. })) if *col == t.col && names.contains(w) => {
                *w = format!("{w}.{f}")
            }
            _ => out.push(t),
        }
    }
    out
}

/// The words cut before each that begins a line at that column, outside of brackets.
pub fn items(words: &[Token], col: u32) -> Vec<&[Token]> {
    let mut cuts = Vec::new();
    let (mut depth, mut last) = (0i32, 0);
    for (i, t) in words.iter().enumerate() {
        if depth == 0 && t.col == col && t.line != last {
            cuts.push(i);
        }
        last = t.line;
        match t.tok {
            Tok::Open(_) => depth += 1,
            Tok::Close(_) => depth -= 1,
            _ => {}
        }
    }
    cuts.push(words.len());
    cuts.windows(2).map(|w| &words[w[0]..w[1]]).collect()
}

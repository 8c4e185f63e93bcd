//! Processes as people write them: entries `name x : T`, then the process. Binders are renamed apart as they are read,
//! so that what is asked keeps its bound names apart.
//!
//! ```text
//! # a handshake with a fixed label
//! name net : Un
//! name a : Un
//! name k : symkey(nonce [end a])
//!
//! new (n : Un); out net n; inp net z : Un; decrypt z (k) to m : nonce [end a]; check n = m; end a; stop
//! | inp net x : Un; begin a; cast x is y : nonce [end a]; out net {y}k; stop
//! ```

use super::tree::{Effect, Effects, Environment, Process, Term, Type};

/// What a text asks: an environment and a process, and what its names are called.
#[derive(Clone, Debug)]
pub struct Asked {
    pub environment: Environment,
    pub process: Process,
    pub names: Vec<String>,
}

struct Token<'a> {
    line: usize,
    text: &'a str,
}

fn tokens(text: &str) -> Vec<Token<'_>> {
    let mut tokens = Vec::new();
    for (number, whole) in text.lines().enumerate() {
        let mut rest = whole.split('#').next().unwrap_or("").trim_start();
        while let Some(first) = rest.chars().next() {
            let word = |c: char| c.is_alphanumeric() || c == '_' || c == '\'';
            let length = if word(first) {
                rest.find(|c| !word(c)).unwrap_or(rest.len())
            } else {
                first.len_utf8()
            };
            tokens.push(Token {
                line: number + 1,
                text: &rest[..length],
            });
            rest = rest[length..].trim_start();
        }
    }
    tokens
}

const RESERVED: [&str; 20] = [
    "name", "new", "out", "inp", "split", "match", "decrypt", "to", "begin", "end", "cast", "is", "check", "stop",
    "Un", "ch", "symkey", "nonce", "repeat", "case",
];

struct Parser<'a> {
    tokens: Vec<Token<'a>>,
    place: usize,
    names: Vec<String>,
    /// What a name stands for here, the nearest last.
    scope: Vec<(&'a str, u32)>,
}

type Parsed<T> = Result<T, String>;

impl<'a> Parser<'a> {
    fn peek(&self) -> &'a str {
        self.tokens.get(self.place).map_or("", |token| token.text)
    }

    fn wrong<T>(&self, wanted: &str) -> Parsed<T> {
        let line = self
            .tokens
            .get(self.place)
            .or(self.tokens.last())
            .map_or(1, |token| token.line);
        let found = if self.peek().is_empty() {
            "the end".into()
        } else {
            format!("`{}`", self.peek())
        };
        Err(format!("line {line}: expected {wanted}, found {found}"))
    }

    fn eat(&mut self, text: &str) -> bool {
        let eaten = self.peek() == text;
        self.place += usize::from(eaten);
        eaten
    }

    fn take(&mut self, text: &str) -> Parsed<()> {
        if self.eat(text) {
            return Ok(());
        }
        self.wrong(&format!("`{text}`"))
    }

    fn word(&mut self) -> Parsed<&'a str> {
        let text = self.peek();
        let first = text.chars().next().unwrap_or(' ');
        if !(first.is_alphanumeric() || first == '_') || RESERVED.contains(&text) {
            return self.wrong("a name");
        }
        self.place += 1;
        Ok(text)
    }

    /// A name of its own for what is bound here.
    fn bind(&mut self, text: &'a str) -> u32 {
        let number = self.names.len() as u32;
        self.names.push(text.to_string());
        self.scope.push((text, number));
        number
    }

    fn name(&mut self) -> Parsed<Term> {
        let (place, text) = (self.place, self.word()?);
        match self.scope.iter().rev().find(|(own, _)| *own == text) {
            Some(&(_, number)) => Ok(Term::Name(number)),
            None => {
                self.place = place;
                self.wrong("a name that is declared or bound")
            }
        }
    }

    fn term(&mut self) -> Parsed<Term> {
        if self.eat("(") {
            let one = self.term()?;
            self.take(",")?;
            let two = self.term()?;
            self.take(")")?;
            return Ok(Term::Pair(Box::new(one), Box::new(two)));
        }
        if self.eat("{") {
            let contents = self.term()?;
            self.take("}")?;
            return Ok(Term::Cipher(Box::new(contents), Box::new(self.term()?)));
        }
        self.name()
    }

    fn effects(&mut self) -> Parsed<Effects> {
        self.take("[")?;
        let mut list = Vec::new();
        while !self.eat("]") {
            if !list.is_empty() {
                self.take(",")?;
            }
            list.push(if self.eat("end") {
                Effect::End(self.term()?)
            } else if self.eat("check") {
                Effect::Check(self.term()?)
            } else {
                return self.wrong("`end` or `check`");
            });
        }
        Ok(Effects::of(list))
    }

    fn kind(&mut self) -> Parsed<Type> {
        if self.eat("Un") {
            return Ok(Type::Un);
        }
        if self.eat("nonce") {
            return Ok(Type::Nonce(self.effects()?));
        }
        if self.eat("(") {
            let text = self.word()?;
            self.take(":")?;
            let one = self.kind()?;
            self.take(",")?;
            let (kept, own) = (self.scope.len(), self.names.len());
            let x = self.bind(text);
            let two = self.kind()?.binding(x);
            // The name is bound in the type: no process has it.
            self.scope.truncate(kept);
            self.names.truncate(own);
            self.take(")")?;
            return Ok(Type::Pair(Box::new(one), Box::new(two)));
        }
        let channel = self.eat("ch");
        if channel || self.eat("symkey") {
            self.take("(")?;
            let inner = Box::new(self.kind()?);
            self.take(")")?;
            return Ok(if channel {
                Type::Channel(inner)
            } else {
                Type::Symkey(inner)
            });
        }
        self.wrong("a type")
    }

    fn process(&mut self) -> Parsed<Process> {
        let mut process = self.sequence()?;
        while self.eat("|") {
            process = Process::Parallel(Box::new(process), Box::new(self.sequence()?));
        }
        Ok(process)
    }

    /// What comes behind an event, with what it binds; the scope is then as before.
    fn next(&mut self, kept: usize) -> Parsed<Box<Process>> {
        self.take(";")?;
        let next = self.sequence()?;
        self.scope.truncate(kept);
        Ok(Box::new(next))
    }

    fn sequence(&mut self) -> Parsed<Process> {
        let kept = self.scope.len();
        if self.eat("stop") {
            return Ok(Process::Stop);
        }
        if self.eat("(") {
            let process = self.process()?;
            self.take(")")?;
            return Ok(process);
        }
        if self.eat("new") {
            self.take("(")?;
            let text = self.word()?;
            self.take(":")?;
            let kind = self.kind()?;
            self.take(")")?;
            return Ok(Process::New(self.bind(text), kind, self.next(kept)?));
        }
        if self.eat("out") {
            return Ok(Process::Out(self.term()?, self.term()?, self.next(kept)?));
        }
        if self.eat("inp") {
            let channel = self.term()?;
            let (x, kind) = self.entry()?;
            return Ok(Process::Inp(channel, self.bind(x), kind, self.next(kept)?));
        }
        if self.eat("split") {
            let whole = self.term()?;
            self.take("=")?;
            self.take("(")?;
            let (x, one) = self.entry()?;
            let x = self.bind(x);
            self.take(",")?;
            let (y, two) = self.entry()?;
            let y = self.bind(y);
            self.take(")")?;
            return Ok(Process::Split(whole, (x, one), (y, two), self.next(kept)?));
        }
        if self.eat("match") {
            let whole = self.term()?;
            self.take("=")?;
            self.take("(")?;
            let first = self.term()?;
            self.take(",")?;
            let (y, kind) = self.entry()?;
            self.take(")")?;
            return Ok(Process::Match(whole, first, (self.bind(y), kind), self.next(kept)?));
        }
        if self.eat("decrypt") {
            let cipher = self.term()?;
            self.take("(")?;
            let key = self.term()?;
            self.take(")")?;
            self.take("to")?;
            let (x, kind) = self.entry()?;
            return Ok(Process::Decrypt(cipher, key, (self.bind(x), kind), self.next(kept)?));
        }
        if self.eat("begin") {
            return Ok(Process::Begin(self.term()?, self.next(kept)?));
        }
        if self.eat("end") {
            return Ok(Process::End(self.term()?, self.next(kept)?));
        }
        if self.eat("cast") {
            let from = self.term()?;
            self.take("is")?;
            let x = self.word()?;
            self.take(":")?;
            self.take("nonce")?;
            let promise = self.effects()?;
            return Ok(Process::Cast(from, self.bind(x), promise, self.next(kept)?));
        }
        if self.eat("check") {
            let own = self.term()?;
            self.take("=")?;
            return Ok(Process::Check(own, self.term()?, self.next(kept)?));
        }
        self.wrong("an event or `stop`")
    }

    fn entry(&mut self) -> Parsed<(&'a str, Type)> {
        let text = self.word()?;
        self.take(":")?;
        Ok((text, self.kind()?))
    }
}

/// Reads a text.
pub fn parse(text: &str) -> Result<Asked, String> {
    let mut parser = Parser {
        tokens: tokens(text),
        place: 0,
        names: Vec::new(),
        scope: Vec::new(),
    };
    let mut environment = Vec::new();
    while parser.eat("name") {
        let (place, text) = (parser.place, parser.word()?);
        if parser.scope.iter().any(|(own, _)| *own == text) {
            parser.place = place;
            return parser.wrong("a name that is not declared yet");
        }
        parser.take(":")?;
        let kind = parser.kind()?;
        environment.push((parser.bind(text), kind));
    }
    let process = parser.process()?;
    if !parser.peek().is_empty() {
        return parser.wrong("`|` or the end");
    }
    Ok(Asked {
        environment,
        process,
        names: parser.names,
    })
}

impl Asked {
    fn called(&self, name: u32) -> String {
        let own = self.names.get(name as usize).map_or("?", String::as_str);
        if self.names.iter().filter(|other| *other == own).count() > 1 {
            return format!("{own} (name {name})");
        }
        own.to_string()
    }

    pub fn term(&self, term: &Term) -> String {
        match term {
            Term::Name(name) => self.called(*name),
            Term::Bound(level) => format!("variable {level}"),
            Term::Pair(one, two) => format!("({}, {})", self.term(one), self.term(two)),
            Term::Cipher(one, two) => format!("{{{}}}{}", self.term(one), self.term(two)),
        }
    }

    pub fn effects(&self, effects: &Effects) -> String {
        let list: Vec<String> = (effects.list().iter())
            .map(|effect| match effect {
                Effect::End(term) => format!("end {}", self.term(term)),
                Effect::Check(term) => format!("check {}", self.term(term)),
            })
            .collect();
        format!("[{}]", list.join(", "))
    }

    pub fn kind(&self, kind: &Type) -> String {
        match kind {
            Type::Un => "Un".into(),
            Type::Pair(one, two) => format!("(_ : {}, {})", self.kind(one), self.kind(two)),
            Type::Channel(inner) => format!("ch({})", self.kind(inner)),
            Type::Symkey(inner) => format!("symkey({})", self.kind(inner)),
            Type::Nonce(effects) => format!("nonce {}", self.effects(effects)),
        }
    }
}

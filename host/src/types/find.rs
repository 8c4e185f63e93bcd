//! Finds a derivation where the rules leave no choice that matters: each name has one type, a term's type is that of its
//! name, its key or what is asked of it, and a process's effect follows from its parts.

use super::text::Asked;
use super::tree::{Effect, Effects, Environment, Judgement, Process, Term, Type};
use super::write::{self, Line};
use std::collections::HashMap;

/// A derivation was found: its words, what is asked, and the effect that is left; safe if that is empty.
#[derive(Clone, Debug)]
pub struct Derived {
    pub asked: Vec<u32>,
    pub derivation: Vec<u32>,
    pub lines: usize,
    pub left: Effects,
}

struct Finder<'a> {
    asked: &'a Asked,
    lines: Vec<Line>,
    known: HashMap<String, usize>,
    /// The lines of environments that are good. Each of their entries rests on the one before in several ways, so that
    /// without this the time would double from entry to entry.
    good: HashMap<Vec<u32>, usize>,
}

type Found<T> = Result<T, String>;

/// Derives the effect of what is asked, or says which term has no type or where a bound name is left in an effect.
pub fn derive(asked: &Asked) -> Found<Derived> {
    let mut finder = Finder {
        asked,
        lines: Vec::new(),
        known: HashMap::new(),
        good: HashMap::new(),
    };
    let (_, left) = finder.process(&asked.environment, &asked.process)?;
    Ok(Derived {
        asked: write::asked(&asked.environment, &asked.process),
        derivation: write::derivation(&finder.lines),
        lines: finder.lines.len(),
        left,
    })
}

fn with(environment: &Environment, more: &[(u32, Type)]) -> Environment {
    [environment.as_slice(), more].concat()
}

impl Finder<'_> {
    fn line(&mut self, rule: u32, premises: &[usize], gives: Judgement) -> usize {
        let own = format!("{rule} {premises:?} {gives:?}");
        if let Some(&line) = self.known.get(&own) {
            return line;
        }
        self.lines.push(Line {
            rule,
            premises: premises.to_vec(),
            gives,
        });
        self.known.insert(own, self.lines.len() - 1);
        self.lines.len() - 1
    }

    fn good(&mut self, environment: &Environment) -> Found<usize> {
        let Some(((_, kind), before)) = environment.split_last() else {
            return Ok(self.line(1, &[], Judgement::Good(Vec::new())));
        };
        let mut own = Vec::new();
        write::environment(environment, &mut own);
        if let Some(&line) = self.good.get(&own) {
            return Ok(line);
        }
        let premise = self.kind(&before.to_vec(), kind)?;
        let line = self.line(2, &[premise], Judgement::Good(environment.clone()));
        self.good.insert(own, line);
        Ok(line)
    }

    fn kind(&mut self, environment: &Environment, kind: &Type) -> Found<usize> {
        let (rule, premises) = match kind {
            Type::Un => (6, vec![self.good(environment)?]),
            Type::Pair(one, two) => {
                let first = self.kind(environment, one)?;
                // A name that neither the process nor this environment has, always the same one here.
                let x = (self.asked.names.len() + environment.len()) as u32;
                let inside = with(environment, &[(x, (**one).clone())]);
                (7, vec![first, self.kind(&inside, &two.putting(&Term::Name(x)))?])
            }
            Type::Channel(inner) => (8, vec![self.kind(environment, inner)?]),
            Type::Symkey(inner) => (9, vec![self.kind(environment, inner)?]),
            Type::Nonce(effects) => (10, vec![self.effects(environment, effects.list())?]),
        };
        Ok(self.line(rule, &premises, Judgement::Type(environment.clone(), kind.clone())))
    }

    fn effects(&mut self, environment: &Environment, list: &[Effect]) -> Found<usize> {
        let (rule, premises) = match list.split_last() {
            None => (3, vec![self.good(environment)?]),
            Some((Effect::End(label), before)) => (
                4,
                vec![self.effects(environment, before)?, self.infer(environment, label)?.0],
            ),
            Some((Effect::Check(nonce), before)) => (
                5,
                vec![
                    self.effects(environment, before)?,
                    self.term(environment, nonce, &Type::Un)?,
                ],
            ),
        };
        Ok(self.line(
            rule,
            &premises,
            Judgement::Effect(environment.clone(), Effects::of(list.to_vec())),
        ))
    }

    fn typed(&mut self, rule: u32, premises: &[usize], environment: &Environment, term: &Term, kind: &Type) -> usize {
        self.line(
            rule,
            premises,
            Judgement::Term(environment.clone(), term.clone(), kind.clone()),
        )
    }

    fn untyped<T>(&self, term: &Term, wanted: &Type) -> Found<T> {
        Err(format!(
            "{} has not the type {}",
            self.asked.term(term),
            self.asked.kind(wanted)
        ))
    }

    /// A term of the type that is asked of it.
    fn term(&mut self, environment: &Environment, term: &Term, wanted: &Type) -> Found<usize> {
        match (term, wanted) {
            (Term::Pair(one, two), Type::Pair(left, right)) => {
                let first = self.term(environment, one, left)?;
                let second = self.term(environment, two, &right.putting(one))?;
                Ok(self.typed(12, &[first, second], environment, term, wanted))
            }
            (Term::Pair(one, two), Type::Un) => {
                let first = self.term(environment, one, &Type::Un)?;
                let second = self.term(environment, two, &Type::Un)?;
                Ok(self.typed(15, &[first, second], environment, term, wanted))
            }
            _ => match self.infer(environment, term)? {
                (line, kind) if kind == *wanted => Ok(line),
                _ => self.untyped(term, wanted),
            },
        }
    }

    /// A term, and the type that it has.
    fn infer(&mut self, environment: &Environment, term: &Term) -> Found<(usize, Type)> {
        match term {
            Term::Name(x) => {
                let kind = environment
                    .iter()
                    .rev()
                    .find(|(name, _)| name == x)
                    .map(|(_, kind)| kind.clone());
                let kind = kind.ok_or_else(|| format!("{} has no type", self.asked.term(term)))?;
                let premise = self.good(environment)?;
                Ok((self.typed(11, &[premise], environment, term, &kind), kind))
            }
            Term::Bound(_) => Err(format!("{} has no type", self.asked.term(term))),
            Term::Pair(one, two) => {
                let (first, left) = self.infer(environment, one)?;
                let (second, right) = self.infer(environment, two)?;
                if left == Type::Un && right == Type::Un {
                    return Ok((self.typed(15, &[first, second], environment, term, &Type::Un), Type::Un));
                }
                // No name is the variable's, so that the second part does not speak of it.
                let kind = Type::Pair(Box::new(left), Box::new(right.binding(u32::MAX)));
                Ok((self.typed(12, &[first, second], environment, term, &kind), kind))
            }
            Term::Cipher(contents, key) => {
                let (under, kind) = self.infer(environment, key)?;
                let (rule, inside) = match &kind {
                    Type::Symkey(inner) => (13, (**inner).clone()),
                    Type::Un => (14, Type::Un),
                    _ => {
                        return Err(format!(
                            "{} is no key: its type is {}",
                            self.asked.term(key),
                            self.asked.kind(&kind)
                        ))
                    }
                };
                let contents = self.term(environment, contents, &inside)?;
                Ok((
                    self.typed(rule, &[contents, under], environment, term, &Type::Un),
                    Type::Un,
                ))
            }
        }
    }

    fn away(&self, effects: &Effects, names: &[u32]) -> Found<()> {
        match names.iter().find(|&&name| effects.mentions(name)) {
            None => Ok(()),
            Some(&name) => {
                let name = self.asked.term(&Term::Name(name));
                Err(format!(
                    "{name} is bound, and left in the effect {}",
                    self.asked.effects(effects)
                ))
            }
        }
    }

    /// A process, and its effect.
    fn process(&mut self, environment: &Environment, process: &Process) -> Found<(usize, Effects)> {
        let (rule, premises, effects) = match process {
            Process::Stop => (16, vec![self.good(environment)?], Effects::default()),
            Process::Begin(label, next) => {
                let (line, effects) = self.process(environment, next)?;
                (17, vec![line], effects.minus(&[Effect::End(label.clone())]))
            }
            Process::End(label, next) => {
                let (line, effects) = self.process(environment, next)?;
                (18, vec![line], effects.plus(&[Effect::End(label.clone())]))
            }
            Process::Parallel(one, two) => {
                let (first, left) = self.process(environment, one)?;
                let (second, right) = self.process(environment, two)?;
                (19, vec![first, second], left.plus(right.list()))
            }
            Process::New(x, kind, next) => {
                if !kind.generatable() {
                    return Err(format!("new can't make a {}", self.asked.kind(kind)));
                }
                let (line, effects) = self.process(&with(environment, &[(*x, kind.clone())]), next)?;
                let effects = effects.minus(&[Effect::Check(Term::Name(*x))]);
                self.away(&effects, &[*x])?;
                (20, vec![line], effects)
            }
            Process::Out(channel, message, next) => {
                let (on, kind) = self.infer(environment, channel)?;
                let (rule, inside) = match kind {
                    Type::Channel(inner) => (21, *inner),
                    Type::Un => (28, Type::Un),
                    _ => return self.untyped(channel, &Type::Un),
                };
                let message = self.term(environment, message, &inside)?;
                let (line, effects) = self.process(environment, next)?;
                (rule, vec![on, message, line], effects)
            }
            Process::Inp(channel, x, given, next) => {
                let (on, kind) = self.infer(environment, channel)?;
                let rule = match kind {
                    Type::Channel(inner) if *inner == *given => 22,
                    Type::Un if *given == Type::Un => 29,
                    _ => return self.untyped(channel, &Type::Channel(Box::new(given.clone()))),
                };
                let (line, effects) = self.process(&with(environment, &[(*x, given.clone())]), next)?;
                self.away(&effects, &[*x])?;
                (rule, vec![on, line], effects)
            }
            Process::Split(whole, (x, one), (y, two), next) => {
                let (line, kind) = self.infer(environment, whole)?;
                let wanted = Type::Pair(Box::new(one.clone()), Box::new(two.binding(*x)));
                let rule = match kind {
                    Type::Un if *one == Type::Un && *two == Type::Un => 30,
                    kind if kind == wanted => 23,
                    _ => return self.untyped(whole, &wanted),
                };
                let inside = with(environment, &[(*x, one.clone()), (*y, two.clone())]);
                let (after, effects) = self.process(&inside, next)?;
                self.away(&effects, &[*x, *y])?;
                (rule, vec![line, after], effects)
            }
            Process::Match(whole, first, (y, given), next) => {
                let (line, kind) = self.infer(environment, whole)?;
                let (rule, inside) = match &kind {
                    Type::Un if *given == Type::Un => (31, Type::Un),
                    Type::Pair(left, right) if right.putting(first) == *given => (24, (**left).clone()),
                    _ => return self.untyped(whole, &Type::Un),
                };
                let first = self.term(environment, first, &inside)?;
                let (after, effects) = self.process(&with(environment, &[(*y, given.clone())]), next)?;
                self.away(&effects, &[*y])?;
                (rule, vec![line, first, after], effects)
            }
            Process::Decrypt(cipher, key, (x, given), next) => {
                let line = self.term(environment, cipher, &Type::Un)?;
                let (under, kind) = self.infer(environment, key)?;
                let rule = match &kind {
                    Type::Un if *given == Type::Un => 32,
                    Type::Symkey(inner) if **inner == *given => 27,
                    _ => return self.untyped(key, &Type::Symkey(Box::new(given.clone()))),
                };
                let (after, effects) = self.process(&with(environment, &[(*x, given.clone())]), next)?;
                self.away(&effects, &[*x])?;
                (rule, vec![line, under, after], effects)
            }
            Process::Cast(from, x, promise, next) => {
                let line = self.term(environment, from, &Type::Un)?;
                let inside = with(environment, &[(*x, Type::Nonce(promise.clone()))]);
                let (after, effects) = self.process(&inside, next)?;
                let effects = effects.plus(promise.list());
                self.away(&effects, &[*x])?;
                (25, vec![line, after], effects)
            }
            Process::Check(own, nonce, next) => {
                let line = self.term(environment, own, &Type::Un)?;
                let (promising, kind) = self.infer(environment, nonce)?;
                let Type::Nonce(promise) = kind else {
                    return Err(format!(
                        "{} is no nonce: its type is {}",
                        self.asked.term(nonce),
                        self.asked.kind(&kind)
                    ));
                };
                let (after, effects) = self.process(environment, next)?;
                let effects = effects.minus(promise.list()).plus(&[Effect::Check(own.clone())]);
                (26, vec![line, promising, after], effects)
            }
        };
        let gives = Judgement::Process(environment.clone(), process.clone(), effects.clone());
        Ok((self.line(rule, &premises, gives), effects))
    }
}

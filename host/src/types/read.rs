//! What words spell, in prefix order. A reader is a place in words that goes forward, or nothing.

use super::tree::{Effect, Effects, Environment, Process, Term, Type};

pub struct Reader<'a> {
    words: &'a [u32],
    place: usize,
}

impl<'a> Reader<'a> {
    pub fn new(words: &'a [u32], place: usize) -> Reader<'a> {
        Reader { words, place }
    }

    /// The place of the next word.
    pub fn place(&self) -> usize {
        self.place
    }

    /// All words are read.
    pub fn done(&self) -> bool {
        self.place == self.words.len()
    }

    fn word(&mut self) -> Option<u32> {
        let word = *self.words.get(self.place)?;
        self.place += 1;
        Some(word)
    }

    pub fn term(&mut self) -> Option<Term> {
        match self.word()? {
            1 => Some(Term::Name(self.word()?)),
            2 => Some(Term::Pair(Box::new(self.term()?), Box::new(self.term()?))),
            3 => Some(Term::Cipher(Box::new(self.term()?), Box::new(self.term()?))),
            4 => Some(Term::Bound(self.word()?.into())),
            _ => None,
        }
    }

    fn effect(&mut self) -> Option<Effect> {
        match self.word()? {
            1 => Some(Effect::End(self.term()?)),
            2 => Some(Effect::Check(self.term()?)),
            _ => None,
        }
    }

    pub fn effects(&mut self, count: u32) -> Option<Effects> {
        let mut list = Vec::new();
        for _ in 0..count {
            list.push(self.effect()?);
        }
        Some(Effects::of(list))
    }

    fn counted(&mut self) -> Option<Effects> {
        let count = self.word()?;
        self.effects(count)
    }

    pub fn kind(&mut self) -> Option<Type> {
        match self.word()? {
            1 => Some(Type::Un),
            2 => Some(Type::Pair(Box::new(self.kind()?), Box::new(self.kind()?))),
            3 => Some(Type::Channel(Box::new(self.kind()?))),
            4 => Some(Type::Symkey(Box::new(self.kind()?))),
            5 => Some(Type::Nonce(self.counted()?)),
            _ => None,
        }
    }

    pub fn environment(&mut self) -> Option<Environment> {
        let mut entries = Vec::new();
        loop {
            match self.word()? {
                1 => {
                    entries.reverse();
                    return Some(entries);
                }
                2 => entries.push((self.word()?, self.kind()?)),
                _ => return None,
            }
        }
    }

    fn next(&mut self) -> Option<Box<Process>> {
        Some(Box::new(self.process()?))
    }

    pub fn process(&mut self) -> Option<Process> {
        Some(match self.word()? {
            1 => Process::New(self.word()?, self.kind()?, self.next()?),
            2 => Process::Out(self.term()?, self.term()?, self.next()?),
            3 => {
                let x = self.word()?;
                Process::Inp(self.term()?, x, self.kind()?, self.next()?)
            }
            4 => Process::Parallel(self.next()?, self.next()?),
            5 => Process::Stop,
            6 => {
                let (x, y) = (self.word()?, self.word()?);
                Process::Split(self.term()?, (x, self.kind()?), (y, self.kind()?), self.next()?)
            }
            7 => {
                let y = self.word()?;
                Process::Match(self.term()?, self.term()?, (y, self.kind()?), self.next()?)
            }
            8 => {
                let x = self.word()?;
                Process::Decrypt(self.term()?, self.term()?, (x, self.kind()?), self.next()?)
            }
            9 => Process::Begin(self.term()?, self.next()?),
            10 => Process::End(self.term()?, self.next()?),
            11 => {
                let x = self.word()?;
                Process::Cast(self.term()?, x, self.counted()?, self.next()?)
            }
            12 => Process::Check(self.term()?, self.term()?, self.next()?),
            _ => return None,
        })
    }
}

/// What is asked: an environment, a process, and no word more.
pub fn asked(words: &[u32]) -> Option<(Environment, Process)> {
    let mut reader = Reader::new(words, 0);
    let asked = (reader.environment()?, reader.process()?);
    reader.done().then_some(asked)
}

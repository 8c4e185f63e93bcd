//! The words that spell a thing, and those of a derivation.

use super::tree::{Effect, Effects, Judgement, Process, Term, Type};

pub fn term(term: &Term, out: &mut Vec<u32>) {
    match term {
        Term::Name(name) => out.extend([1, *name]),
        Term::Bound(level) => out.extend([4, *level as u32]),
        Term::Pair(one, two) | Term::Cipher(one, two) => {
            out.push(if matches!(term, Term::Pair(..)) { 2 } else { 3 });
            self::term(one, out);
            self::term(two, out);
        }
    }
}

pub fn effects(effects: &Effects, out: &mut Vec<u32>) {
    for effect in effects.list() {
        out.push(if matches!(effect, Effect::End(_)) { 1 } else { 2 });
        term(effect.about(), out);
    }
}

fn counted(list: &Effects, out: &mut Vec<u32>) {
    out.push(list.list().len() as u32);
    effects(list, out);
}

pub fn kind(kind: &Type, out: &mut Vec<u32>) {
    match kind {
        Type::Un => out.push(1),
        Type::Pair(one, two) => {
            out.push(2);
            self::kind(one, out);
            self::kind(two, out);
        }
        Type::Channel(inner) => {
            out.push(3);
            self::kind(inner, out);
        }
        Type::Symkey(inner) => {
            out.push(4);
            self::kind(inner, out);
        }
        Type::Nonce(effects) => {
            out.push(5);
            counted(effects, out);
        }
    }
}

pub fn environment(entries: &[(u32, Type)], out: &mut Vec<u32>) {
    for (name, own) in entries.iter().rev() {
        out.extend([2, *name]);
        kind(own, out);
    }
    out.push(1);
}

pub fn process(own: &Process, out: &mut Vec<u32>) {
    let next = match own {
        Process::Stop => {
            out.push(5);
            return;
        }
        Process::New(x, given, next) => {
            out.extend([1, *x]);
            kind(given, out);
            next
        }
        Process::Out(one, two, next) | Process::Check(one, two, next) => {
            out.push(if matches!(own, Process::Out(..)) { 2 } else { 12 });
            term(one, out);
            term(two, out);
            next
        }
        Process::Inp(channel, x, given, next) => {
            out.extend([3, *x]);
            term(channel, out);
            kind(given, out);
            next
        }
        Process::Parallel(one, two) => {
            out.push(4);
            process(one, out);
            two
        }
        Process::Split(whole, (x, one), (y, two), next) => {
            out.extend([6, *x, *y]);
            term(whole, out);
            kind(one, out);
            kind(two, out);
            next
        }
        Process::Match(one, two, (x, given), next) | Process::Decrypt(one, two, (x, given), next) => {
            out.extend([if matches!(own, Process::Match(..)) { 7 } else { 8 }, *x]);
            term(one, out);
            term(two, out);
            kind(given, out);
            next
        }
        Process::Begin(label, next) | Process::End(label, next) => {
            out.push(if matches!(own, Process::Begin(..)) { 9 } else { 10 });
            term(label, out);
            next
        }
        Process::Cast(from, x, promise, next) => {
            out.extend([11, *x]);
            term(from, out);
            counted(promise, out);
            next
        }
    };
    process(next, out);
}

/// A line: its rule, its premises, and the judgement that it gives.
#[derive(Clone, Debug)]
pub struct Line {
    pub rule: u32,
    pub premises: Vec<usize>,
    pub gives: Judgement,
}

/// Words that things are put into; what stands there already is used again.
struct Pool {
    first: usize,
    words: Vec<u32>,
}

impl Pool {
    fn place(&mut self, write: impl Fn(&mut Vec<u32>)) -> u32 {
        let mut own = Vec::new();
        write(&mut own);
        let found = self.words.windows(own.len().max(1)).position(|window| window == own);
        let place = found.unwrap_or_else(|| {
            self.words.extend(&own);
            self.words.len() - own.len()
        });
        (self.first + place) as u32
    }
}

/// The words of a derivation.
pub fn derivation(lines: &[Line]) -> Vec<u32> {
    let mut pool = Pool {
        first: 1 + 9 * lines.len(),
        words: Vec::new(),
    };
    // The longest things first, since they have others in them.
    for line in lines.iter().rev() {
        if let Judgement::Process(_, own, _) = &line.gives {
            pool.place(|out| process(own, out));
        }
    }
    let mut words = vec![lines.len() as u32];
    for line in lines {
        words.push(line.rule);
        words.extend((0..3).map(|k| line.premises.get(k).map_or(0, |&premise| premise as u32)));
        let mut list = |given: &Effects| [pool.place(|out| effects(given, out)), given.list().len() as u32];
        let [at, count] = match &line.gives {
            Judgement::Effect(_, given) | Judgement::Process(_, _, given) => list(given),
            _ => [0, 0],
        };
        let (entries, subject, kind_at) = match &line.gives {
            Judgement::Good(entries) | Judgement::Effect(entries, _) => (entries, 0, 0),
            Judgement::Type(entries, given) => (entries, 0, pool.place(|out| kind(given, out))),
            Judgement::Term(entries, own, given) => (
                entries,
                pool.place(|out| term(own, out)),
                pool.place(|out| kind(given, out)),
            ),
            Judgement::Process(entries, own, _) => (entries, pool.place(|out| process(own, out)), 0),
        };
        let entries = pool.place(|out| environment(entries, out));
        words.extend([entries, subject, kind_at, at, count]);
    }
    words.extend(pool.words);
    words
}

/// The words of what is asked.
pub fn asked(entries: &[(u32, Type)], own: &Process) -> Vec<u32> {
    let mut words = Vec::new();
    environment(entries, &mut words);
    process(own, &mut words);
    words
}

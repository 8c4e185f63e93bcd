//! Random derivations to be checked: those that are found of random processes or of given ones, as they are, at the
//! bounds of what is taken, and damaged at one place or another.

use super::Random;
use crate::files;
use crate::types::read::Reader;
use crate::types::tree::{Effect, Effects, Environment, Process, Term, Type};
use crate::types::{derive, tell, Asked, Derived};
use std::path::Path;

/// What is asked, a derivation of it, and what was done to it last.
#[derive(Clone, PartialEq, Eq, Debug)]
pub struct Derivation {
    pub asked: Vec<u32>,
    pub words: Vec<u32>,
    pub kind: &'static str,
}

/// The words of a line.
const LINE: usize = 9;
/// As many lines are taken, and as many effects of a line.
const MOST_LINES: usize = 1_024;
const MOST_EFFECTS: usize = 64;
/// So often a random process is drawn until one has a derivation.
const DRAWS: usize = 12;

/// A derivation that is tried by its name.
#[derive(Clone)]
pub struct Trial {
    pub name: String,
    pub derivation: Derivation,
}

/// The derivations of the processes of a folder, those with an effect left among them.
pub fn given(folder: &Path) -> Result<Vec<Derived>, String> {
    Ok(named(folder)?.into_iter().map(|(_, derived)| derived).collect())
}

fn named(folder: &Path) -> Result<Vec<(String, Derived)>, String> {
    let mut all = Vec::new();
    for file in files::ending(folder, "process")? {
        let name = file.file_stem().unwrap_or_default().to_string_lossy().into_owned();
        let (_, derived) = tell(&files::text(&file)?).map_err(|mistake| format!("{}: {mistake}", file.display()))?;
        all.extend(derived.map(|derived| (name, derived)));
    }
    Ok(all)
}

/// The fixed trials: each process of a folder, as it is, with effects in another order, with 1,024 and
/// 1,025 lines, and cut at every word; 64 and 65 effects; and the process whose bound names are not apart.
pub fn trials(folder: &Path) -> Result<Vec<Trial>, String> {
    let mut all = Vec::new();
    let mut add = |name: String, asked: &[u32], words: Vec<u32>, kind: &'static str| {
        let asked = asked.to_vec();
        let derivation = Derivation { asked, words, kind };
        all.push(Trial { name, derivation });
    };
    for (
        name,
        Derived {
            asked,
            derivation,
            lines,
            ..
        },
    ) in named(folder)?
    {
        for line in 0..lines {
            if let Some(words) = permuted(&derivation, line) {
                add(
                    format!("{name}, line {line}"),
                    &asked,
                    words,
                    "effects in another order",
                );
            }
        }
        for (lines, kind) in [(MOST_LINES, "1,024 lines"), (MOST_LINES + 1, "1,025 lines")] {
            add(format!("{name}, {kind}"), &asked, lengthened(&derivation, lines), kind);
        }
        for cut in [0, 1, 5, 9, 10, 11, derivation.len() / 2, derivation.len() - 1] {
            add(
                format!("{name}, {cut} words"),
                &asked,
                derivation[..cut].to_vec(),
                "cut",
            );
        }
        add(
            format!("{name}, nothing asked"),
            &[],
            derivation.clone(),
            "something else asked",
        );
        add(name, &asked, derivation, "a given process");
    }
    for count in [MOST_EFFECTS, MOST_EFFECTS + 1] {
        for known in [true, false] {
            let Derived { asked, derivation, .. } = many_effects(count, known);
            add(format!("{count} effects"), &asked, derivation, "many effects");
        }
    }
    let Derived { asked, derivation, .. } = shadowed();
    add(String::from("shadowed"), &asked, derivation, "bound names not apart");
    Ok(all)
}

/// `new (k : Un); new (k : symkey(nonce [end l])); out net k; inp net z : Un; decrypt z (k) to m : nonce [end l]; new (n :
/// Un); check n = m; end l; STOP`: the key is sent as the older entry's Un, and the empty effect is derived.
pub fn shadowed() -> Derived {
    const NET: u32 = 0;
    const L: u32 = 1;
    const K: u32 = 2;
    const Z: u32 = 3;
    const M: u32 = 4;
    const N: u32 = 5;
    // The finder takes the newest entry of a name. So the older key is called otherwise, as no word of the derivation is,
    // and gets its name afterwards.
    const OLDER: u32 = 0xffff_0000;
    let name = Term::Name;
    let promise = || Effects::of(vec![Effect::End(name(L))]);
    let nonce = || Type::Nonce(promise());
    let behind = Process::End(name(L), Box::new(Process::Stop));
    let check = Process::Check(name(N), name(M), Box::new(behind));
    let fresh = Process::New(N, Type::Un, Box::new(check));
    let open = Process::Decrypt(name(Z), name(K), (M, nonce()), Box::new(fresh));
    let receive = Process::Inp(name(NET), Z, Type::Un, Box::new(open));
    let send = Process::Out(name(NET), name(OLDER), Box::new(receive));
    let key = Process::New(K, Type::Symkey(Box::new(nonce())), Box::new(send));
    let process = Process::New(OLDER, Type::Un, Box::new(key));
    let asked = Asked {
        environment: vec![(NET, Type::Un), (L, Type::Un)],
        process,
        names: (0..6).map(|name| format!("n{name}")).collect(),
    };
    let mut found = derive(&asked).expect("no rule fails");
    for word in found.asked.iter_mut().chain(&mut found.derivation) {
        if *word == OLDER {
            *word = K;
        }
    }
    found
}

/// A derivation of a random process, or of a given one; in two cases of three damaged.
pub fn derivation(random: &mut Random, given: &[Derived]) -> Derivation {
    let (found, kind) = found(random, given);
    let mut own = Derivation {
        asked: found.asked,
        words: found.derivation,
        kind,
    };
    if random.percent(20) {
        own.kind = shape(random, &mut own.words).unwrap_or(own.kind);
    }
    if random.percent(60) {
        own.kind = damage(random, &mut own.words);
    }
    if random.percent(10) {
        own.kind = ask_other(random, &mut own.asked);
    }
    own
}

fn found(random: &mut Random, given: &[Derived]) -> (Derived, &'static str) {
    if !given.is_empty() && random.percent(25) {
        return (random.pick(given).clone(), "a given process");
    }
    if random.percent(4) {
        let count = random.between(MOST_EFFECTS - 2, MOST_EFFECTS + 2);
        let known = random.percent(50);
        return (many_effects(count, known), "many effects");
    }
    for _ in 0..DRAWS {
        if let Ok(found) = derive(&process(random)) {
            return (found, "a random process");
        }
    }
    (many_effects(1, true), "many effects")
}

/// `begin a; .. end a; ..` with so many `end a`, and as many `begin a` before them where they are known.
pub fn many_effects(count: usize, known: bool) -> Derived {
    let a = || Term::Name(0);
    let mut process = Process::Stop;
    for _ in 0..count {
        process = Process::End(a(), Box::new(process));
    }
    for _ in 0..if known { count } else { 0 } {
        process = Process::Begin(a(), Box::new(process));
    }
    let asked = Asked {
        environment: vec![(0, Type::Un)],
        process,
        names: vec![String::from("a")],
    };
    derive(&asked).expect("no rule fails")
}

/// The same derivation with lines in front that say that the empty environment is good, so that it has so many lines.
pub fn lengthened(words: &[u32], lines: usize) -> Vec<u32> {
    let own = words[0] as usize;
    let more = lines.saturating_sub(own);
    let mut longer = vec![(own + more) as u32];
    let shifted = |line: &[u32]| -> Vec<u32> {
        let by = |k: usize| match k {
            1..4 => more as u32,
            4..8 => (LINE * more) as u32,
            _ => 0,
        };
        (0..LINE).map(|k| line[k].wrapping_add(by(k))).collect()
    };
    let first = shifted(&words[1..1 + LINE]);
    for _ in 0..more {
        longer.extend(&first);
    }
    for line in words[1..1 + LINE * own].chunks_exact(LINE) {
        longer.extend(shifted(line));
    }
    longer.extend(&words[1 + LINE * own..]);
    longer
}

/// The same derivation with the effects of one line, which has several, spelled in the other order behind all words.
pub fn permuted(words: &[u32], line: usize) -> Option<Vec<u32>> {
    let own = words.get(1 + LINE * line..1 + LINE * (line + 1))?;
    let (place, count) = (own[7] as usize, own[8]);
    if count < 2 || !matches!(own[0], 3..=5 | 16..=32) {
        return None;
    }
    let mut reader = Reader::new(words, place);
    let mut spans = Vec::new();
    for _ in 0..count {
        let from = reader.place();
        reader.effects(1)?;
        spans.push(from..reader.place());
    }
    let mut permuted = words.to_vec();
    permuted[1 + LINE * line + 7] = words.len() as u32;
    for span in spans.into_iter().rev() {
        permuted.extend(&words[span]);
    }
    Some(permuted)
}

/// What keeps a derivation right, or brings it to a bound: what was done, if it could be.
fn shape(random: &mut Random, words: &mut Vec<u32>) -> Option<&'static str> {
    let lines = words[0] as usize;
    if lines == 0 || lines > MOST_LINES {
        return None;
    }
    match random.below(4) {
        0 => {
            *words = lengthened(words, MOST_LINES);
            Some("1,024 lines")
        }
        1 => {
            *words = lengthened(words, MOST_LINES + 1);
            Some("1,025 lines")
        }
        _ => {
            *words = (0..8).find_map(|_| permuted(words, random.below(lines)))?;
            Some("effects in another order")
        }
    }
}

/// One to three things wrong: what was done last.
fn damage(random: &mut Random, words: &mut Vec<u32>) -> &'static str {
    let times = *random.pick(&[1, 1, 1, 2, 3]);
    (0..times).fold("", |_, _| damage_once(random, words))
}

fn damage_once(random: &mut Random, words: &mut Vec<u32>) -> &'static str {
    let lines = (words.len().saturating_sub(1) / LINE).min(words.first().map_or(0, |count| *count as usize));
    if lines == 0 {
        words.extend((0..random.below(12)).map(|_| random.below(12) as u32));
        return "any words";
    }
    let line = 1 + LINE * random.below(lines);
    let other = 1 + LINE * random.below(lines);
    match random.below(14) {
        0 => {
            words.truncate(random.below(words.len()));
            "cut"
        }
        1 => {
            words.pop();
            "cut"
        }
        2..4 => {
            words[line + random.between(1, 3)] = random.below(lines + 2) as u32;
            "another premise"
        }
        4 => {
            words[line + 8] = *random.pick(&[
                words[line + 8].wrapping_add(1),
                words[line + 8].wrapping_sub(1),
                64,
                65,
                u32::MAX,
            ]);
            "another count of effects"
        }
        5 => {
            words[line] = random.below(35) as u32;
            "another rule"
        }
        6..9 => {
            let word = random.between(4, 7);
            let at = match random.below(3) {
                0 => random.below(words.len() + 2) as u32,
                _ => words[other + word],
            };
            words[line + word] = at;
            "another place"
        }
        9 => {
            let count = lines as u32;
            words[0] = *random.pick(&[0, count - 1, count + 1, 1_024, 1_025, u32::MAX]);
            "another count of lines"
        }
        _ => {
            let behind = (1 + LINE * lines).min(words.len() - 1);
            let at = match random.percent(60) {
                true => random.between(behind, words.len() - 1),
                false => random.below(words.len()),
            };
            words[at] = another(random, words, at);
            "a word changed"
        }
    }
}

/// A word in the place of one.
fn another(random: &mut Random, words: &[u32], at: usize) -> u32 {
    match random.below(5) {
        0 => words[at].wrapping_add(1),
        1 => words[at].wrapping_sub(1),
        2 => random.below(13) as u32,
        3 => words[random.below(words.len())],
        _ => random.word() as u32,
    }
}

/// Something else is asked.
fn ask_other(random: &mut Random, asked: &mut Vec<u32>) -> &'static str {
    match random.below(4) {
        0 => asked.truncate(random.below(asked.len())),
        1 => asked.push(random.below(13) as u32),
        _ => {
            let at = random.below(asked.len());
            asked[at] = another(random, asked, at);
        }
    }
    "something else asked"
}

/// A random process in a random environment. Most of its events have their types, and labels that end were mostly begun.
pub fn process(random: &mut Random) -> Asked {
    let mut maker = Maker {
        random,
        next: 0,
        again: false,
    };
    maker.again = maker.random.percent(15);
    let mut environment = vec![];
    for _ in 0..maker.random.between(2, 6) {
        let kind = maker.kind(&environment, 2, 0);
        let x = maker.name(&environment);
        environment.push((x, kind));
    }
    let depth = *maker.random.pick(&[2, 4, 8, 12, 20, 40]);
    let mut process = maker.process(&environment, depth);
    let names = (0..maker.next).map(|name| format!("n{name}")).collect();
    let mut asked = Asked {
        environment,
        process,
        names,
    };
    // What is left in the end is begun, in most cases.
    if let Ok(found) = derive(&asked) {
        if random.percent(80) {
            process = asked.process;
            for effect in found.left.list() {
                if let Effect::End(label) = effect {
                    process = Process::Begin(label.clone(), Box::new(process));
                }
            }
            asked.process = process;
        }
    }
    asked
}

struct Maker<'a> {
    random: &'a mut Random,
    next: u32,
    /// Whether a name may be bound that is there already.
    again: bool,
}

impl Maker<'_> {
    fn name(&mut self, environment: &Environment) -> u32 {
        if self.again && !environment.is_empty() && self.random.percent(20) {
            return self.random.pick(environment).0;
        }
        self.next += 1;
        self.next - 1
    }

    /// A name of a type that is wanted, or nothing.
    fn known(&mut self, environment: &Environment, wanted: impl Fn(&Type) -> bool) -> Option<(Term, Type)> {
        let fit: Vec<&(u32, Type)> = environment.iter().filter(|(_, kind)| wanted(kind)).collect();
        (!fit.is_empty()).then(|| {
            let (x, kind) = *self.random.pick(&fit);
            (Term::Name(*x), kind.clone())
        })
    }

    fn kind(&mut self, environment: &Environment, depth: usize, level: u64) -> Type {
        let deep = depth > 0;
        match self.random.below(12) {
            0 | 1 if deep => Type::Channel(Box::new(self.kind(environment, depth - 1, level))),
            2 | 3 if deep => Type::Symkey(Box::new(self.kind(environment, depth - 1, level))),
            4 | 5 if deep => {
                let first = self.kind(environment, depth - 1, level);
                Type::Pair(Box::new(first), Box::new(self.kind(environment, depth - 1, level + 1)))
            }
            6..9 => Type::Nonce(self.promise(environment, level)),
            _ => Type::Un,
        }
    }

    /// A few effects about what is known here, a pair type's own variables among it.
    fn promise(&mut self, environment: &Environment, level: u64) -> Effects {
        let mut list = Vec::new();
        for _ in 0..*self.random.pick(&[0, 1, 1, 1, 2, 3]) {
            let variable = level > 0 && self.random.percent(50);
            let about = match self.known(environment, |_| true) {
                Some((term, _)) if !variable => Some(term),
                _ if level > 0 => Some(Term::Bound(self.random.below(level as usize) as u64)),
                _ => None,
            };
            let Some(about) = about else { continue };
            let own = match self.known(environment, |kind| *kind == Type::Un) {
                Some((term, _)) if self.random.percent(15) => Effect::Check(term),
                _ => Effect::End(about),
            };
            list.push(own);
        }
        Effects::of(list)
    }

    /// A term of a type, or nothing.
    fn term(&mut self, environment: &Environment, wanted: &Type, depth: usize) -> Option<Term> {
        if depth > 0 && self.random.percent(50) {
            match wanted {
                Type::Pair(left, right) => {
                    let one = self.term(environment, left, depth - 1)?;
                    let two = self.term(environment, &right.putting(&one), depth - 1)?;
                    return Some(Term::Pair(Box::new(one), Box::new(two)));
                }
                Type::Un => {
                    if self.random.percent(50) {
                        let key = self.known(environment, |kind| matches!(kind, Type::Symkey(_)));
                        if let Some((key, Type::Symkey(inner))) = key {
                            let contents = self.term(environment, &inner, depth - 1)?;
                            return Some(Term::Cipher(Box::new(contents), Box::new(key)));
                        }
                    }
                    let one = Box::new(self.term(environment, &Type::Un, depth - 1)?);
                    let two = Box::new(self.term(environment, &Type::Un, depth - 1)?);
                    return Some(match self.random.percent(50) {
                        true => Term::Pair(one, two),
                        false => Term::Cipher(one, two),
                    });
                }
                _ => (),
            }
        }
        self.known(environment, |kind| kind == wanted).map(|(term, _)| term)
    }

    fn process(&mut self, environment: &Environment, depth: usize) -> Process {
        if depth == 0 {
            return Process::Stop;
        }
        match self.event(environment, depth - 1) {
            Some(process) => process,
            None => self.process(environment, depth - 1),
        }
    }

    fn next(&mut self, environment: &Environment, added: &[(u32, &Type)], depth: usize) -> Box<Process> {
        let mut inside = environment.clone();
        inside.extend(added.iter().map(|(x, kind)| (*x, (*kind).clone())));
        Box::new(self.process(&inside, depth))
    }

    /// An event that fits what is known, and what comes behind it; or nothing.
    fn event(&mut self, environment: &Environment, depth: usize) -> Option<Process> {
        Some(match self.random.below(15) {
            0 | 1 => {
                let kind = match self.random.below(5) {
                    0 => Type::Channel(Box::new(self.kind(environment, 1, 0))),
                    1 => Type::Symkey(Box::new(self.kind(environment, 1, 0))),
                    _ => Type::Un,
                };
                let x = self.name(environment);
                let next = self.next(environment, &[(x, &kind)], depth);
                Process::New(x, kind, next)
            }
            2 | 3 => {
                let on = self.known(environment, |kind| matches!(kind, Type::Un | Type::Channel(_)))?;
                let inside = match on.1 {
                    Type::Channel(inner) => *inner,
                    _ => Type::Un,
                };
                let message = self.term(environment, &inside, 3)?;
                Process::Out(on.0, message, self.next(environment, &[], depth))
            }
            4 | 5 => {
                let on = self.known(environment, |kind| matches!(kind, Type::Un | Type::Channel(_)))?;
                let inside = match on.1 {
                    Type::Channel(inner) => *inner,
                    _ => Type::Un,
                };
                let x = self.name(environment);
                let next = self.next(environment, &[(x, &inside)], depth);
                Process::Inp(on.0, x, inside, next)
            }
            6 => {
                let first = self.next(environment, &[], depth / 2);
                Process::Parallel(first, self.next(environment, &[], depth / 2))
            }
            7 => {
                let (whole, kind) = self.known(environment, |kind| matches!(kind, Type::Un | Type::Pair(..)))?;
                let (x, y) = (self.name(environment), self.name(environment));
                let (one, two) = match kind {
                    Type::Pair(one, two) => (*one, two.putting(&Term::Name(x))),
                    _ => (Type::Un, Type::Un),
                };
                let next = self.next(environment, &[(x, &one), (y, &two)], depth);
                Process::Split(whole, (x, one), (y, two), next)
            }
            8 => {
                let (whole, kind) = self.known(environment, |kind| matches!(kind, Type::Un | Type::Pair(..)))?;
                let (first, given) = match kind {
                    Type::Pair(left, right) => {
                        let first = self.term(environment, &left, 2)?;
                        let given = right.putting(&first);
                        (first, given)
                    }
                    _ => (self.term(environment, &Type::Un, 2)?, Type::Un),
                };
                let y = self.name(environment);
                let next = self.next(environment, &[(y, &given)], depth);
                Process::Match(whole, first, (y, given), next)
            }
            9 | 10 => {
                let cipher = self.term(environment, &Type::Un, 1)?;
                let (key, kind) = self.known(environment, |kind| matches!(kind, Type::Un | Type::Symkey(_)))?;
                let given = match kind {
                    Type::Symkey(inner) => *inner,
                    _ => Type::Un,
                };
                let x = self.name(environment);
                let next = self.next(environment, &[(x, &given)], depth);
                Process::Decrypt(cipher, key, (x, given), next)
            }
            11 => {
                let (label, _) = self.known(environment, |_| true)?;
                let end = Process::End(label.clone(), self.next(environment, &[], depth));
                match self.random.percent(60) {
                    true => Process::Begin(label, Box::new(end)),
                    false => end,
                }
            }
            12 => {
                let label = self.term(environment, &Type::Un, 2)?;
                Process::Begin(label, self.next(environment, &[], depth))
            }
            13 => {
                let from = self.term(environment, &Type::Un, 1)?;
                let promise = self.promise(environment, 0);
                let x = self.name(environment);
                let kind = Type::Nonce(promise.clone());
                let next = self.next(environment, &[(x, &kind)], depth);
                Process::Cast(from, x, promise, next)
            }
            _ => {
                let (nonce, kind) = self.known(environment, |kind| matches!(kind, Type::Nonce(_)))?;
                let Type::Nonce(promise) = kind else { return None };
                let (own, _) = self.known(environment, |kind| *kind == Type::Un)?;
                let mut next = self.next(environment, &[], depth);
                for effect in promise.list() {
                    if let Effect::End(label) = effect {
                        next = Box::new(Process::End(label.clone(), next));
                    }
                }
                let check = |own: Term, next| Process::Check(own, nonce.clone(), next);
                match self.random.percent(70) {
                    // A name of its own is checked, and made before.
                    true => {
                        let n = self.name(environment);
                        Process::New(n, Type::Un, Box::new(check(Term::Name(n), next)))
                    }
                    false => check(own, next),
                }
            }
        })
    }
}

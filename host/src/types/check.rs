//! The verdict on a derivation: each line is held to its rule as printed.

use super::read::{self, Reader};
use super::tree::{Effect, Effects, Environment, Judgement, Process, Term, Type};
use std::fmt;

#[derive(Clone, Copy, Debug, PartialEq, Eq)]
pub enum Verdict {
    Safe,
    /// The smallest line that is no instance of its rule.
    Bad(u32),
    /// All lines pass, and the last does not give what is asked.
    Another,
    /// Refusal 24, with the too large count.
    Refused(u32),
}

impl fmt::Display for Verdict {
    fn fmt(&self, out: &mut fmt::Formatter) -> fmt::Result {
        match self {
            Verdict::Safe => write!(out, "safe"),
            Verdict::Bad(line) => write!(out, "bad {line}"),
            Verdict::Another => write!(out, "another"),
            Verdict::Refused(count) => write!(out, "refused 24 {count}"),
        }
    }
}

const MOST_LINES: u32 = 1024;
const MOST_EFFECTS: u32 = 64;

struct Lines<'a>(&'a [u32]);

impl Lines<'_> {
    fn word(&self, line: u32, own: usize) -> u32 {
        self.0.get(1 + 9 * line as usize + own).copied().unwrap_or(0)
    }

    fn reader(&self, line: u32, own: usize) -> Reader<'_> {
        Reader::new(self.0, self.word(line, own) as usize)
    }

    /// The judgement that a line gives.
    fn gives(&self, line: u32) -> Option<Judgement> {
        let effects = || self.reader(line, 7).effects(self.word(line, 8));
        let rule = self.word(line, 0);
        if !(1..=32).contains(&rule) {
            return None;
        }
        let environment = self.reader(line, 4).environment()?;
        Some(match rule {
            1 | 2 => Judgement::Good(environment),
            3..=5 => Judgement::Effect(environment, effects()?),
            6..=10 => Judgement::Type(environment, self.reader(line, 6).kind()?),
            11..=15 => Judgement::Term(environment, self.reader(line, 5).term()?, self.reader(line, 6).kind()?),
            _ => Judgement::Process(environment, self.reader(line, 5).process()?, effects()?),
        })
    }
}

/// The verdict on a derivation of what is asked.
pub fn verdict(asked: &[u32], derivation: &[u32]) -> Verdict {
    let lines = Lines(derivation);
    let count = derivation.first().copied().unwrap_or(0);
    if count > MOST_LINES {
        return Verdict::Refused(count);
    }
    if let Some(crowded) = (0..count)
        .map(|line| lines.word(line, 8))
        .find(|&effects| effects > MOST_EFFECTS)
    {
        return Verdict::Refused(crowded);
    }
    let mut given = Vec::new();
    for line in 0..count {
        match passes(&lines, line, &given) {
            Some(judgement) => given.push(judgement),
            None => return Verdict::Bad(line),
        }
    }
    match (given.pop(), read::asked(asked)) {
        (Some(Judgement::Process(environment, process, effects)), Some(asked))
            if environment == asked.0 && process == asked.1 && effects.list().is_empty() =>
        {
            Verdict::Safe
        }
        _ => Verdict::Another,
    }
}

/// What the line gives, if it is an instance of its rule; `given` is what the lines before it give.
fn passes(lines: &Lines, line: u32, given: &[Judgement]) -> Option<Judgement> {
    let judgement = lines.gives(line)?;
    let premise = |k: usize| given.get(lines.word(line, k) as usize);
    follows(lines.word(line, 0), &judgement, &premise).filter(|&follows| follows)?;
    Some(judgement)
}

/// Whether the judgement follows by the rule from its premises; nothing where one of them is missing or of another
/// kind.
fn follows<'a>(rule: u32, judgement: &'a Judgement, premise: &impl Fn(usize) -> Option<&'a Judgement>) -> Option<bool> {
    let (good, kind, effect) = (
        |k, environment: &Environment| match premise(k) {
            Some(Judgement::Good(own)) => Some(own == environment),
            _ => None,
        },
        |k| match premise(k) {
            Some(Judgement::Type(environment, own)) => Some((environment, own)),
            _ => None,
        },
        |k| match premise(k) {
            Some(Judgement::Effect(environment, own)) => Some((environment, own)),
            _ => None,
        },
    );
    let term = |k| match premise(k) {
        Some(Judgement::Term(environment, own, kind)) => Some((environment, own, kind)),
        _ => None,
    };
    Some(match (rule, judgement) {
        (1, Judgement::Good(environment)) => environment.is_empty(),
        (2, Judgement::Good(environment)) => {
            let (before, own) = kind(1)?;
            environment
                .split_last()
                .is_some_and(|((_, last), rest)| rest == before.as_slice() && last == own)
        }
        (3, Judgement::Effect(environment, effects)) => good(1, environment)? && effects.list().is_empty(),
        (4 | 5, Judgement::Effect(environment, effects)) => {
            let ((one, before), (two, about, own)) = (effect(1)?, term(2)?);
            let added = if rule == 4 {
                Effect::End(about.clone())
            } else {
                Effect::Check(about.clone())
            };
            one == environment
                && two == environment
                && (rule == 4 || *own == Type::Un)
                && *effects == before.plus(&[added])
        }
        (6, Judgement::Type(environment, own)) => good(1, environment)? && *own == Type::Un,
        (7, Judgement::Type(environment, own)) => {
            let ((one, first), (two, second)) = (kind(1)?, kind(2)?);
            let Some(((x, entry), rest)) = two.split_last() else {
                return Some(false);
            };
            one == environment
                && rest == environment.as_slice()
                && entry == first
                && *own == Type::Pair(Box::new(first.clone()), Box::new(second.binding(*x)))
        }
        (8 | 9, Judgement::Type(environment, own)) => {
            let (one, inner) = kind(1)?;
            let inner = Box::new(inner.clone());
            one == environment
                && *own
                    == if rule == 8 {
                        Type::Channel(inner)
                    } else {
                        Type::Symkey(inner)
                    }
        }
        (10, Judgement::Type(environment, own)) => {
            let (one, effects) = effect(1)?;
            one == environment && *own == Type::Nonce(effects.clone())
        }
        (11, Judgement::Term(environment, Term::Name(x), own)) => {
            good(1, environment)? && environment.iter().any(|(name, kind)| name == x && kind == own)
        }
        (12..=15, Judgement::Term(environment, whole, own)) => {
            let ((one, first, one_is), (two, second, two_is)) = (term(1)?, term(2)?);
            let parts = match (whole, rule) {
                (Term::Pair(left, right), 12 | 15) | (Term::Cipher(left, right), 13 | 14) => {
                    **left == *first && **right == *second
                }
                _ => false,
            };
            let kinds = match (rule, own) {
                (12, Type::Pair(left, right)) => **left == *one_is && right.putting(first) == *two_is,
                (13, Type::Un) => *two_is == Type::Symkey(Box::new(one_is.clone())),
                (14 | 15, Type::Un) => *one_is == Type::Un && *two_is == Type::Un,
                _ => false,
            };
            one == environment && two == environment && parts && kinds
        }
        (16.., Judgement::Process(environment, process, effects)) => {
            return rules_of_processes(rule, environment, process, effects, premise)
        }
        _ => false,
    })
}

/// Definition 15.
fn rules_of_processes<'a>(
    rule: u32,
    environment: &Environment,
    process: &Process,
    effects: &Effects,
    premise: &impl Fn(usize) -> Option<&'a Judgement>,
) -> Option<bool> {
    // The type of a term in this environment, as a premise has it.
    let typed = |k, own: &Term| match premise(k) {
        Some(Judgement::Term(one, term, kind)) if one == environment && term == own => Some(kind),
        _ => None,
    };
    let un = |k, own: &Term| typed(k, own).is_some_and(|kind| *kind == Type::Un);
    // The effects of what comes next, with these entries added.
    let goes_on = |k, added: &[(u32, &Type)], next: &Process| match premise(k) {
        Some(Judgement::Process(one, own, effects)) => {
            let (before, after) = one.split_at_checked(environment.len())?;
            let same = after.len() == added.len()
                && (after.iter().zip(added)).all(|((name, kind), (x, given))| name == x && kind == *given);
            (before == environment.as_slice() && same && own == next).then_some(effects)
        }
        _ => None,
    };
    let away = |names: &[u32]| names.iter().all(|&name| !effects.mentions(name));
    let boxed = |kind: &Type| Box::new(kind.clone());
    Some(match (rule, process) {
        (16, Process::Stop) => {
            matches!(premise(1), Some(Judgement::Good(own)) if own == environment) && effects.list().is_empty()
        }
        (17, Process::Begin(label, next)) => {
            label.closed() && *effects == goes_on(1, &[], next)?.minus(&[Effect::End(label.clone())])
        }
        (18, Process::End(label, next)) => {
            label.closed() && *effects == goes_on(1, &[], next)?.plus(&[Effect::End(label.clone())])
        }
        (19, Process::Parallel(one, two)) => *effects == goes_on(1, &[], one)?.plus(goes_on(2, &[], two)?.list()),
        (20, Process::New(x, kind, next)) => {
            let less = goes_on(1, &[(*x, kind)], next)?.minus(&[Effect::Check(Term::Name(*x))]);
            kind.generatable() && *effects == less && away(&[*x])
        }
        (21, Process::Out(channel, message, next)) => {
            let kind = typed(2, message)?;
            *typed(1, channel)? == Type::Channel(boxed(kind)) && *effects == *goes_on(3, &[], next)?
        }
        (28, Process::Out(channel, message, next)) => {
            un(1, channel) && un(2, message) && *effects == *goes_on(3, &[], next)?
        }
        (22 | 29, Process::Inp(channel, x, kind, next)) => {
            let on = typed(1, channel)?;
            let fits = if rule == 22 {
                *on == Type::Channel(boxed(kind))
            } else {
                *on == Type::Un && *kind == Type::Un
            };
            fits && *effects == *goes_on(2, &[(*x, kind)], next)? && away(&[*x])
        }
        (23 | 30, Process::Split(whole, (x, one), (y, two), next)) => {
            let kind = typed(1, whole)?;
            let fits = match rule {
                23 => *kind == Type::Pair(boxed(one), Box::new(two.binding(*x))),
                _ => *kind == Type::Un && *one == Type::Un && *two == Type::Un,
            };
            fits && *effects == *goes_on(2, &[(*x, one), (*y, two)], next)? && away(&[*x, *y])
        }
        (24 | 31, Process::Match(whole, first, (y, given), next)) => {
            let (kind, own) = (typed(1, whole)?, typed(2, first)?);
            let fits = match (rule, kind) {
                (24, Type::Pair(left, right)) => **left == *own && right.putting(first) == *given,
                (31, Type::Un) => *own == Type::Un && *given == Type::Un,
                _ => false,
            };
            fits && *effects == *goes_on(3, &[(*y, given)], next)? && away(&[*y])
        }
        (25, Process::Cast(from, x, promise, next)) => {
            let kind = Type::Nonce(promise.clone());
            un(1, from) && *effects == goes_on(2, &[(*x, &kind)], next)?.plus(promise.list()) && away(&[*x])
        }
        (26, Process::Check(own, nonce, next)) => {
            let Type::Nonce(promise) = typed(2, nonce)? else {
                return Some(false);
            };
            let left = goes_on(3, &[], next)?.minus(promise.list());
            un(1, own) && *effects == left.plus(&[Effect::Check(own.clone())])
        }
        (27 | 32, Process::Decrypt(cipher, key, (x, kind), next)) => {
            let under = typed(2, key)?;
            let fits = if rule == 27 {
                *under == Type::Symkey(boxed(kind))
            } else {
                *under == Type::Un && *kind == Type::Un
            };
            un(1, cipher) && fits && *effects == *goes_on(3, &[(*x, kind)], next)? && away(&[*x])
        }
        _ => false,
    })
}

/// What is asked is a process whose binders are different from each other and from the environment's names.
pub fn keeps_apart(asked: &[u32]) -> bool {
    read::asked(asked).is_some_and(|(environment, process)| {
        let mut binders = process.binders();
        let count = binders.len();
        let clear = binders.iter().all(|x| environment.iter().all(|(name, _)| name != x));
        binders.sort_unstable();
        binders.dedup();
        clear && binders.len() == count
    })
}

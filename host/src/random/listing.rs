//! Random listings to be judged: a party's own part, the same under other placeholders, and such with a fault.

use super::Random;
use crate::book::MOST_PARTIES;
use crate::translate::{Program, Slot};

/// The words of a listing, the party it is handed in for, and what was done to it last.
#[derive(Clone, PartialEq, Eq, Debug)]
pub struct Listing {
    pub party: u32,
    pub words: Vec<u32>,
    pub kind: &'static str,
}

/// The placeholders that a RECEIVE or an OPEN hands out: the first of them in the listing, and how many there are.
pub struct Run {
    pub theirs: u32,
    pub n: u32,
}

/// So many numbers there are, and one past them none.
const NUMBERS: u64 = 1 << 32;

/// A listing for a party of an accepted book, or for a book that is refused.
pub fn listing(random: &mut Random, programs: Option<&[Program]>) -> Listing {
    let Some(programs) = programs else {
        return Listing {
            party: *random.pick(&[0, 1, MOST_PARTIES, u32::MAX]),
            words: any_words(random),
            kind: "for a refused book",
        };
    };
    let party = random.below(programs.len());
    let mut listing = of(random, &programs[party]);
    listing.party = party as u32;
    if random.percent(8) {
        let parties = programs.len() as u32;
        listing.party = *random.pick(&[parties, parties + 1, parties + MOST_PARTIES, u32::MAX]);
        listing.kind = "for no party";
    }
    listing
}

/// A program's words under other placeholders; in half of the cases with a fault, in the runs or in the words.
fn of(random: &mut Random, program: &Program) -> Listing {
    let mut runs = runs(program);
    let mut kind = rename(random, &mut runs);
    if random.percent(25) {
        kind = spoil_runs(random, &mut runs).unwrap_or(kind);
    }
    let (mut words, counts) = spelt(program, &runs);
    if random.percent(25) {
        kind = spoil_words(random, &mut words, &counts);
    }
    Listing { party: 0, words, kind }
}

fn any_words(random: &mut Random) -> Vec<u32> {
    (0..random.below(8)).map(|_| random.below(8) as u32).collect()
}

/// The runs of a program, under our own numbers.
pub fn runs(program: &Program) -> Vec<Run> {
    let mut runs = Vec::new();
    let mut put = |slot: Slot| {
        if let Slot::Run { first, n } = slot {
            runs.push(Run { theirs: first, n });
        }
    };
    program.iter().for_each(|event| event.spell(&mut put));
    runs
}

/// Other numbers, one-to-one: how they were chosen.
fn rename(random: &mut Random, runs: &mut [Run]) -> &'static str {
    let handed_out: u64 = runs.iter().map(|run| u64::from(run.n)).sum();
    let spare = NUMBERS - handed_out;
    // All gaps together are no more than the spare numbers.
    let gaps = *random.pick(&[2, 1_000, spare / (runs.len() as u64 + 1)]);
    let mut order: Vec<usize> = (0..runs.len()).collect();
    match random.below(5) {
        0 => "ours",
        1 => {
            let by = *random.pick(&[1, 7, 0x1_0000, spare - 1, spare]);
            lay(runs, &order, by, || 0);
            "shifted"
        }
        2 => {
            order.reverse();
            lay(runs, &order, 0, || 0);
            "reversed by run"
        }
        3 => {
            lay(runs, &order, 0, || random.word() % gaps);
            "sparse"
        }
        _ => {
            shuffle(random, &mut order);
            lay(runs, &order, 0, || random.word() % gaps);
            "runs in any order"
        }
    }
}

/// Lays the runs one behind another in an order, from a number on, with a gap before each. Those of none keep our number.
pub fn lay(runs: &mut [Run], order: &[usize], from: u64, mut gap: impl FnMut() -> u64) {
    let mut next = from;
    for at in order {
        let run = &mut runs[*at];
        if run.n > 0 {
            next += gap();
            run.theirs = next as u32;
            next += u64::from(run.n);
        }
    }
}

fn shuffle(random: &mut Random, order: &mut [usize]) {
    for at in 1..order.len() {
        order.swap(at, random.below(at + 1));
    }
}

/// One run begins elsewhere: in another one, at the end of all numbers or one past it; or one of none is renamed. What was
/// done, if the program has such runs.
fn spoil_runs(random: &mut Random, runs: &mut [Run]) -> Option<&'static str> {
    if random.percent(20) {
        let none: Vec<usize> = (0..runs.len()).filter(|at| runs[*at].n == 0).collect();
        let at = some(random, &none)?;
        runs[at].theirs ^= 1 << random.below(32);
        return Some("a run of none renamed");
    }
    let filled: Vec<usize> = (0..runs.len()).filter(|at| runs[*at].n > 0).collect();
    let (at, other) = (some(random, &filled)?, some(random, &filled)?);
    let n = runs[at].n;
    let top = (NUMBERS - u64::from(n)) as u32;
    let (start, kind) = match random.below(3) {
        0 if at != other => {
            let number = runs[other].theirs + random.below(runs[other].n as usize) as u32;
            let before = random.below(n as usize) as u32;
            (number.saturating_sub(before), "overlapping runs")
        }
        1 if n > 1 => (top + 1, "a run past the largest number"),
        _ => (top, "a run up to the largest number"),
    };
    runs[at].theirs = start;
    Some(kind)
}

fn some(random: &mut Random, from: &[usize]) -> Option<usize> {
    (!from.is_empty()).then(|| *random.pick(from))
}

/// The program's words, its placeholders renamed by the runs; those past the largest number begin anew. And where the
/// runs' counts stand.
pub fn spelt(program: &Program, runs: &[Run]) -> (Vec<u32>, Vec<usize>) {
    // Ours count from 0, run by run.
    let names: Vec<u32> = (runs.iter())
        .flat_map(|run| (0..run.n).map(|at| run.theirs.wrapping_add(at)))
        .collect();
    let mut starts = runs.iter();
    let (mut words, mut counts) = (Vec::new(), Vec::new());
    let mut put = |slot: Slot| {
        let word = match slot {
            Slot::Plain(word) => word,
            Slot::Use(ours) => names[ours as usize],
            Slot::Run { first, .. } => {
                counts.push(words.len() + 1);
                starts.next().map_or(first, |run| run.theirs)
            }
        };
        words.push(word);
    };
    program.iter().for_each(|event| event.spell(&mut put));
    (words, counts)
}

/// Another word, fewer of them or more: what was done.
fn spoil_words(random: &mut Random, words: &mut Vec<u32>, counts: &[usize]) -> &'static str {
    match random.below(8) {
        0 => {
            words.truncate(random.below(words.len()));
            "cut"
        }
        1 => {
            words.pop();
            "cut"
        }
        2 => {
            words.extend(any_words(random));
            words.push(random.word() as u32);
            "lengthened"
        }
        3 if !counts.is_empty() => {
            let at = *random.pick(counts);
            words[at] = *random.pick(&[words[at] + 1, words[at].wrapping_sub(1), u32::MAX]);
            "another count of a run"
        }
        _ => {
            let (at, other) = (random.below(words.len()), random.below(words.len()));
            let old = words[at];
            let any = random.word() as u32;
            words[at] = *random.pick(&[old.wrapping_add(1), old.wrapping_sub(1), words[other], any, 0, u32::MAX]);
            "a word changed"
        }
    }
}

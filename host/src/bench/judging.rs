//! The judge, on programs of a thousand to a million words: under our own numbers, under others that rise or fall from
//! run to run, under those that take it longest, and in the book that does.

use super::cases::{atoms, parties, row};
use super::tables::{grouped, microseconds, ratio};
use super::timing::{median, quartiles, repeats, stretch};
use super::{Say, ROUNDS};
use crate::book::{Book, Row, Step, CIPHER, MOST_MESSAGES, MOST_STEPS, OPERATION};
use crate::bytes;
use crate::judge::Verdict;
use crate::library::{packed_verdict, Library};
use crate::random::{lay, runs, spelt, Run};
use crate::words;
use std::hint::black_box;

/// About so many nanoseconds are spent on a line, or a round where that is more.
const SPENT: f64 = 3e9;
/// The party that is judged: the one that receives.
const RECEIVER: u32 = 1;
/// Its key, which both know.
const KEY: u32 = 2;
/// Messages of a step, and steps: programs of some 10^3, 10^4, 10^5 and 10^6 words.
const WIDE: [(u32, u32); 4] = [(3, 1), (5, 1), (8, 6), (MOST_MESSAGES, MOST_STEPS)];
/// The same up to 10^5, for what grows with the square.
const DEEP: [(u32, u32); 4] = [(1, 1), (6, 1), (8, 3), (8, 8)];
/// As deep as ciphers of one content may stand in one another.
const DEPTH: u32 = 255;

/// How the runs are called.
type Numbering = (&'static str, fn(&mut [Run]));

const NUMBERINGS: [Numbering; 3] = [("ours", |_| ()), ("shifted", shifted), ("falling", falling)];
const INSIDE: Numbering = ("inside", inside);

/// A book and a listing of its receiver.
struct Case {
    name: String,
    book: Vec<u8>,
    listing: Vec<u8>,
    runs: usize,
}

/// Times the library's judge and the host's, which must say of every listing that it is the same.
pub fn tables(library: &Library, say: Say) -> Result<(), String> {
    let wide = WIDE.into_iter().flat_map(|size| {
        let book = wide(size);
        NUMBERINGS.map(|numbering| case(&book, numbering))
    });
    say(&table("judge", wide, library)?)?;
    let deep = DEEP.map(|size| case(&deep(size), INSIDE));
    say(&table("judge, worst numbers", deep, library)?)?;
    let stored = [case(&stored(), NUMBERINGS[0])];
    say(&table("judge, worst uses", stored, library)?)
}

fn table(name: &str, cases: impl IntoIterator<Item = Case>, library: &Library) -> Result<String, String> {
    let mut text = format!(
        "| {name} | words | runs | proved | host | proved, ns a word | host, ns a word | proved, ps a word squared | \
         proved / host (quartiles) |\n|---|---:|---:|---:|---:|---:|---:|---:|---:|\n"
    );
    for case in cases {
        text += &line(&case, library)?;
    }
    Ok(text)
}

fn line(case: &Case, library: &Library) -> Result<String, String> {
    let Case {
        name, book, listing, ..
    } = case;
    let proved = || library.judge_bytes(black_box(book), RECEIVER, black_box(listing));
    let host = || bytes::judge(black_box(book), RECEIVER, black_box(listing));
    let (answer, own) = (proved(), host());
    if own != Ok(Verdict::Same) || answer != packed_verdict(&own) {
        return Err(format!("{name}: the library answers {answer}, the host {own:?}"));
    }
    let timed: [&dyn Fn(); 2] = [
        &|| {
            black_box(proved());
        },
        &|| drop(black_box(host())),
    ];
    let [proved, host] = in_turn(timed);
    let ratios: Vec<f64> = proved.iter().zip(&host).map(|(proved, host)| proved / host).collect();
    let words = listing.len() as f64 / 4.0;
    let times = [median(&proved), median(&host)];
    let [own, hosts] = times.map(|time| time / words);
    Ok(format!(
        "| {name} | {} | {} | {} | {own:.1} | {hosts:.1} | {:.2} | {} |\n",
        grouped(words),
        grouped(case.runs as f64),
        times.map(microseconds).join(" | "),
        1e3 * own / words,
        ratio(quartiles(&ratios)),
    ))
}

/// The times of both in nanoseconds, a round each; who goes first changes.
pub fn in_turn(sides: [&dyn Fn(); 2]) -> [Vec<f64>; 2] {
    let once = sides.map(|side| stretch(1, side));
    let runs = once.map(repeats);
    let round: f64 = once.iter().zip(runs).map(|(time, runs)| time * runs as f64).sum();
    let rounds = ((SPENT / round) as usize).clamp(1, ROUNDS);
    let mut times = [Vec::new(), Vec::new()];
    for round in 0..rounds {
        for side in [round % 2, 1 - round % 2] {
            times[side].push(stretch(runs[side], sides[side]));
        }
    }
    times
}

/// The receiver's part of a book that can be played, its runs renumbered.
fn case(book: &Book, (name, number): Numbering) -> Case {
    let book = words::to_bytes(&book.words());
    let programs = bytes::programs(&book).expect("it can be played");
    let program = &programs[RECEIVER as usize];
    let mut runs = runs(program);
    number(&mut runs);
    Case {
        name: name.to_string(),
        book,
        listing: words::to_bytes(&spelt(program, &runs).0),
        runs: runs.len(),
    }
}

/// All numbers moved up.
fn shifted(runs: &mut [Run]) {
    let order: Vec<usize> = (0..runs.len()).collect();
    lay(runs, &order, 1_000_000, || 0);
}

/// Each run below the one before.
fn falling(runs: &mut [Run]) {
    let order: Vec<usize> = (0..runs.len()).rev().collect();
    lay(runs, &order, 0, || 0);
}

/// The first run lowest, the second highest, and all others between them: for each of these the judge goes through all
/// words before it again.
fn inside(runs: &mut [Run]) {
    let order: Vec<usize> = (0..runs.len()).filter(|at| *at != 1).chain([1]).collect();
    lay(runs, &order, 0, || 0);
}

/// The last row, again and again, to the receiver, who opens it as far as it goes.
fn received(rows: Vec<Row>, (messages, steps): (u32, u32)) -> Book {
    let last = rows.len() as u32 - 1;
    let mut parties = parties(2, &[KEY]);
    parties[0].known.push(last);
    let step = Step {
        sender: 0,
        receiver: RECEIVER,
        messages: vec![last; messages as usize],
    };
    Book {
        rows,
        parties,
        steps: vec![step; steps as usize],
    }
}

/// As many placeholders as a message can have, 455: 57 ciphers and 398 atoms. The shortest book has smaller ones.
fn wide(size: (u32, u32)) -> Book {
    let mut rows = atoms(KEY + 1);
    rows.push(row(CIPHER, &[KEY; 9]));
    rows.push(row(CIPHER, &[KEY, 3, 3, 3, 3, 3, 3, 3, 3]));
    if size != WIDE[0] {
        rows.push(row(CIPHER, &[KEY; 7]));
        rows.push(row(CIPHER, &[KEY, 4, 4, 4, 4, 4, 4, 3, 5]));
    }
    received(rows, size)
}

/// As many runs as a message can have, 255: ciphers of one content in one another.
fn deep(size: (u32, u32)) -> Book {
    let mut rows = atoms(KEY + 1);
    rows.extend((0..DEPTH).map(|level| row(CIPHER, &[KEY, KEY + level])));
    received(rows, size)
}

/// The receiver stores 832 atoms in two steps, and sends an operation over the last of them in all others: each time it
/// stands there it is looked for among all that is stored.
fn stored() -> Book {
    let first = KEY + 1;
    let mut rows = atoms(first + 13 * 64);
    let mut messages: Vec<u32> = Vec::new();
    for number in 0..13 {
        let eights = rows.len() as u32;
        for eight in 0..8 {
            let from = first + 64 * number + 8 * eight;
            let parts: Vec<u32> = [KEY].into_iter().chain(from..from + 8).collect();
            rows.push(row(CIPHER, &parts));
        }
        let parts: Vec<u32> = [KEY].into_iter().chain(eights..eights + 8).collect();
        messages.push(rows.len() as u32);
        rows.push(row(CIPHER, &parts));
    }
    let mut sent = first + 13 * 64 - 1;
    for count in [8, 8, 6] {
        rows.push(row(OPERATION, &vec![sent; count]));
        sent = rows.len() as u32 - 1;
    }
    let step = |messages: &[u32], sender: u32| Step {
        sender,
        receiver: 1 - sender,
        messages: messages.to_vec(),
    };
    let mut steps: Vec<Step> = messages.chunks(8).map(|messages| step(messages, 0)).collect();
    steps.resize(MOST_STEPS as usize, step(&[sent; MOST_MESSAGES as usize], RECEIVER));
    Book {
        rows,
        parties: parties(2, &[KEY]),
        steps,
    }
}

#[cfg(test)]
mod tests {
    use super::*;

    /// The words and the runs of a case, of which the host says that it is the same.
    fn judged(book: &Book, numbering: Numbering) -> (usize, usize) {
        let Case {
            book, listing, runs, ..
        } = case(book, numbering);
        assert_eq!(bytes::judge(&book, RECEIVER, &listing), Ok(Verdict::Same));
        (listing.len() / 4, runs)
    }

    #[test]
    fn programs_are_as_large_as_they_are_made_for() {
        let ours = NUMBERINGS[0];
        assert_eq!(
            WIDE.map(|size| judged(&wide(size), ours)),
            [(936, 28), (9_676, 286), (92_858, 2_742), (990_466, 29_248)]
        );
        assert_eq!(judged(&deep(DEEP[0]), ours), (1_540, 256));
        assert_eq!(judged(&stored(), ours), (466_162, 119));
    }

    #[test]
    fn renumbered_programs_are_the_same() {
        for numbering in NUMBERINGS.into_iter().chain([INSIDE]) {
            judged(&wide(WIDE[1]), numbering);
            judged(&deep(DEEP[0]), numbering);
        }
    }

    #[test]
    fn numbers() {
        let numbered = |number: fn(&mut [Run])| {
            let mut runs = [2, 1, 3, 1].map(|n| Run { theirs: 0, n });
            number(&mut runs);
            runs.map(|run| run.theirs)
        };
        assert_eq!(numbered(shifted), [1_000_000, 1_000_002, 1_000_003, 1_000_006]);
        assert_eq!(numbered(falling), [5, 4, 1, 0]);
        assert_eq!(numbered(inside), [0, 6, 2, 5]);
    }

    #[test]
    fn who_goes_first_changes() {
        let times = in_turn([&|| (), &|| ()]);
        assert_eq!(times.map(|times| times.len()), [ROUNDS; 2]);
    }
}

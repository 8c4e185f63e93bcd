//! What the routes are tried on: a book and a schedule of any bytes, how many bytes are lent for the output, questions
//! about summaries, and listings to be judged.

use crate::book::{Book, Party, Row, Step, ATOM, HEADER, LONGEST, MOST_MESSAGES, MOST_PARTIES, MOST_STEPS, OPERATION};
use crate::files;
use crate::random::{self, Random};
use crate::rehearse::MOST_MOVES;
use crate::shelf;
use crate::summary::HEAD;
use crate::translate::{self, Program};
use crate::words;
use std::fmt;
use std::path::{Path, PathBuf};

/// A book and a schedule, and from what its rooms are drawn.
#[derive(Clone)]
pub struct Trial {
    pub name: String,
    pub book: Vec<u8>,
    pub schedule: Vec<u8>,
    /// Whether all kinds of rooms are tried, or some of them.
    every: bool,
    random: Random,
}

/// Lent bytes: how many, how far from a word's start they begin, and what they are to the output.
#[derive(Clone, Copy)]
pub struct Room {
    pub bytes: usize,
    pub shift: usize,
    pub kind: &'static str,
}

impl fmt::Display for Room {
    fn fmt(&self, out: &mut fmt::Formatter<'_>) -> fmt::Result {
        write!(out, "{} bytes lent ({})", self.bytes, self.kind)
    }
}

/// A question: the bytes of a summary, the numbers of a party, a row and a step, and which summary it is.
pub struct Asked {
    pub summary: Vec<u8>,
    pub numbers: [u32; 3],
    pub kind: &'static str,
}

impl fmt::Display for Asked {
    fn fmt(&self, out: &mut fmt::Formatter<'_>) -> fmt::Result {
        let [party, row, step] = self.numbers;
        write!(
            out,
            "ask {party} {row} {step} of {} bytes ({})",
            self.summary.len(),
            self.kind
        )
    }
}

/// A listing to be judged: its bytes, the party that it is handed in for, and what was done to it.
pub struct Judged {
    pub listing: Vec<u8>,
    pub party: u32,
    pub kind: &'static str,
}

impl fmt::Display for Judged {
    fn fmt(&self, out: &mut fmt::Formatter<'_>) -> fmt::Result {
        let (party, bytes) = (self.party, self.listing.len());
        write!(out, "judge {bytes} bytes for party {party} ({})", self.kind)
    }
}

/// So many questions are asked at random.
const QUESTIONS: usize = 4;
/// So many listings are judged at random.
const LISTINGS: usize = 3;
/// A summary with no more words is asked about every row of every party, where all is tried; and a book's part with no
/// more words is judged with each of them changed.
const SMALL: usize = 400;

impl Trial {
    fn new(name: String, book: Vec<u8>, schedule: Vec<u8>) -> Trial {
        Trial {
            name,
            book,
            schedule,
            every: false,
            random: Random::new(0x726f_6f6d),
        }
    }

    /// A book at random, mostly as it was drawn, a schedule for it, and odd bytes behind the one or the other or both.
    fn random(seed: u64, number: usize) -> Trial {
        let mut random = random::at(seed, number);
        let mut book = random::book(&mut random);
        let parties = parties(&book);
        lengthen(&mut random, &mut book);
        let mut schedule = words::to_bytes(&moves(&mut random, parties));
        for bytes in [&mut book, &mut schedule] {
            if random.percent(8) {
                make_odd(&mut random, bytes);
            }
        }
        Trial {
            name: format!("random {number}"),
            book,
            schedule,
            every: false,
            random,
        }
    }

    /// The rooms for an output of so many words, or for a refusal whatever the room.
    pub fn rooms(&mut self, needed: Option<usize>) -> Vec<Room> {
        let Some(words) = needed else {
            let some = *self.random.pick(&[0, 1, 16, 64, 300]);
            return self.spared("refused", some);
        };
        let random = &mut self.random;
        let others = [
            ("no room", 0),
            ("more", words + random.between(1, 64)),
            ("fewer", random.below(words.max(1))),
        ];
        let others = if self.every {
            others.to_vec()
        } else {
            vec![*random.pick(&others)]
        };
        let rooms = [("exact", words), ("one short", words.saturating_sub(1))];
        let all = rooms.into_iter().chain(others);
        all.flat_map(|(kind, words)| self.spared(kind, words)).collect()
    }

    /// Questions about the summary of the book, where it has one: some at random, about it and about others; and where all
    /// is tried, about every row of every party, on both sides of where the answer turns.
    pub fn questions(&mut self, summary: Option<&[u32]>) -> Vec<Asked> {
        let mut all: Vec<Asked> = (0..QUESTIONS).map(|_| self.question(summary)).collect();
        let small = summary.filter(|summary| self.every && summary.len() <= SMALL);
        all.extend(small.into_iter().flat_map(turns));
        all
    }

    /// A question at random, now and then about odd bytes.
    fn question(&mut self, right: Option<&[u32]>) -> Asked {
        let question = random::question(&mut self.random, right);
        let mut asked = Asked {
            kind: match right.is_some_and(|right| right == question.summary) {
                true => "the book's summary",
                false => "another summary",
            },
            summary: words::to_bytes(&question.summary),
            numbers: question.numbers,
        };
        if self.random.percent(8) {
            make_odd(&mut self.random, &mut asked.summary);
            asked.kind = "odd summary";
        }
        asked
    }

    /// Listings for the book, whose programs are these where it is accepted: some at random; and where all is tried, every
    /// party's own part, and of a small book each part with one word changed, at every place.
    pub fn listings(&mut self, programs: Option<&[Program]>) -> Vec<Judged> {
        let mut all: Vec<Judged> = (0..LISTINGS).map(|_| self.listing(programs)).collect();
        let own = programs.filter(|_| self.every).unwrap_or_default();
        let small = self.book.len() <= 4 * SMALL;
        for (party, program) in (0..).zip(own) {
            let part = translate::part(program);
            if small && part.len() <= SMALL {
                all.extend(changed(&part, party));
            }
            all.push(Judged {
                listing: words::to_bytes(&part),
                party,
                kind: "ours",
            });
        }
        all
    }

    /// A listing at random, now and then of odd bytes.
    fn listing(&mut self, programs: Option<&[Program]>) -> Judged {
        let random::Listing { party, words, kind } = random::listing(&mut self.random, programs);
        let mut judged = Judged {
            listing: words::to_bytes(&words),
            party,
            kind,
        };
        if self.random.percent(8) {
            make_odd(&mut self.random, &mut judged.listing);
            judged.kind = "odd listing";
        }
        judged
    }

    /// Room for so many words, with up to three spare bytes behind them: one count of these, or each.
    fn spared(&mut self, kind: &'static str, words: usize) -> Vec<Room> {
        let spares: Vec<usize> = if self.every {
            (0..4).collect()
        } else {
            vec![self.random.below(4)]
        };
        let room = |spare: usize| Room {
            bytes: 4 * words + spare,
            shift: self.random.below(4),
            kind,
        };
        spares.into_iter().map(room).collect()
    }
}

/// About every row of every party: after the step from which on it is held, and after the one before.
fn turns(summary: &[u32]) -> impl Iterator<Item = Asked> + '_ {
    let (rows, steps) = (summary[1], summary[2]);
    let bytes = words::to_bytes(summary);
    (0..).zip(&summary[HEAD..]).flat_map(move |(at, word): (u32, &u32)| {
        let turn = word.saturating_sub(1).min(steps);
        let bytes = bytes.clone();
        [turn.saturating_sub(1), turn].map(move |step| Asked {
            summary: bytes.clone(),
            numbers: [at / rows, at % rows, step],
            kind: "the book's summary",
        })
    })
}

/// A part with one word changed, at every place.
fn changed(part: &[u32], party: u32) -> impl Iterator<Item = Judged> + '_ {
    (0..part.len()).map(move |at| {
        let mut other = part.to_vec();
        other[at] ^= 1;
        Judged {
            listing: words::to_bytes(&other),
            party,
            kind: "a word changed",
        }
    })
}

/// The parties that a book's bytes say there are.
fn parties(book: &[u8]) -> u32 {
    let header = words::of_bytes(words::first(book, HEADER));
    header.map_or(1, |words| shelf::parties(&words))
}

/// Now and then words behind a book's end, seldom so many that no book is as long.
fn lengthen(random: &mut Random, book: &mut Vec<u8>) {
    let words = book.len() / 4;
    let more = match random.below(400) {
        0..16 => random.between(1, 5),
        16..22 => (LONGEST + random.between(1, 3)).saturating_sub(words),
        22..24 => (LONGEST + random.between(1, 3_000)).saturating_sub(words),
        24 => 100_000,
        _ => 0,
    };
    let word = random.word() as u8;
    book.resize(book.len() + 4 * more, word);
}

/// A few bytes more or fewer.
fn make_odd(random: &mut Random, bytes: &mut Vec<u8>) {
    let by = random.between(1, 3);
    if random.percent(50) {
        bytes.truncate(bytes.len().saturating_sub(by));
    } else {
        bytes.resize(bytes.len() + by, 0);
    }
}

/// A schedule for so many parties: short, long, too long, and some with moves that name no party.
fn moves(random: &mut Random, parties: u32) -> Vec<u32> {
    let count = match random.below(20) {
        0..14 => random.below(80),
        14..16 => random.below(MOST_MOVES),
        16 => MOST_MOVES,
        17 | 18 => MOST_MOVES + 1,
        _ => MOST_MOVES + random.between(2, 2_000),
    };
    let in_turn = random.percent(40);
    let one = |number: usize, random: &mut Random| match in_turn {
        true => number as u32 % parties,
        false => random.below(parties as usize) as u32,
    };
    let mut moves: Vec<u32> = (0..count).map(|number| one(number, random)).collect();
    if !moves.is_empty() && random.percent(15) {
        for _ in 0..random.between(1, 3) {
            let at = random.below(moves.len());
            moves[at] = *random.pick(&[parties, parties + 1, MOST_PARTIES, 0x100, 0x1_0000, u32::MAX]);
        }
    }
    moves
}

/// All trials: those of the books in folders, then random ones, each of which hangs on the seed and its number alone.
pub struct Trials {
    fixed: Vec<Trial>,
    pub seed: u64,
    count: usize,
}

impl Trials {
    pub fn new(folders: &[PathBuf], seed: u64, count: usize) -> Result<Trials, String> {
        let mut fixed = Vec::new();
        for folder in folders {
            for file in files::ending(folder, "book")? {
                fixed.extend(of_book(&file)?);
            }
        }
        Ok(Trials { fixed, seed, count })
    }

    /// And one whose listing is longer than any that the others have.
    pub fn with_long(mut self) -> Trials {
        self.fixed.push(long());
        self
    }

    /// How many there are.
    pub fn all(&self) -> usize {
        self.fixed.len() + self.count
    }

    pub fn at(&self, number: usize) -> Trial {
        match self.fixed.get(number) {
            Some(trial) => trial.clone(),
            None => Trial::random(self.seed, number - self.fixed.len()),
        }
    }

    pub fn told(&self) -> String {
        let (seed, count, fixed) = (self.seed, self.count, self.fixed.len());
        format!("seed {seed}, {count} random books and schedules, {fixed} fixed ones")
    }
}

/// A book under the schedules of the shelf, in every room under the first; then with bytes and words too many.
fn of_book(file: &Path) -> Result<Vec<Trial>, String> {
    let book = files::bytes(file)?;
    let name = file.file_stem().unwrap_or_default().to_string_lossy().into_owned();
    let header = words::of_bytes(words::first(&book, HEADER)).unwrap_or_default();
    let schedules = shelf::schedules(&header).map(|schedule| words::to_bytes(&schedule));
    let mut trials = Vec::new();
    for (number, schedule) in schedules.iter().enumerate() {
        let name = format!("{name}, schedule {number}");
        trials.push(Trial::new(name, book.clone(), schedule.clone()));
    }
    trials[0].every = true;
    let short = &schedules[3];
    let mut longer = |more_book: usize, more_schedule: usize| {
        let name = format!("{name}, {more_book} bytes more, its schedule {more_schedule}");
        let (mut book, mut schedule) = (book.clone(), short.clone());
        book.resize(book.len() + more_book, 0);
        schedule.resize(schedule.len() + more_schedule, 0);
        trials.push(Trial::new(name, book, schedule));
    };
    for odd in 1..4 {
        longer(odd, 0);
        longer(0, odd);
        longer(odd, 4 - odd);
    }
    longer(4, 0);
    longer(4 * LONGEST, 0);
    Ok(trials)
}

/// Two parties that know an atom send each other a term of 933 words made of it, eight times a step, and compare it in
/// full: a listing of nearly a million words, more than any buffer between.
fn long() -> Trial {
    let row = |kind, parts| Row { kind, tag: 0, parts };
    let mut rows: Vec<Row> = (0..3).map(|_| row(ATOM, vec![])).collect();
    for count in [8, 8, 6] {
        rows.push(row(OPERATION, vec![rows.len() as u32 - 1; count]));
    }
    let party = |name| Party {
        name,
        known: vec![0, 1, 2],
        makes: true,
    };
    let step = |number: u32| Step {
        sender: number % 2,
        receiver: 1 - number % 2,
        messages: vec![rows.len() as u32 - 1; MOST_MESSAGES as usize],
    };
    let steps = (0..MOST_STEPS).map(step).collect();
    let parties = vec![party(0), party(1)];
    let book = Book { rows, parties, steps };
    let name = "a long listing".to_string();
    Trial::new(name, words::to_bytes(&book.words()), vec![])
}

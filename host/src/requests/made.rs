//! Streams of requests: the one that the program `calls` is run on, and random ones.

use super::{words_of, Function, Request, FUNCTIONS, MOST_BYTES};
use super::{Asked, Book, Derivation, Lent, Listing, Number, Schedule, Summary};
use crate::book;
use crate::bytes;
use crate::files;
use crate::random::{self, question, Question, Random};
use crate::rehearse::MOST_MOVES;
use crate::shelf;
use crate::summary::HEAD;
use crate::translate;
use crate::words;
use std::path::Path;

/// Books up to so many words are called with each function in several ways.
const SMALL: usize = 100;
/// The lent bytes have this in them before.
const BEFORE: u8 = 7;

/// The functions from here on are of summaries and of listings, and are tried in their own way.
const FIRST_OF_SUMMARIES: usize = 6;
const TRANSLATE: &Function = &FUNCTIONS[2];
const WRITE_SUMMARY: &Function = &FUNCTIONS[6];
const ASK: &Function = &FUNCTIONS[7];
const SUMMARY_BYTES: &Function = &FUNCTIONS[8];
const ASK_BYTES: &Function = &FUNCTIONS[9];
const JUDGE: &Function = &FUNCTIONS[10];
const JUDGE_BYTES: &Function = &FUNCTIONS[11];
const CHECK: &Function = &FUNCTIONS[12];
const CHECK_BYTES: &Function = &FUNCTIONS[13];
const APART: &Function = &FUNCTIONS[14];
const APART_BYTES: &Function = &FUNCTIONS[15];

/// So many listings are judged for each small book, on words and on bytes.
const LISTINGS: usize = 2;
/// So many derivations are checked at random.
const DERIVATIONS: usize = 60;
/// Of longer ones, two are.
const LONG: usize = 2_000;

/// The two files of the program's crate, and how many requests are in them.
pub struct Calls {
    pub stdin: Vec<u8>,
    pub stdout: Vec<u8>,
    pub requests: usize,
}

impl Calls {
    /// Over the books of a folder, in the order of their names: each function for the small ones, in several ways; every
    /// kind of question about the first summary, and every word of the first parts changed; and the longest slices that
    /// are taken for the longest book. Over the processes of another: the derivation of each, and some at random.
    pub fn of(folder: &Path, processes: &Path) -> Result<Calls, String> {
        let mut calls = Calls {
            stdin: Vec::new(),
            stdout: Vec::new(),
            requests: 0,
        };
        let (mut longest, mut first) = (Vec::new(), None);
        let mut random = Random::new(0x6a75_6467);
        for file in files::ending(folder, "book")? {
            let Ok(book) = words::of_bytes(&files::bytes(&file)?) else {
                continue;
            };
            if book.len() <= SMALL {
                for function in &FUNCTIONS[..FIRST_OF_SUMMARIES] {
                    calls.try_out(function, &book);
                }
                let book = words::to_bytes(&book);
                calls.try_judge(&mut random, &book);
                let summary = calls.try_summary(&book);
                first = first.or(summary.map(|summary| (book, summary)));
            }
            if longest.len() < book.len() && book.len() <= book::LONGEST {
                longest = book;
            }
        }
        if let Some((book, summary)) = first {
            calls.try_edges(&summary);
            calls.try_every_word(&book);
        }
        let longest = words::to_bytes(&longest);
        calls.add(TRANSLATE, &[&longest, &[BEFORE; MOST_BYTES]]);
        calls.add(WRITE_SUMMARY, &[&longest, &[BEFORE; MOST_BYTES]]);
        calls.ask(ASK, &longest_question());
        calls.judge(JUDGE, &longest, 0, &longest_listing(&longest));
        let trials = random::derivation::trials(processes)?;
        let (long, short): (Vec<_>, Vec<_>) = (trials.iter()).partition(|own| own.derivation.words.len() > LONG);
        for trial in short.into_iter().chain(long.into_iter().take(2)) {
            calls.check_all(&trial.derivation);
        }
        let given = random::derivation::given(processes)?;
        let drawn = std::iter::repeat_with(|| random::derivation(&mut random, &given));
        for own in drawn.filter(|own| own.words.len() <= LONG).take(DERIVATIONS) {
            calls.check_all(&own);
        }
        if let Some(first) = trials.first() {
            calls.try_odd_derivation(&first.derivation);
        }
        Ok(calls)
    }

    /// A derivation, on words and on bytes, and whether what is asked keeps its bound names apart.
    fn check_all(&mut self, own: &random::Derivation) {
        let [asked, derivation] = [&own.asked, &own.words].map(|words| words::to_bytes(words));
        if asked.len().max(derivation.len()) > MOST_BYTES {
            return;
        }
        for function in [CHECK, CHECK_BYTES] {
            self.add(function, &[&asked, &derivation]);
        }
        for function in [APART, APART_BYTES] {
            self.add(function, &[&asked]);
        }
    }

    /// Bytes that make no words, before all else; and as many as a slice may have.
    fn try_odd_derivation(&mut self, own: &random::Derivation) {
        let [asked, mut derivation] = [&own.asked, &own.words].map(|words| words::to_bytes(words));
        for odd in 1..4 {
            self.add(CHECK_BYTES, &[&asked[odd..], &derivation]);
            self.add(CHECK_BYTES, &[&asked, &derivation[odd..]]);
            self.add(CHECK_BYTES, &[&asked[odd..], &[1; 1]]);
            self.add(APART_BYTES, &[&asked[odd..]]);
        }
        derivation.resize(MOST_BYTES, BEFORE);
        let longest = [BEFORE; MOST_BYTES];
        for function in [CHECK, CHECK_BYTES] {
            self.add(function, &[&longest, &derivation]);
        }
        self.add(APART_BYTES, &[&longest]);
    }

    /// A function called for a book: with room and some to spare, with a word too few, and under schedules in order
    /// and not; where its slices are of bytes, with bytes to spare, and with odd ones.
    fn try_out(&mut self, function: &'static Function, book: &[u32]) {
        let parties = shelf::parties(book);
        let moves: Vec<u32> = (0..parties).cycle().take(48).collect();
        let over = [&moves[..], &[parties]].concat();
        let [book, moves, over] = [book, &moves, &over].map(words::to_bytes);
        let need = 4 * need(function, &book);
        let lent = |length: usize| vec![BEFORE; length];
        let spare = if function.item == 1 { 3 } else { 8 };
        match function.parameters {
            [Book] => self.add(function, &[&book]),
            [Book, Lent] => {
                self.add(function, &[&book, &lent(need + spare)]);
                self.add(function, &[&book, &lent(need - function.item)]);
                if function.item == 1 {
                    self.add(function, &[&[&book[..], &[1]].concat(), &lent(need)]);
                }
            }
            _ => {
                self.add(function, &[&book, &moves, &lent(need + spare)]);
                self.add(function, &[&book, &moves, &lent(need - function.item)]);
                self.add(function, &[&book, &over, &lent(need)]);
                if function.item == 1 {
                    self.add(function, &[&book, &over[..7], &lent(need)]);
                }
            }
        }
    }

    /// The summary of a book, with exact room, with a word or a byte too few, and of odd bytes; then where the answer to a
    /// question about it turns. A book that is refused is so in any room.
    fn try_summary(&mut self, book: &[u8]) -> Option<Vec<u32>> {
        let Ok(summary) = bytes::summary(book) else {
            self.add(WRITE_SUMMARY, &[book, &[BEFORE; 16]]);
            self.add(SUMMARY_BYTES, &[book, &[BEFORE; 17]]);
            return None;
        };
        let lent = vec![BEFORE; 4 * summary.len() + 3];
        let exact = &lent[..4 * summary.len()];
        self.add(WRITE_SUMMARY, &[book, exact]);
        self.add(WRITE_SUMMARY, &[book, &exact[4..]]);
        self.add(SUMMARY_BYTES, &[book, &lent]);
        self.add(SUMMARY_BYTES, &[book, &exact[1..]]);
        self.add(SUMMARY_BYTES, &[&book[1..], exact]);
        for question in turn(&summary) {
            self.ask(ASK, &question);
            self.ask(ASK_BYTES, &question);
        }
        Some(summary)
    }

    /// Every kind of question about a summary, on words and on bytes, and on bytes that make no words.
    fn try_edges(&mut self, summary: &[u32]) {
        for question in edges(summary) {
            self.ask(ASK, &question);
            self.ask(ASK_BYTES, &question);
        }
        let summary = words::to_bytes(summary);
        for odd in [1, 2, summary.len() - 1] {
            self.add(ASK_BYTES, &[&summary[..odd], &[0; 4], &[255; 4], &[0; 4]]);
        }
    }

    fn ask(&mut self, function: &'static Function, question: &Question) {
        let [party, row, step] = question.numbers.map(|number| words::to_bytes(&[number]));
        let summary = words::to_bytes(&question.summary);
        self.add(function, &[&summary, &party, &row, &step]);
    }

    /// Listings for a book: renamed, damaged, and for no party.
    fn try_judge(&mut self, random: &mut Random, book: &[u8]) {
        let programs = bytes::programs(book).ok();
        for function in [JUDGE, JUDGE_BYTES].repeat(LISTINGS) {
            let random::Listing { party, words, .. } = random::listing(random, programs.as_deref());
            self.judge(function, book, party, &words::to_bytes(&words));
        }
    }

    /// Each party's own part for a book that is accepted, and this with any one word changed, cut at any word and as bytes
    /// at the next one, and with a word more; for parties that there are none of; and with a book of odd bytes.
    fn try_every_word(&mut self, book: &[u8]) {
        let programs = bytes::programs(book).unwrap_or_default();
        for (party, program) in (0..).zip(&programs) {
            let part = translate::part(program);
            for at in 0..part.len() {
                let mut other = part.clone();
                other[at] ^= 1;
                self.judge(JUDGE, book, party, &words::to_bytes(&other));
                self.judge(JUDGE_BYTES, book, party, &words::to_bytes(&part[..at]));
            }
            let part = words::to_bytes(&part);
            let longer = [&part[..], &[0; 4]].concat();
            for (function, length) in [
                (JUDGE, 0),
                (JUDGE, 4),
                (JUDGE_BYTES, 0),
                (JUDGE_BYTES, 1),
                (JUDGE_BYTES, 4),
            ] {
                self.judge(function, book, party, &longer[..part.len() + length]);
            }
            self.judge(JUDGE_BYTES, &book[1..], party, &part);
        }
        for party in [programs.len() as u32, u32::MAX] {
            self.judge(JUDGE, book, party, &[]);
            self.judge(JUDGE_BYTES, book, party, &[]);
        }
    }

    fn judge(&mut self, function: &'static Function, book: &[u8], party: u32, listing: &[u8]) {
        self.add(function, &[book, listing, &words::to_bytes(&[party])]);
    }

    fn add(&mut self, function: &'static Function, given: &[&[u8]]) {
        let given = given.iter().map(|given| given.to_vec()).collect();
        let request = Request { function, given };
        self.stdin.extend(request.bytes());
        self.stdout.extend((request.answer() + "\n").into_bytes());
        self.requests += 1;
    }

    fn files(&self) -> [(&str, &Vec<u8>); 2] {
        [("stdin", &self.stdin), ("stdout", &self.stdout)]
    }

    /// Writes the files into the crate's folder.
    pub fn write(&self, folder: &Path) -> Result<(), String> {
        files::write_all(folder, &self.files())
    }

    /// Whether the crate's folder has these files; a line for each that it hasn't.
    pub fn check(&self, folder: &Path) -> Result<(), String> {
        files::all_current(folder, &self.files(), "the books give")
    }
}

/// About the row that a party got to hold latest: after the step before, where there is one, and after that step.
fn turn(summary: &[u32]) -> Vec<Question> {
    let (rows, steps) = (summary[1], summary[2]);
    let later = |(_, word): &(u32, &u32)| (1..=steps).contains(*word);
    let latest = (0..).zip(&summary[HEAD..]).filter(later).max_by_key(|(_, word)| **word);
    let Some((at, word)) = latest else {
        return Vec::new();
    };
    let steps = word.saturating_sub(2)..*word;
    let asked = |step: u32| Question {
        summary: summary.to_vec(),
        numbers: [at / rows, at % rows, step],
    };
    steps.map(asked).collect()
}

/// About a summary: each bound, the order of the bounds, lengths that are wrong, and counts that are far too large.
fn edges(summary: &[u32]) -> Vec<Question> {
    let [parties, rows, steps] = [summary[0], summary[1], summary[2]];
    let last = [parties - 1, rows - 1, steps.saturating_sub(1)];
    let asked = |summary: &[u32], numbers: [u32; 3]| Question {
        summary: summary.to_vec(),
        numbers,
    };
    let with = |head: [u32; 2]| [&head[..], &summary[2..]].concat();
    let numbers = [
        last,
        [0, 0, 0],
        [parties, rows, steps],
        [0, rows, steps],
        [0, 0, steps],
        [u32::MAX; 3],
        [0, u32::MAX, 0],
        [0, 0, u32::MAX],
    ];
    let lengths = [0, 1, 2, 3, summary.len() - 1].map(|length| asked(&summary[..length], [parties, 0, 0]));
    let more = [
        [summary, &[0]].concat(),
        with([rows, parties]),
        with([u32::MAX, u32::MAX]),
        with([1 << 31, 1 << 31]),
    ];
    let numbers = numbers.map(|numbers| asked(summary, numbers));
    let more = more.map(|summary| asked(&summary, last));
    numbers.into_iter().chain(lengths).chain(more).collect()
}

/// About a summary as long as a slice may be, with the largest word there is, at the last step of as many.
fn longest_question() -> Question {
    let parties = MOST_BYTES / 4 - HEAD;
    let mut summary = vec![parties as u32, 1, u32::MAX];
    summary.resize(MOST_BYTES / 4, u32::MAX);
    Question {
        summary,
        numbers: [parties as u32 - 1, 0, u32::MAX - 1],
    }
}

/// A book's first part, with as many words behind it as a slice may have.
fn longest_listing(book: &[u8]) -> Vec<u8> {
    let programs = bytes::programs(book).unwrap_or_default();
    let mut part = words::to_bytes(&programs.first().map(translate::part).unwrap_or_default());
    part.resize(MOST_BYTES, BEFORE);
    part
}

/// How many words a function's output has; of a book that is refused, some.
fn need(function: &Function, book: &[u8]) -> usize {
    if function.parameters.contains(&Schedule) {
        return shelf::parties(&words_of(book)) as usize;
    }
    let output = match function.number == WRITE_SUMMARY.number || function.number == SUMMARY_BYTES.number {
        true => bytes::summary(book),
        false => bytes::listing(book),
    };
    output.map_or(1, |output| output.len())
}

/// The bytes of random requests.
pub fn random(seed: u64, count: usize) -> Vec<u8> {
    let mut random = Random::new(seed);
    let mut stream = Vec::new();
    for book in random::books(seed, count) {
        let function = random.pick(&FUNCTIONS);
        let book = whole(&book, function.item);
        let summary = bytes::summary(book).ok();
        let asked = question(&mut random, summary.as_deref());
        let judged = random::listing(&mut random, bytes::programs(book).ok().as_deref());
        let checked = match function.parameters.contains(&Asked) {
            true => Some(random::derivation(&mut random, &[])),
            false => None,
        };
        let mut numbers = match function.parameters.contains(&Listing) {
            true => vec![judged.party],
            false => asked.numbers.to_vec(),
        }
        .into_iter();
        let given = function.parameters.iter().map(|parameter| match parameter {
            Book => book.to_vec(),
            Schedule => {
                let schedule = words::to_bytes(&schedule(&mut random, shelf::parties(&words_of(book))));
                odd(&mut random, schedule, function.item)
            }
            Summary => {
                let summary = words::to_bytes(&asked.summary);
                odd(&mut random, whole(&summary, 4).to_vec(), function.item)
            }
            Listing => {
                let listing = words::to_bytes(&judged.words);
                odd(&mut random, whole(&listing, 4).to_vec(), function.item)
            }
            Asked | Derivation => {
                let own = checked.as_ref().expect("it was drawn");
                let words = if *parameter == Asked { &own.asked } else { &own.words };
                odd(&mut random, whole(&words::to_bytes(words), 4).to_vec(), function.item)
            }
            Lent => {
                let lent = lent(&mut random, need(function, book));
                odd(&mut random, lent, function.item)
            }
            Number => words::to_bytes(&[numbers.next().unwrap_or_default()]),
        });
        let given = given.collect();
        stream.extend(Request { function, given }.bytes());
    }
    stream
}

/// As much as a slice may have, in whole items.
fn whole(bytes: &[u8], item: usize) -> &[u8] {
    let length = bytes.len().min(MOST_BYTES);
    &bytes[..length / item * item]
}

/// Now and then a slice of bytes is some bytes short.
fn odd(random: &mut Random, mut slice: Vec<u8>, item: usize) -> Vec<u8> {
    if item == 1 && random.percent(30) {
        slice.truncate(slice.len().saturating_sub(random.below(4)));
    }
    slice
}

/// Moves of the parties, mostly few; now and then one more than a schedule may have, or a move that names no party.
fn schedule(random: &mut Random, parties: u32) -> Vec<u32> {
    let moves = match random.below(20) {
        0 => MOST_MOVES + random.below(2),
        _ => random.below(100),
    };
    let bound = parties as usize + usize::from(random.percent(10));
    (0..moves).map(|_| random.below(bound) as u32).collect()
}

/// The bytes of lent words with something in them: as many as are needed, one less, some more, or any number.
fn lent(random: &mut Random, need: usize) -> Vec<u8> {
    let room = match random.below(8) {
        0 => need.saturating_sub(1),
        1 => random.below(MOST_BYTES / 4 + 1),
        2..5 => need,
        _ => need + random.below(10),
    };
    (0..MOST_BYTES.min(4 * room)).map(|_| random.word() as u8).collect()
}

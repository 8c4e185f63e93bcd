//! The routes: the proved functions on bytes, the proved functions on words, and this implementation, in one process,
//! on the same books, schedules, questions and listings; or the bench's anchor in the place of the proved ones. Buffers
//! are full of marks before a call; answers, and every byte and every word afterwards, have to be the same on all three.

mod tally;
mod trial;
pub mod types;

use crate::book::Refusal;
use crate::bytes;
use crate::files;
use crate::judge::{self, Verdict};
use crate::lean;
use crate::library::{packed, packed_reply, packed_verdict, Library};
use crate::random::Random;
use crate::translate::Program;
use crate::words;
use std::io::Write;
use std::ops::Range;
use std::path::{Path, PathBuf};
use std::sync::atomic::{AtomicUsize, Ordering};
use std::thread;
use tally::Tally;
pub use trial::Trials;
use trial::{Asked, Judged, Room, Trial};

/// As a thread has it that nobody thought about: the proved code runs on it.
const STACK: usize = 2 << 20;
/// So many bytes are watched on either side of those that are lent.
const GUARD: usize = 16;
/// Differences are told up to so many.
const TOLD: usize = 10;

type Answer = Result<usize, Refusal>;
type Reply = Result<bool, Refusal>;

/// What is compared with this implementation: functions on words and on bytes; those on bytes answer with one packed
/// number.
pub trait Side: Sync {
    fn translate(&self, book: &[u32], out: &mut [u32]) -> Answer;
    fn rehearse(&self, book: &[u32], schedule: &[u32], out: &mut [u32]) -> Answer;
    fn translate_bytes(&self, book: &[u8], out: &mut [u8]) -> u64;
    fn rehearse_bytes(&self, book: &[u8], schedule: &[u8], out: &mut [u8]) -> u64;

    /// Its functions of summaries, where it has some.
    fn summaries(&self) -> Option<&dyn Summaries>;

    /// Its judge, where it has one.
    fn judging(&self) -> Option<&dyn Judging>;
}

/// The functions of summaries, on words and on bytes. A question is the numbers of a party, a row and a step.
pub trait Summaries {
    fn write(&self, book: &[u32], out: &mut [u32]) -> Answer;
    fn ask(&self, summary: &[u32], question: [u32; 3]) -> Reply;
    fn write_bytes(&self, book: &[u8], out: &mut [u8]) -> u64;
    fn ask_bytes(&self, summary: &[u8], question: [u32; 3]) -> u64;
}

/// The judge of listings, on words and on bytes.
pub trait Judging {
    fn judge(&self, book: &[u32], party: u32, listing: &[u32]) -> Result<Verdict, Refusal>;
    fn judge_bytes(&self, book: &[u8], party: u32, listing: &[u8]) -> u64;
}

impl Side for Library {
    fn translate(&self, book: &[u32], out: &mut [u32]) -> Answer {
        self.translate(book, out)
    }

    fn rehearse(&self, book: &[u32], schedule: &[u32], out: &mut [u32]) -> Answer {
        self.rehearse(book, schedule, out)
    }

    fn translate_bytes(&self, book: &[u8], out: &mut [u8]) -> u64 {
        self.translate_bytes(book, out)
    }

    fn rehearse_bytes(&self, book: &[u8], schedule: &[u8], out: &mut [u8]) -> u64 {
        self.rehearse_bytes(book, schedule, out)
    }

    fn summaries(&self) -> Option<&dyn Summaries> {
        Some(self)
    }

    fn judging(&self) -> Option<&dyn Judging> {
        Some(self)
    }
}

impl Summaries for Library {
    fn write(&self, book: &[u32], out: &mut [u32]) -> Answer {
        self.write_summary(book, out)
    }

    fn ask(&self, summary: &[u32], question: [u32; 3]) -> Reply {
        self.ask(summary, question)
    }

    fn write_bytes(&self, book: &[u8], out: &mut [u8]) -> u64 {
        self.summary_bytes(book, out)
    }

    fn ask_bytes(&self, summary: &[u8], question: [u32; 3]) -> u64 {
        self.ask_bytes(summary, question)
    }
}

impl Judging for Library {
    fn judge(&self, book: &[u32], party: u32, listing: &[u32]) -> Result<Verdict, Refusal> {
        self.judge(book, party, listing)
    }

    fn judge_bytes(&self, book: &[u8], party: u32, listing: &[u8]) -> u64 {
        self.judge_bytes(book, party, listing)
    }
}

/// Compares the routes of a library over the books of some folders and over random ones; whether nothing differs.
pub fn run(library: &Path, seed: u64, count: usize, folders: &[PathBuf], out: &mut dyn Write) -> Result<bool, String> {
    let proved = Library::open(library)?;
    let missing = proved.missing();
    if !missing.is_empty() {
        let missing = format!("it has no {}", missing.join(", no "));
        let advice = "`host/library shared calls editor` makes a library with all of them";
        return Err(files::told(library, format!("{missing}; {advice}")));
    }
    let trials = Trials::new(folders, seed, count)?.with_long();
    over(&proved, &trials, &std::env::temp_dir(), out)
}

/// The anchor of the bench. Its way from bytes and back goes through words.
pub struct Lean;

impl Lean {
    /// An answer into lent bytes; the spare ones make no word.
    fn lend(out: &mut [u8], answer: impl FnOnce(&mut [u32]) -> Answer) -> u64 {
        let whole = out.len() / 4 * 4;
        let mut lent = words::of_bytes(&out[..whole]).expect("whole words");
        let answer = answer(&mut lent);
        out[..whole].copy_from_slice(&words::to_bytes(&lent));
        packed(&answer)
    }
}

impl Side for Lean {
    fn translate(&self, book: &[u32], out: &mut [u32]) -> Answer {
        lean::translate(book, out)
    }

    fn rehearse(&self, book: &[u32], schedule: &[u32], out: &mut [u32]) -> Answer {
        lean::rehearse(book, schedule, out)
    }

    fn translate_bytes(&self, book: &[u8], out: &mut [u8]) -> u64 {
        Lean::lend(out, |out| lean::translate(&words::of_bytes(book)?, out))
    }

    fn rehearse_bytes(&self, book: &[u8], schedule: &[u8], out: &mut [u8]) -> u64 {
        Lean::lend(out, |out| {
            lean::rehearse(&words::of_bytes(book)?, &words::of_bytes(schedule)?, out)
        })
    }

    /// The anchor is there for translation and rehearsal alone.
    fn summaries(&self) -> Option<&dyn Summaries> {
        None
    }

    /// As above.
    fn judging(&self) -> Option<&dyn Judging> {
        None
    }
}

/// Compares the anchor over the books of some folders and over random ones; whether nothing differs.
pub fn run_lean(seed: u64, count: usize, folders: &[PathBuf], out: &mut dyn Write) -> Result<bool, String> {
    let trials = Trials::new(folders, seed, count)?.with_long();
    over(&Lean, &trials, &std::env::temp_dir(), out)
}

/// Compares over trials, and tells each difference and at last what was met. What differs is kept in a folder.
pub fn over(side: &impl Side, trials: &Trials, keep: &Path, out: &mut dyn Write) -> Result<bool, String> {
    let mut say = |line: &str| writeln!(out, "{line}").map_err(|error| format!("standard output: {error}"));
    say(&trials.told())?;
    let (tally, mut differences) = work(side, trials)?;
    differences.sort_by_key(|(number, _)| *number);
    for (number, difference) in differences.iter().take(TOLD) {
        say(&difference.told)?;
        say(&kept(&trials.at(*number), difference, trials.seed, keep)?)?;
    }
    if differences.len() > TOLD {
        say(&format!("and {} more", differences.len() - TOLD))?;
    }
    say(&tally.told(differences.len()))?;
    Ok(differences.is_empty())
}

/// What differs, in words, and the summary or the listing that was handed in, where one was, by its name.
struct Difference {
    told: String,
    handed_in: Option<(&'static str, Vec<u8>)>,
}

/// Of a call that is made of the trial's book and schedule alone.
impl From<String> for Difference {
    fn from(told: String) -> Difference {
        Difference { told, handed_in: None }
    }
}

type Differences = Vec<(usize, Difference)>;

/// The files of a trial in which the routes differ, written for a closer look, and where they are.
fn kept(trial: &Trial, difference: &Difference, seed: u64, folder: &Path) -> Result<String, String> {
    let name = trial.name.replace(|letter: char| !letter.is_ascii_alphanumeric(), "-");
    let mut told = String::from("  kept:");
    let mut keep = |what: &str, bytes: &[u8]| {
        let file = folder.join(format!("routes-{seed}-{name}.{what}"));
        told += &format!(" {}", file.display());
        files::write(&file, bytes)
    };
    keep("book", &trial.book)?;
    keep("schedule", &trial.schedule)?;
    if let Some((name, bytes)) = &difference.handed_in {
        keep(name, bytes)?;
    }
    Ok(told)
}

/// All trials, by as many workers as the machine has processors.
fn work(side: &impl Side, trials: &Trials) -> Result<(Tally, Differences), String> {
    let next = AtomicUsize::new(0);
    let worker = || {
        let (mut tally, mut differences, mut marks) = (Tally::default(), Vec::new(), Marks::default());
        loop {
            let number = next.fetch_add(1, Ordering::Relaxed);
            if number >= trials.all() {
                return (tally, differences);
            }
            let told = compare(side, trials.at(number), &mut marks, &mut tally);
            differences.extend(told.err().map(|told| (number, told)));
        }
    };
    let workers = thread::available_parallelism().map_or(1, |count| count.get());
    thread::scope(|scope| {
        let spawn = |_| thread::Builder::new().stack_size(STACK).spawn_scoped(scope, worker);
        let spawned: Result<Vec<_>, _> = (0..workers).map(spawn).collect();
        let spawned = spawned.map_err(|error| format!("no thread for a worker: {error}"))?;
        let (mut tally, mut differences) = (Tally::default(), Vec::new());
        for worker in spawned {
            let (own, told) = worker.join().map_err(|_| "a worker came to grief")?;
            tally.add(own);
            differences.extend(told);
        }
        Ok((tally, differences))
    })
}

/// All functions on one trial, in each of its rooms; the first difference.
fn compare(side: &impl Side, mut trial: Trial, marks: &mut Marks, tally: &mut Tally) -> Result<(), Difference> {
    tally.trial(&trial);
    outputs(side, &mut trial, marks, tally)?;
    if let Some(side) = side.summaries() {
        summaries(side, &mut trial, marks, tally)?;
    }
    if let Some(side) = side.judging() {
        verdicts(side, &mut trial, tally)?;
    }
    Ok(())
}

/// The summary of a trial's book, and questions.
fn summaries(side: &dyn Summaries, trial: &mut Trial, marks: &mut Marks, tally: &mut Tally) -> Result<(), Difference> {
    let summary = bytes::summary(&trial.book);
    written(side, &summary, trial, marks, tally)?;
    for asked in trial.questions(summary.as_deref().ok()) {
        let answer = answered(side, &asked).map_err(|told| Difference {
            told: format!("{}, {asked}: {told}", trial.name),
            handed_in: Some(("summary", asked.summary.clone())),
        })?;
        tally.question(&asked, answer);
    }
    Ok(())
}

/// Listings for a trial's book.
fn verdicts(side: &dyn Judging, trial: &mut Trial, tally: &mut Tally) -> Result<(), Difference> {
    let programs = bytes::programs(&trial.book);
    for judged in trial.listings(programs.as_deref().ok()) {
        let verdict = verdict(side, &trial.book, &programs, &judged).map_err(|told| Difference {
            told: format!("{}, {judged}: {told}", trial.name),
            handed_in: Some(("listing", judged.listing.clone())),
        })?;
        tally.listing(&judged, verdict);
    }
    Ok(())
}

/// Translation and rehearsal.
fn outputs(side: &impl Side, trial: &mut Trial, marks: &mut Marks, tally: &mut Tally) -> Result<(), String> {
    let (book, schedule) = (words::of_bytes(&trial.book).ok(), words::of_bytes(&trial.schedule).ok());

    let listing = bytes::listing(&trial.book);
    for room in trial.rooms(listing.as_ref().ok().map(Vec::len)) {
        let on_bytes = |out: &mut [u8]| side.translate_bytes(&trial.book, out);
        let on_words = (book.as_ref()).map(|book| |out: &mut [u32]| side.translate(book, out));
        let answer = call(&listing, room, marks, on_bytes, on_words);
        let answer = answer.map_err(|told| format!("{}, translate, {room}: {told}", trial.name))?;
        tally.call("translate", answer, room);
    }

    let done = bytes::done(&trial.book, &trial.schedule);
    for room in trial.rooms(done.as_ref().ok().map(Vec::len)) {
        let on_bytes = |out: &mut [u8]| side.rehearse_bytes(&trial.book, &trial.schedule, out);
        let both = book.as_ref().zip(schedule.as_ref());
        let on_words = both.map(|(book, schedule)| |out: &mut [u32]| side.rehearse(book, schedule, out));
        let answer = call(&done, room, marks, on_bytes, on_words);
        let answer = answer.map_err(|told| format!("{}, rehearse, {room}: {told}", trial.name))?;
        tally.call("rehearse", answer, room);
    }
    Ok(())
}

/// The summary of a trial's book.
fn written(
    side: &dyn Summaries,
    summary: &Result<Vec<u32>, Refusal>,
    trial: &mut Trial,
    marks: &mut Marks,
    tally: &mut Tally,
) -> Result<(), String> {
    let book = words::of_bytes(&trial.book).ok();
    for room in trial.rooms(summary.as_ref().ok().map(Vec::len)) {
        let on_bytes = |out: &mut [u8]| side.write_bytes(&trial.book, out);
        let on_words = (book.as_ref()).map(|book| |out: &mut [u32]| side.write(book, out));
        let answer = call(summary, room, marks, on_bytes, on_words);
        let answer = answer.map_err(|told| format!("{}, summary, {room}: {told}", trial.name))?;
        tally.call("summary", answer, room);
    }
    Ok(())
}

/// One question on each route, where bytes are words on the one on words too: the answer, or what differs.
fn answered(side: &dyn Summaries, asked: &Asked) -> Result<u64, String> {
    let [party, row, step] = asked.numbers;
    let answer = packed_reply(&bytes::ask(&asked.summary, party, row, step));
    same_reply("bytes", side.ask_bytes(&asked.summary, asked.numbers), answer)?;
    if let Ok(summary) = words::of_bytes(&asked.summary) {
        let found = packed_reply(&side.ask(&summary, asked.numbers));
        same_reply("words", found, answer)?;
    }
    Ok(answer)
}

/// One listing on each route, where bytes are words on the one on words too: the verdict, or what differs.
fn verdict(
    side: &dyn Judging,
    book: &[u8],
    programs: &Result<Vec<Program>, Refusal>,
    judged: &Judged,
) -> Result<u64, String> {
    let Judged { party, listing, .. } = judged;
    let on_words = words::of_bytes(listing);
    let right = packed_verdict(&match (&on_words, programs) {
        (Ok(listing), Ok(programs)) => judge::by(programs, *party, listing),
        // Odd bytes come before the book's own refusal.
        (Err(refusal), _) | (_, Err(refusal)) => Err(refusal.clone()),
    });
    same("bytes", side.judge_bytes(book, *party, listing), right, tally::verdict)?;
    if let (Ok(book), Ok(listing)) = (words::of_bytes(book), on_words) {
        let found = packed_verdict(&side.judge(&book, *party, &listing));
        same("words", found, right, tally::verdict)?;
    }
    Ok(right)
}

/// One call on each route, where bytes are words on the one on words too: the answer, or what differs.
fn call(
    output: &Result<Vec<u32>, Refusal>,
    room: Room,
    marks: &mut Marks,
    on_bytes: impl Fn(&mut [u8]) -> u64,
    on_words: Option<impl Fn(&mut [u32]) -> Answer>,
) -> Result<u64, String> {
    let start = GUARD + room.shift;
    let lent = start..start + room.bytes;
    let before = marks.first(lent.end + GUARD);

    let mut expected = before.to_vec();
    let answer = match output {
        Ok(output) => bytes::lend(output, &mut expected[lent.clone()]),
        Err(refusal) => Err(refusal.clone()),
    };
    let answer = packed(&answer);

    let mut found = before.to_vec();
    same_answer("bytes", on_bytes(&mut found[lent.clone()]), answer)?;
    same_bytes("bytes", &found, &expected, &lent)?;

    if let Some(on_words) = on_words {
        // The words that begin where the lent bytes do, with as many of the marks on either side.
        let span = lent.start - GUARD..lent.start + room.bytes / 4 * 4 + GUARD;
        let mut found = words::of_bytes(&before[span.clone()]).expect("whole words");
        let lent_words = GUARD / 4..GUARD / 4 + room.bytes / 4;
        same_answer("words", packed(&on_words(&mut found[lent_words])), answer)?;
        same_bytes(
            "words",
            &words::to_bytes(&found),
            &expected[span],
            &(GUARD..GUARD + room.bytes),
        )?;
    }
    Ok(answer)
}

fn same_answer(route: &str, found: u64, expected: u64) -> Result<(), String> {
    same(route, found, expected, tally::answer)
}

fn same_reply(route: &str, found: u64, expected: u64) -> Result<(), String> {
    same(route, found, expected, tally::reply)
}

fn same(route: &str, found: u64, expected: u64, told: fn(u64) -> String) -> Result<(), String> {
    if found == expected {
        return Ok(());
    }
    let (found, expected) = (told(found), told(expected));
    Err(format!("on {route} the answer is {found}, the host's is {expected}"))
}

fn same_bytes(route: &str, found: &[u8], expected: &[u8], lent: &Range<usize>) -> Result<(), String> {
    match (0..found.len()).find(|at| found[*at] != expected[*at]) {
        None => Ok(()),
        Some(at) if lent.contains(&at) => Err(format!(
            "on {route} byte {} of the output is {}, the host's is {}",
            at - lent.start,
            found[at],
            expected[at]
        )),
        Some(_) => Err(format!("on {route} a byte was written that was not lent")),
    }
}

/// What stands in buffers before a call: bytes at random, so that whatever is written shows, and where.
struct Marks {
    random: Random,
    bytes: Vec<u8>,
}

impl Default for Marks {
    fn default() -> Marks {
        Marks {
            random: Random::new(0x6d61_726b),
            bytes: Vec::new(),
        }
    }
}

impl Marks {
    fn first(&mut self, count: usize) -> &[u8] {
        while self.bytes.len() < count {
            self.bytes.extend(self.random.word().to_le_bytes());
        }
        &self.bytes[..count]
    }
}

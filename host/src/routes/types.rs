//! The routes of derivations: the proved check on bytes, the proved one on words, and this implementation, in one process,
//! on the derivations of given and of random processes, as they are and damaged. Rooms are full of marks before a call;
//! answers, and every word of a room afterwards and on either side of it, have to be the same.

use super::{same, tally, Marks, TOLD};
use crate::book::Refusal;
use crate::bytes;
use crate::files;
use crate::library::{packed_finding, packed_reply, Library};
use crate::random::derivation::{given, trials, Trial};
use crate::random::{self, Derivation, Random};
use crate::types::{self, Derived, Verdict};
use crate::words;
use std::collections::BTreeMap;
use std::io::Write;
use std::path::{Path, PathBuf};
use std::sync::atomic::{AtomicUsize, Ordering};
use std::thread;

/// The host goes down into terms by recursion, and words may nest them as deep as they are many.
const STACK: usize = 64 << 20;
/// So many words are watched on either side of those that are lent.
const GUARD: usize = 4;

/// What is compared with this implementation. The functions on bytes answer with one packed number.
pub trait Typing: Sync {
    fn check(&self, asked: &[u32], derivation: &[u32]) -> Verdict;
    fn keeps_apart(&self, asked: &[u32]) -> bool;
    fn check_bytes(&self, asked: &[u8], derivation: &[u8], room: &mut [u32]) -> u64;
    fn apart_bytes(&self, asked: &[u8], room: &mut [u32]) -> u64;
}

impl Typing for Library {
    fn check(&self, asked: &[u32], derivation: &[u32]) -> Verdict {
        self.check(asked, derivation)
    }

    fn keeps_apart(&self, asked: &[u32]) -> bool {
        self.keeps_apart(asked)
    }

    fn check_bytes(&self, asked: &[u8], derivation: &[u8], room: &mut [u32]) -> u64 {
        self.check_bytes(asked, derivation, room)
    }

    fn apart_bytes(&self, asked: &[u8], room: &mut [u32]) -> u64 {
        self.apart_bytes(asked, room)
    }
}

/// Compares the routes of a library over the processes of some folders and over random ones; whether nothing differs.
pub fn run(library: &Path, seed: u64, count: usize, folders: &[PathBuf], out: &mut dyn Write) -> Result<bool, String> {
    let proved = Library::open(library)?;
    let missing = proved.missing_types();
    if !missing.is_empty() {
        let missing = format!("it has no {}", missing.join(", no "));
        let advice = "`host/library shared calls editor` makes a library with all of them";
        return Err(files::told(library, format!("{missing}; {advice}")));
    }
    let all = Derivations::new(folders, seed, count)?;
    over(&proved, &all, &std::env::temp_dir(), out)
}

/// All derivations: those of the processes in folders and their neighbours, then random ones, each of which hangs on the
/// seed and its number alone.
pub struct Derivations {
    fixed: Vec<Trial>,
    given: Vec<Derived>,
    seed: u64,
    count: usize,
}

impl Derivations {
    pub fn new(folders: &[PathBuf], seed: u64, count: usize) -> Result<Derivations, String> {
        let (mut fixed, mut own) = (Vec::new(), Vec::new());
        for folder in folders {
            fixed.extend(trials(folder)?);
            own.extend(given(folder)?);
        }
        Ok(Derivations {
            fixed,
            given: own,
            seed,
            count,
        })
    }

    fn all(&self) -> usize {
        self.fixed.len() + self.count
    }

    /// One of them, and the generator of what is drawn for it.
    fn at(&self, number: usize) -> (Trial, Random) {
        let mut random = random::at(self.seed, number);
        let trial = self.fixed.get(number).cloned().unwrap_or_else(|| Trial {
            name: format!("random {}", number - self.fixed.len()),
            derivation: random::derivation(&mut random, &self.given),
        });
        (trial, random)
    }
}

/// What was met: the answers of each function, and what was done to derivations and lent for them.
#[derive(Default)]
struct Met {
    calls: usize,
    answers: BTreeMap<(&'static str, String), usize>,
    kinds: BTreeMap<&'static str, usize>,
}

impl Met {
    fn answer(&mut self, function: &'static str, answer: &str) {
        let kind = match answer.split_once(' ') {
            Some(("refused", rest)) => format!("refused {}", rest.split(' ').next().unwrap_or("")),
            Some((first, _)) => first.to_string(),
            None => answer.to_string(),
        };
        self.calls += 1;
        *self.answers.entry((function, kind)).or_default() += 1;
    }

    fn meet(&mut self, kind: &'static str) {
        *self.kinds.entry(kind).or_default() += 1;
    }

    fn add(&mut self, other: Met) {
        self.calls += other.calls;
        for (kind, count) in other.answers {
            *self.answers.entry(kind).or_default() += count;
        }
        for (kind, count) in other.kinds {
            *self.kinds.entry(kind).or_default() += count;
        }
    }

    fn told(&self) -> String {
        let mut lines = Vec::new();
        for function in ["check", "apart"] {
            let own = self.answers.iter().filter(|((name, _), _)| *name == function);
            let told: Vec<String> = own.map(|((_, kind), count)| format!("{kind}: {count}")).collect();
            lines.push(format!("{function}: {}", told.join(", ")));
        }
        let met: Vec<String> = (self.kinds.iter())
            .map(|(kind, count)| format!("{kind}: {count}"))
            .collect();
        lines.push(format!("met: {}", met.join(", ")));
        lines.join("\n")
    }
}

/// Compares over derivations, and tells each difference and at last what was met. What differs is kept in a folder.
pub fn over(side: &impl Typing, all: &Derivations, keep: &Path, out: &mut dyn Write) -> Result<bool, String> {
    let mut say = |line: &str| writeln!(out, "{line}").map_err(|error| format!("standard output: {error}"));
    let (seed, count, fixed) = (all.seed, all.count, all.fixed.len());
    say(&format!("seed {seed}, {count} random derivations, {fixed} fixed ones"))?;
    let (met, mut differences) = work(side, all)?;
    differences.sort();
    for (number, told) in differences.iter().take(TOLD) {
        let trial = all.at(*number).0;
        say(&format!("{} ({}): {told}", trial.name, trial.derivation.kind))?;
        say(&kept(&trial, seed, keep)?)?;
    }
    if differences.len() > TOLD {
        say(&format!("and {} more", differences.len() - TOLD))?;
    }
    say(&met.told())?;
    let differ = differences.len();
    say(&format!(
        "{} derivations, {} calls on each route, {differ} differences",
        all.all(),
        met.calls
    ))?;
    Ok(differences.is_empty())
}

/// The files of a trial in which the routes differ, written for a closer look, and where they are.
fn kept(trial: &Trial, seed: u64, folder: &Path) -> Result<String, String> {
    let name = trial.name.replace(|letter: char| !letter.is_ascii_alphanumeric(), "-");
    let mut told = String::from("  kept:");
    let Derivation { asked, words, .. } = &trial.derivation;
    for (what, words) in [("asked", asked), ("derivation", words)] {
        let file = folder.join(format!("routes-{seed}-{name}.{what}"));
        told += &format!(" {}", file.display());
        files::write(&file, &words::to_bytes(words))?;
    }
    Ok(told)
}

type Differences = Vec<(usize, String)>;

/// All derivations, by as many workers as the machine has processors.
fn work(side: &impl Typing, all: &Derivations) -> Result<(Met, Differences), String> {
    let next = AtomicUsize::new(0);
    let worker = || {
        let (mut met, mut differences, mut marks) = (Met::default(), Vec::new(), Marks::default());
        loop {
            let number = next.fetch_add(1, Ordering::Relaxed);
            if number >= all.all() {
                return (met, differences);
            }
            let (trial, mut random) = all.at(number);
            let told = compare(side, &trial.derivation, &mut random, &mut marks, &mut met);
            differences.extend(told.err().map(|told| (number, told)));
        }
    };
    let workers = thread::available_parallelism().map_or(1, |count| count.get());
    thread::scope(|scope| {
        let spawn = |_| thread::Builder::new().stack_size(STACK).spawn_scoped(scope, worker);
        let spawned: Result<Vec<_>, _> = (0..workers).map(spawn).collect();
        let spawned = spawned.map_err(|error| format!("no thread for a worker: {error}"))?;
        let (mut met, mut differences) = (Met::default(), Vec::new());
        for worker in spawned {
            let (own, told) = worker.join().map_err(|_| "a worker came to grief")?;
            met.add(own);
            differences.extend(told);
        }
        Ok((met, differences))
    })
}

/// Both functions on both routes; the first difference.
fn compare(
    side: &impl Typing,
    own: &Derivation,
    random: &mut Random,
    marks: &mut Marks,
    met: &mut Met,
) -> Result<(), String> {
    met.meet(own.kind);
    let verdict = types::verdict(&own.asked, &own.words);
    let apart = types::keeps_apart(&own.asked);
    let right = packed_finding(&Ok(verdict));
    let found = packed_finding(&Ok(side.check(&own.asked, &own.words)));
    same("words", found, right, finding)?;
    met.answer("check", &verdict.to_string());
    let found = side.keeps_apart(&own.asked);
    same(
        "words",
        packed_reply(&Ok(found)),
        packed_reply(&Ok(apart)),
        tally::reply,
    )?;
    met.answer("apart", if apart { "yes" } else { "no" });

    let [mut asked, mut derivation] = [&own.asked, &own.words].map(|words| words::to_bytes(words));
    for bytes in [&mut asked, &mut derivation] {
        if random.percent(5) {
            bytes.extend(vec![1; random.between(1, 3)]);
            met.meet("odd bytes");
        }
    }
    let needed = asked.len() / 4 + derivation.len() / 4;
    let others = [
        0,
        needed.saturating_sub(1),
        needed + random.between(1, 64),
        random.below(needed + 1),
    ];
    for room in [needed, *random.pick(&others)] {
        let answer = |room: &mut [u32]| known(verdict, bytes::check(&asked, &derivation, room));
        let on_bytes = |room: &mut [u32]| side.check_bytes(&asked, &derivation, room);
        let answer = call(room, marks, answer, on_bytes, finding)?;
        met.answer("check", &finding(answer));
        met.meet(if room < needed {
            "too little room"
        } else {
            "room enough"
        });
    }
    let needed = asked.len() / 4;
    let others = [
        0,
        needed.saturating_sub(1),
        needed + random.between(1, 64),
        random.below(needed + 1),
    ];
    for room in [needed, *random.pick(&others)] {
        let answer = |room: &mut [u32]| packed_reply(&bytes::keeps_apart(&asked, room));
        let on_bytes = |room: &mut [u32]| side.apart_bytes(&asked, room);
        let answer = call(room, marks, answer, on_bytes, tally::reply)?;
        met.answer("apart", &tally::reply(answer));
    }
    Ok(())
}

/// The packed verdict; the verdict on words, which is known, may come only where bytes make the same words.
fn known(verdict: Verdict, answer: Result<Verdict, Refusal>) -> u64 {
    debug_assert!(answer.as_ref().map_or(true, |own| *own == verdict));
    packed_finding(&answer)
}

/// One call in one room: the answer, or what differs.
fn call(
    room: usize,
    marks: &mut Marks,
    right: impl Fn(&mut [u32]) -> u64,
    on_bytes: impl Fn(&mut [u32]) -> u64,
    told: fn(u64) -> String,
) -> Result<u64, String> {
    let lent = GUARD..GUARD + room;
    let mut expected = words::of_bytes(marks.first(4 * (room + 2 * GUARD))).expect("whole words");
    let mut found = expected.clone();
    let answer = right(&mut expected[lent.clone()]);
    same("bytes", on_bytes(&mut found[lent.clone()]), answer, told)?;
    match (0..found.len()).find(|at| found[*at] != expected[*at]) {
        None => Ok(answer),
        Some(at) if lent.contains(&at) => Err(format!(
            "with {room} words lent, word {} of the room is {}, the host's is {}",
            at - lent.start,
            found[at],
            expected[at]
        )),
        Some(_) => Err(format!("with {room} words lent, a word was written that was not")),
    }
}

/// A packed verdict on a derivation in words.
fn finding(packed: u64) -> String {
    match (packed & 0xff, packed >> 8 & 0xffff_ffff, packed >> 40) {
        (0, 1, 0) => String::from("safe"),
        (0, 2, 0) => String::from("another"),
        (0, 0, line) => format!("bad {line}"),
        (0, first, second) => format!("{first} and {second}, no verdict"),
        _ => tally::answer(packed),
    }
}

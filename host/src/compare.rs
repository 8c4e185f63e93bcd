//! The comparison: a program's answers held against this implementation's own, to the letter, over files of books or
//! random ones. Every difference is told, and in the end the counts by kind of answer.

use crate::files;
use crate::random;
use crate::translate;
use std::collections::BTreeMap;
use std::fs;
use std::io::Write;
use std::path::{Path, PathBuf};
use std::process::{self, Command};
use std::sync::atomic::{AtomicUsize, Ordering};
use std::thread;

/// Programs run at the same time.
const WORKERS: usize = 2;
/// Differing answers are shown up to so many letters.
const SHOWN: usize = 160;

/// What one book came to.
struct Answer {
    expected: String,
    got: String,
}

/// Compares over book files and folders of them (all `*.book`, sorted); whether nothing differs.
pub fn over(program: &str, paths: &[PathBuf], out: &mut dyn Write) -> Result<bool, String> {
    let mut books = Vec::new();
    for path in paths {
        if path.is_dir() {
            books.extend(files::ending(path, "book")?);
        } else {
            books.push(path.clone());
        }
    }
    if books.is_empty() {
        return Err("there is no book to compare over".to_string());
    }
    report(&books, &answers(program, &books)?, out)
}

/// Compares over random books, written into a folder that is removed again.
pub fn random(program: &str, seed: u64, count: usize, out: &mut dyn Write) -> Result<bool, String> {
    let folder = std::env::temp_dir().join(format!("books-{seed}-{count}-{}", process::id()));
    say(out, &format!("seed {seed}, {count} random books"))?;
    let same = random::write(seed, count, &folder).and_then(|()| over(program, std::slice::from_ref(&folder), out));
    let removed = fs::remove_dir_all(&folder);
    let same = same?;
    removed.map_err(|error| files::told(&folder, error))?;
    if !same {
        say(out, &format!("host random {seed} {count} DIR writes the same books"))?;
    }
    Ok(same)
}

/// Both answers for every book, in the books' order.
fn answers(program: &str, books: &[PathBuf]) -> Result<Vec<Answer>, String> {
    let next = AtomicUsize::new(0);
    let work = || {
        let mut own = Vec::new();
        loop {
            let number = next.fetch_add(1, Ordering::Relaxed);
            let Some(book) = books.get(number) else {
                return Ok(own);
            };
            match answer(program, book) {
                Ok(answer) => own.push((number, answer)),
                Err(error) => {
                    // The others needn't go on.
                    next.store(books.len(), Ordering::Relaxed);
                    return Err(error);
                }
            }
        }
    };
    let mut all: Vec<(usize, Answer)> = Vec::with_capacity(books.len());
    thread::scope(|scope| {
        let workers: Vec<_> = (0..WORKERS).map(|_| scope.spawn(work)).collect();
        for worker in workers {
            let own = worker.join().map_err(|_| "a worker came to grief")?;
            all.extend(own?);
        }
        Ok::<(), String>(())
    })?;
    all.sort_by_key(|(number, _)| *number);
    Ok(all.into_iter().map(|(_, answer)| answer).collect())
}

/// The program gets the file's name as its one argument; its answer is its standard output.
fn answer(program: &str, book: &Path) -> Result<Answer, String> {
    let bytes = files::bytes(book)?;
    let output = Command::new(program).arg(book).output();
    let output = output.map_err(|error| format!("{program}: {error}"))?;
    Ok(Answer {
        expected: translate::print(&bytes) + "\n",
        got: String::from_utf8_lossy(&output.stdout).into_owned(),
    })
}

/// Tells each difference, and in a last line the counts by kind of answer.
fn report(books: &[PathBuf], answers: &[Answer], out: &mut dyn Write) -> Result<bool, String> {
    let mut kinds: BTreeMap<u32, usize> = BTreeMap::new();
    let mut differences = 0;
    for (book, answer) in books.iter().zip(answers) {
        *kinds.entry(kind(&answer.expected)).or_default() += 1;
        if answer.expected != answer.got {
            differences += 1;
            let (expected, got) = (short(&answer.expected), short(&answer.got));
            let difference = format!("{}\n  expected {expected}\n  got      {got}", book.display());
            say(out, &difference)?;
        }
    }
    let told = kinds.iter().map(|(kind, count)| match kind {
        0 => format!("accepted: {count}"),
        number => format!("refused {number}: {count}"),
    });
    let told: Vec<String> = told.collect();
    let head = format!("{} books, {differences} differences", books.len());
    say(out, &format!("{head} ({})", told.join(", ")))?;
    Ok(differences == 0)
}

/// What kind of answer a line is: 0 for a listing, else the refusal's number.
pub fn kind(line: &str) -> u32 {
    let mut words = line.split_whitespace();
    match (words.next(), words.next()) {
        (Some("refused"), Some(number)) => number.parse().unwrap_or(0),
        _ => 0,
    }
}

/// A line's first letters, its end made visible.
fn short(line: &str) -> String {
    let shown: String = line.chars().take(SHOWN).collect();
    let more = if shown.len() < line.len() {
        format!(".. ({} bytes)", line.len())
    } else {
        String::new()
    };
    format!("{shown:?}{more}")
}

fn say(out: &mut dyn Write, line: &str) -> Result<(), String> {
    writeln!(out, "{line}").map_err(|error| format!("standard output: {error}"))
}

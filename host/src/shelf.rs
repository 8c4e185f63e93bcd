//! The program `shelf`: what it is run on, all books of a folder in one stream, and what it must print:
//! of each book its translation and its rehearsals under six schedules, a line for each.

use crate::book;
use crate::files;
use crate::rehearse;
use crate::translate;
use crate::words;
use std::path::Path;

/// The two files of the program's crate, and the books that are in them.
pub struct Shelf {
    /// Each book's count of words, then its words.
    pub stdin: Vec<u8>,
    pub stdout: Vec<u8>,
    pub books: usize,
    /// Files that are no words, so that the stream has no place for them.
    pub left_out: Vec<String>,
}

impl Shelf {
    /// Of the books of a folder, in the order of their names.
    pub fn of(folder: &Path) -> Result<Shelf, String> {
        let mut shelf = Shelf {
            stdin: Vec::new(),
            stdout: Vec::new(),
            books: 0,
            left_out: Vec::new(),
        };
        for file in files::ending(folder, "book")? {
            match words::of_bytes(&files::bytes(&file)?) {
                // One word more than the longest book is read, and no further.
                Ok(words) => shelf.add(&words[..words.len().min(book::READ)]),
                Err(_) => shelf.left_out.push(file.display().to_string()),
            }
        }
        Ok(shelf)
    }

    fn add(&mut self, words: &[u32]) {
        let book = words::to_bytes(words);
        self.stdin.extend(words::to_bytes(&[words.len() as u32]));
        self.stdin.extend(&book);
        let mut lines = vec![translate::print(&book)];
        for schedule in schedules(words) {
            lines.push(rehearse::print(&book, &words::to_bytes(&schedule)));
        }
        self.stdout.extend((lines.join("\n") + "\n").into_bytes());
        self.books += 1;
    }

    fn files(&self) -> [(&str, &Vec<u8>); 2] {
        [("stdin", &self.stdin), ("stdout", &self.stdout)]
    }

    /// Writes the files into the crate's folder.
    pub fn write(&self, folder: &Path) -> Result<(), String> {
        files::write_all(folder, &self.files())
    }

    /// Whether the crate's folder has these files; a line for each that it hasn't.
    pub fn check(&self, folder: &Path) -> Result<(), String> {
        files::all_current(folder, &self.files(), "the books give")
    }

    /// How many books there are, and which were left out.
    pub fn told(&self) -> String {
        let mut told = format!("{} books on the shelf", self.books);
        if !self.left_out.is_empty() {
            told += &format!(", left out: {}", self.left_out.join(", "));
        }
        told
    }
}

/// The schedules of a book: long ones, a short one, one that names a party too many in each round, one
/// with a move too many. A book that can't have so many parties as it says has schedules for one.
pub fn schedules(book: &[u32]) -> [Vec<u32>; 6] {
    let parties = parties(book);
    let on: Vec<u32> = (0..parties).collect();
    let back: Vec<u32> = on.iter().rev().copied().collect();
    let over: Vec<u32> = (0..=parties).collect();
    [
        turns(&on, 1, rehearse::MOST_MOVES),
        turns(&back, 1, rehearse::MOST_MOVES),
        turns(&on, 32, rehearse::MOST_MOVES),
        turns(&on, 1, 48),
        turns(&over, 1, 48),
        turns(&on, 1, rehearse::MOST_MOVES + 1),
    ]
}

/// The parties that a book says it has; one, if it can't have so many.
pub fn parties(book: &[u32]) -> u32 {
    match book.get(book::COUNTS[1]) {
        Some(&said @ 1..=book::MOST_PARTIES) => said,
        _ => 1,
    }
}

/// Each party of a round moves so many times in a row, round and round.
fn turns(round: &[u32], times: usize, moves: usize) -> Vec<u32> {
    let round = round.iter().flat_map(|party| vec![*party; times]);
    round.cycle().take(moves).collect()
}

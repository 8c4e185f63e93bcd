//! Random books: most well formed, about half of those playable, those with parties that make nothing among them, the
//! rest damaged at one place or another, so that every refusal of a book is met. And random questions about summaries,
//! listings to be judged, and derivations to be checked.

mod damage;
pub mod derivation;
mod listing;
mod question;
mod shape;

pub use derivation::{derivation, Derivation};
pub use listing::{lay, listing, runs, spelt, Listing, Run};
pub use question::{question, Question};

use crate::book::Book;
use crate::files;
use crate::words;
use std::fs;
use std::path::Path;

/// A small generator of pseudorandom numbers (splitmix64): the same seed, the same books.
#[derive(Clone)]
pub struct Random {
    state: u64,
}

impl Random {
    pub fn new(seed: u64) -> Random {
        Random { state: seed }
    }

    pub fn word(&mut self) -> u64 {
        self.state = self.state.wrapping_add(0x9e37_79b9_7f4a_7c15);
        let mut word = self.state;
        word = (word ^ (word >> 30)).wrapping_mul(0xbf58_476d_1ce4_e5b9);
        word = (word ^ (word >> 27)).wrapping_mul(0x94d0_49bb_1331_11eb);
        word ^ (word >> 31)
    }

    /// A number below `bound`, which isn't 0.
    pub fn below(&mut self, bound: usize) -> usize {
        (self.word() % bound as u64) as usize
    }

    /// A number from `least` to `most`.
    pub fn between(&mut self, least: usize, most: usize) -> usize {
        least + self.below(most - least + 1)
    }

    /// True in so many cases out of a hundred.
    pub fn percent(&mut self, cases: usize) -> bool {
        self.below(100) < cases
    }

    pub fn pick<'a, T>(&mut self, from: &'a [T]) -> &'a T {
        &from[self.below(from.len())]
    }
}

/// The files of random books, one after another. Each hangs on the seed and its number alone.
pub fn books(seed: u64, count: usize) -> impl Iterator<Item = Vec<u8>> {
    (0..count).map(move |number| book(&mut at(seed, number)))
}

/// The file of a random book, damaged or not.
pub fn book(random: &mut Random) -> Vec<u8> {
    if random.percent(35) {
        damage::bytes(random)
    } else {
        words::to_bytes(&shape::book(random).words())
    }
}

/// Random books that keep their rules, up to the `size` of the shapes (0 tiny to 3 full).
pub fn well_formed(seed: u64, count: usize, size: usize) -> impl Iterator<Item = Book> {
    (0..count).map(move |number| shape::book_of(&mut at(seed, number), size))
}

/// Random books that can be played, with so many rows and steps and, where there are names for them, parties.
pub fn playable(seed: u64, count: usize, rows: usize, parties: usize, steps: usize) -> impl Iterator<Item = Book> {
    (0..count).map(move |number| shape::playable_of(&mut at(seed, number), rows, parties, steps))
}

/// The generator of one book.
pub fn at(seed: u64, number: usize) -> Random {
    let start = Random::new(seed).word();
    Random::new(start ^ Random::new(number as u64).word())
}

/// Writes random books as `00000.book` and on into a folder, which is made if it isn't there.
pub fn write(seed: u64, count: usize, folder: &Path) -> Result<(), String> {
    fs::create_dir_all(folder).map_err(|error| files::told(folder, error))?;
    for (number, bytes) in books(seed, count).enumerate() {
        files::write(&folder.join(format!("{number:05}.book")), &bytes)?;
    }
    Ok(())
}

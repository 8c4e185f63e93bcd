//! Random books that keep their rules: small and full-sized, deep and wide, playable or not. Rows are drawn first,
//! then parties with what they know, then steps, by what their senders hold.

use super::Random;
use crate::book::{
    own_size, Book, Party, Row, Step, Unmade, ATOM, CIPHER, MOST_ARGUMENTS, MOST_KNOWN, MOST_MESSAGES, MOST_PARTIES,
    MOST_PARTS, MOST_POOL, MOST_ROWS, MOST_SIZE, MOST_STEPS, MOST_TAG, OPERATION, PRIVATE, PUBLIC,
};
use crate::term::Shared;
use crate::translate::Translation;
use std::collections::HashSet;

/// A book of any size and shape.
pub fn book(random: &mut Random) -> Book {
    match random.below(100) {
        0..30 => book_of(random, 0),
        30..65 => book_of(random, 1),
        65..84 => book_of(random, 2),
        84..88 => book_of(random, 3),
        88..91 => deep_halves(random),
        91..95 => deep_ciphers(random),
        _ => long_listing(random),
    }
}

/// A book of one of four sizes: 0 tiny, 1 small, 2 middling, 3 full.
pub fn book_of(random: &mut Random, size: usize) -> Book {
    let (rows, parties, steps) = match size {
        0 => (random.between(1, 12), random.between(1, 3), random.below(6)),
        1 => (random.between(5, 40), random.between(2, 5), random.between(1, 12)),
        2 => (random.between(40, 200), random.between(2, 8), random.between(8, 32)),
        _ => (MOST_ROWS as usize, MOST_PARTIES as usize, MOST_STEPS as usize),
    };
    let book = without_steps(random, rows, parties, size);
    let playable = random.percent(35);
    let most = match size {
        3 => MOST_MESSAGES as usize,
        _ => random.between(1, MOST_MESSAGES as usize),
    };
    narrate(random, book, steps, most, playable)
}

/// A book with so many rows and steps, of up to eight messages each, none of which makes what can't be made.
pub fn playable_of(random: &mut Random, rows: usize, parties: usize, steps: usize) -> Book {
    let size = if rows < 64 { 1 } else { 2 };
    let book = without_steps(random, rows, parties, size);
    narrate(random, book, steps, MOST_MESSAGES as usize, true)
}

fn without_steps(random: &mut Random, rows: usize, parties: usize, size: usize) -> Book {
    let mut table = Table::default();
    table.fill(random, rows, size);
    let parties = table.parties(random, parties);
    Book {
        rows: table.rows,
        parties,
        steps: Vec::new(),
    }
}

/// Row 0 an atom and each later row a half of the one before, down to the largest size that passes.
fn deep_halves(random: &mut Random) -> Book {
    let mut table = Table::default();
    table.push(ATOM, 0, vec![]);
    let last = random.between(900, MOST_SIZE as usize - 2);
    let mixed = random.percent(50);
    for row in 1..=last as u32 {
        let private = mixed && random.percent(50);
        table.push(if private { PRIVATE } else { PUBLIC }, 0, vec![row - 1]);
    }
    table.push(ATOM, 0, vec![]);
    table.finish(random, 6)
}

/// Ciphers in ciphers, down to the largest size that passes.
fn deep_ciphers(random: &mut Random) -> Book {
    let mut table = Table::default();
    for _ in 0..6 {
        table.push(ATOM, 0, vec![]);
    }
    let mut keys = vec![0, 1];
    for kind in [PUBLIC, PRIVATE] {
        for atom in [1, 2] {
            keys.extend(table.push(kind, 0, vec![atom]));
        }
    }
    let plain = random.percent(50);
    let mut inner = 5;
    for _ in 0..255 {
        let key = if plain { 0 } else { *random.pick(&keys) };
        let mut parts = vec![key, inner];
        if !plain && random.percent(10) {
            parts.insert(random.between(1, 2), random.below(6) as u32);
        }
        inner = table.push(CIPHER, 0, parts).unwrap_or(inner);
    }
    table.finish(random, 4)
}

/// Large terms over atoms that all know; on arrival operations are compared in full and ciphers opened all the way down:
/// the longest listings.
fn long_listing(random: &mut Random) -> Book {
    let mut table = Table::default();
    let atoms = random.between(2, 6);
    for _ in 0..atoms {
        table.push(ATOM, 0, vec![]);
    }
    for _ in 0..random.between(30, 60) {
        let parts = (0..MOST_ARGUMENTS).map(|_| random.below(table.rows.len()) as u32);
        let parts: Vec<u32> = parts.collect();
        let tag = random.below(9) as u32;
        match random.percent(50) {
            true => table.push(OPERATION, tag, parts),
            false => table.push(CIPHER, 0, parts),
        };
    }
    let known = |name: usize| Party {
        name: name as u32,
        known: (0..atoms as u32).collect(),
        makes: name == 0,
    };
    let mut book = Book {
        parties: (0..2).map(known).collect(),
        rows: table.rows,
        steps: Vec::new(),
    };
    let large: Vec<usize> = (0..book.rows.len()).filter(|row| table.sizes[*row] > 90).collect();
    // The lent words are 16,384: some listings stop short of them, some go past.
    let goal = random.between(9_000, 20_000) as u32;
    let mut words = 0;
    while words < goal && book.steps.len() < MOST_STEPS as usize && !large.is_empty() {
        let sender = random.below(2) as u32;
        let messages = (0..random.between(1, 4)).map(|_| *random.pick(&large));
        let messages: Vec<usize> = messages.collect();
        words += messages.iter().map(|row| 2 * table.sizes[*row]).sum::<u32>();
        book.steps.push(Step {
            sender,
            receiver: 1 - sender,
            messages: messages.into_iter().map(|row| row as u32).collect(),
        });
    }
    book
}

/// So many parties in a hundred make nothing; in most books none.
const IN_A_HUNDRED: [usize; 5] = [0, 0, 0, 30, 60];

/// Rows in the making, with their sizes.
#[derive(Default)]
struct Table {
    rows: Vec<Row>,
    sizes: Vec<u32>,
    seen: HashSet<Row>,
    /// Whether an atom that no party knows at the start occurs in the row.
    free: Vec<bool>,
    pool: usize,
}

impl Table {
    /// Adds a row; its number, or nothing if it would repeat one, be too large or find no room.
    fn push(&mut self, kind: u32, tag: u32, parts: Vec<u32>) -> Option<u32> {
        let of_parts = parts.iter().map(|part| self.sizes[*part as usize]);
        let size = own_size(kind) + of_parts.sum::<u32>();
        let free = parts.iter().any(|part| self.free[*part as usize]);
        let pool = self.pool + parts.len();
        let row = Row { kind, tag, parts };
        // Room is left for the parties' and the steps' lists.
        let full = self.rows.len() >= MOST_ROWS as usize || pool > MOST_POOL as usize - 3_000;
        if full || size > MOST_SIZE || (kind != ATOM && !self.seen.insert(row.clone())) {
            return None;
        }
        self.pool = pool;
        self.rows.push(row);
        self.sizes.push(size);
        self.free.push(free);
        Some(self.rows.len() as u32 - 1)
    }

    /// Fills the table up to so many rows of all kinds.
    fn fill(&mut self, random: &mut Random, rows: usize, size: usize) {
        let first_atoms = random.between(1, rows.min(if size < 2 { 6 } else { 20 }));
        let deep = random.percent(40);
        let free = random.between(10, 60);
        while self.rows.len() < rows {
            let atom = self.rows.len() < first_atoms || random.percent(12);
            let row = if atom { None } else { self.composite(random, deep) };
            // Where nothing else finds room, an atom does.
            if row.is_none() {
                self.push(ATOM, 0, vec![]);
                let named = self.rows.len() <= 1;
                *self.free.last_mut().expect("just pushed") = !named && random.percent(free);
            }
        }
    }

    fn composite(&mut self, random: &mut Random, deep: bool) -> Option<u32> {
        let part = |random: &mut Random| {
            let rows = self.rows.len();
            let from = if deep && random.percent(60) {
                rows.saturating_sub(4)
            } else {
                0
            };
            random.between(from, rows - 1) as u32
        };
        let kind = match random.below(10) {
            0..3 => OPERATION,
            3..7 => CIPHER,
            7 | 8 => PUBLIC,
            _ => PRIVATE,
        };
        let count = match kind {
            OPERATION if random.percent(15) => 0,
            OPERATION => random.between(1, 4),
            CIPHER => random.between(1, 4),
            _ => 1,
        };
        // A few as wide as they may be.
        let wide = random.percent(6);
        let count = match kind {
            OPERATION if wide => MOST_ARGUMENTS as usize,
            CIPHER if wide => MOST_PARTS as usize,
            _ => count,
        };
        let mut parts: Vec<u32> = (0..count).map(|_| part(random)).collect();
        if kind == CIPHER {
            // Keys are mostly atoms or halves: those are the ones that get shared.
            for _ in 0..4 {
                if !matches!(self.rows[parts[0] as usize].kind, ATOM | PUBLIC | PRIVATE) {
                    parts[0] = part(random);
                }
            }
        }
        let tag = match kind {
            OPERATION => *random.pick(&[0, 0, 1, 1, 2, 3, MOST_TAG]),
            _ => 0,
        };
        self.push(kind, tag, parts)
    }

    /// So many parties, or fewer where names run out; they know rows in which no free atom occurs,
    /// and seldom another.
    fn parties(&self, random: &mut Random, parties: usize) -> Vec<Party> {
        let mut names: Vec<u32> = (0..self.rows.len() as u32)
            .filter(|row| self.rows[*row as usize].kind == ATOM)
            .collect();
        let atoms = random.between(20, 90);
        let others = *random.pick(&[0, 2, 5, 15]);
        let strays = *random.pick(&[0, 0, 0, 3]);
        // Halves are often known to those who don't know what they are halves of.
        let halves = *random.pick(&[0, 10, 40]);
        let most = *random.pick(&[20, 120, MOST_KNOWN as usize]);
        let nothing = *random.pick(&IN_A_HUNDRED);
        // Room is left for the messages of all steps.
        let mut room = (MOST_POOL as usize - self.pool).saturating_sub((MOST_STEPS * MOST_MESSAGES) as usize);
        let mut all = Vec::new();
        while all.len() < parties && !names.is_empty() {
            let name = names.remove(random.below(names.len().min(30)));
            let mut knows = |row: &u32| {
                let row = *row as usize;
                random.percent(match self.rows[row].kind {
                    PUBLIC | PRIVATE => halves,
                    _ if self.free[row] => strays,
                    ATOM => atoms,
                    _ => others,
                })
            };
            let mut known: Vec<u32> = (0..self.rows.len() as u32).filter(&mut knows).collect();
            known.truncate(most.min(room));
            room -= known.len();
            let makes = !random.percent(nothing);
            all.push(Party { name, known, makes });
        }
        all
    }

    /// A book of two or three parties over these rows, in so many steps.
    fn finish(self, random: &mut Random, steps: usize) -> Book {
        let rows = self.rows.len();
        let parties = (self.rows.iter().zip(0..)).filter(|(row, _)| row.kind == ATOM).take(3);
        let nothing = *random.pick(&IN_A_HUNDRED);
        let parties: Vec<Party> = parties
            .map(|(_, name)| {
                let mut known: Vec<u32> = (0..random.below(4)).map(|_| random.below(rows) as u32).collect();
                if random.percent(50) {
                    known.extend(0..random.below(6) as u32);
                }
                known.sort_unstable();
                known.dedup();
                let makes = !random.percent(nothing);
                Party { name, known, makes }
            })
            .collect();
        let book = Book {
            rows: self.rows,
            parties,
            steps: Vec::new(),
        };
        let playable = random.percent(70);
        narrate(random, book, steps, 3, playable)
    }
}

/// Adds steps to a book without any. In a playable book no message makes what can't be made; in another
/// that is left to chance from some step on, or even looked for.
fn narrate(random: &mut Random, mut book: Book, steps: usize, most: usize, playable: bool) -> Book {
    let parties = book.parties.len();
    if parties < 2 {
        return book;
    }
    let careful = match playable {
        true => steps,
        false => random.below(steps + 1).min(random.below(steps + 1)),
    };
    let lists = (book.rows.iter().map(|row| row.parts.len())).chain(book.parties.iter().map(|party| party.known.len()));
    let mut room = (MOST_POOL as usize).saturating_sub(lists.sum());
    let mut translation = Some(Translation::start(&book));
    for number in 0..steps {
        let mut sender = random.below(parties);
        // Where care is no longer taken, those who make nothing get to speak more often.
        if number >= careful && book.parties[sender].makes {
            sender = random.below(parties);
        }
        let receiver = (sender + random.between(1, parties - 1)) % parties;
        let mut messages = Vec::new();
        let empty = random.percent(4);
        let count = if empty {
            0
        } else {
            random.between(most.div_ceil(2), most)
        };
        for _ in 0..count.min(room).min(MOST_MESSAGES as usize) {
            let row = match &translation {
                Some(translation) if number < careful => sendable(random, translation, sender as u32, receiver as u32),
                Some(translation) if random.percent(80) => beyond_its_maker(random, translation, sender as u32),
                _ => Some(random.below(book.rows.len()) as u32),
            };
            messages.extend(row);
        }
        room -= messages.len();
        let step = Step {
            sender: sender as u32,
            receiver: receiver as u32,
            messages,
        };
        // Once the book is unplayable, nothing is left to take care of.
        if translation.as_mut().is_some_and(|so_far| so_far.step(&step).is_err()) {
            translation = None;
        }
        book.steps.push(step);
    }
    book
}

/// A row the sender can send without making what can't be made, if some tries find one; often, if there
/// is one, such that the receiver opens it and finds something in it that it can't build.
fn sendable(random: &mut Random, translation: &Translation, sender: u32, receiver: u32) -> Option<u32> {
    let receiver = translation.dictionary(receiver);
    let to_open = random.percent(60);
    let mut found = None;
    for _ in 0..24 {
        let row = random.below(translation.terms.len());
        let term = &translation.terms[row];
        if translation.stops(sender, term).is_some() {
            continue;
        }
        found = Some(row as u32);
        let unknown = |content: &Shared| receiver.image(content).is_none();
        let learns = (receiver.opening(term)).is_some_and(|(_, contents)| contents.iter().any(unknown));
        if learns || !to_open {
            break;
        }
    }
    found
}

/// A row that the sender can't send because it makes nothing, if some tries find one; else any.
fn beyond_its_maker(random: &mut Random, translation: &Translation, sender: u32) -> Option<u32> {
    let mut row = random.below(translation.terms.len());
    for _ in 0..24 {
        if translation.stops(sender, &translation.terms[row]) == Some(Unmade::Maker) {
            break;
        }
        row = random.below(translation.terms.len());
    }
    Some(row as u32)
}

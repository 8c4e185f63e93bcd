//! Damaged books: each is aimed at one refusal of 1 to 9, or at nothing in particular. The damage is done to a book
//! that kept its rules, or to its words, or to the file's bytes.

use super::{shape, Random};
use crate::book::{
    Book, Layout, Row, ATOM, BOUNDS, CIPHER, COUNTS, HEADER, LONGEST, MARK, MOST_KNOWN, MOST_MESSAGES, MOST_PARTS,
    MOST_ROWS, MOST_TAG, OFFSETS, OPERATION, PARTY, PUBLIC,
};
use crate::words;

/// The file of a damaged book.
pub fn bytes(random: &mut Random) -> Vec<u8> {
    let size = *random.pick(&[0, 0, 1, 1, 1, 2]);
    let mut book = shape::book_of(random, size);
    let aim = random.below(11);
    match aim {
        5 => too_large(random, &mut book),
        6 => repeat(random, &mut book),
        _ => (),
    }
    let mut words = book.words();
    let damage = Damage::to(&book, &words);
    match aim {
        1 => words.truncate(random.below(HEADER)),
        2 => count(random, &mut words),
        3 => offset(random, &mut words),
        4 => damage.row(random, &mut words),
        7 => damage.party(random, &mut words),
        8 => damage.step(random, &mut words),
        9 => longer_pool(random, &mut words),
        _ => (),
    }
    // Any word may be wrong besides, mostly where nothing was aimed at.
    while random.percent(if aim == 0 { 60 } else { 8 }) && !words.is_empty() {
        let at = random.below(words.len());
        words[at] = odd(random, words[at]);
    }
    let mut bytes = words::to_bytes(&words);
    if random.percent(if aim == 1 || aim == 10 { 60 } else { 2 }) {
        let cut = random.between(1, 3).min(bytes.len());
        bytes.truncate(bytes.len() - cut);
    }
    bytes
}

/// A word that is wrong by one, or by far.
fn odd(random: &mut Random, word: u32) -> u32 {
    match random.below(6) {
        0 => word.wrapping_add(1),
        1 => word.wrapping_sub(1),
        2 => u32::MAX,
        3 => 0,
        4 => random.below(2_048) as u32,
        _ => random.word() as u32,
    }
}

/// Refusal 2: a count of the header just past its bound, or far past.
fn count(random: &mut Random, words: &mut [u32]) {
    let section = random.below(COUNTS.len());
    let (least, most) = BOUNDS[section];
    words[COUNTS[section]] = match random.below(4) {
        0 if least == 1 => 0,
        1 => u32::MAX,
        2 => 1 << 30,
        _ => most + 1,
    };
}

/// Refusal 3: an offset that is off, a count that doesn't fit the offsets, another length, or parties of three words.
fn offset(random: &mut Random, words: &mut Vec<u32>) {
    match random.below(7) {
        0 => {
            let at = *random.pick(&COUNTS);
            words[at] = words[at].max(1) - 1;
        }
        1 => {
            let more = random.between(1, 5);
            words.extend(vec![0; more]);
        }
        2 => {
            words.pop();
        }
        // Longer than any book, so longer than what is read.
        3 => words.resize(random.between(LONGEST, LONGEST + 10), 7),
        4 => without_marks(words),
        _ => {
            let at = *random.pick(&OFFSETS);
            words[at] = odd(random, words[at]);
        }
    }
}

/// The book as it was when a party had no mark, its offsets and all.
fn without_marks(words: &mut Vec<u32>) {
    let layout = Layout::counted(words);
    let parties = words[COUNTS[1]];
    for party in (0..parties as usize).rev() {
        words.remove(layout.party(party) + MARK);
    }
    for offset in &OFFSETS[2..] {
        words[*offset] -= parties;
    }
}

/// Refusal 5: rows that double in size, after all others; or the chain of halves that is one row
/// too long.
fn too_large(random: &mut Random, book: &mut Book) {
    if random.percent(15) {
        book.rows.truncate(1);
        for part in 0..MOST_ROWS - 1 {
            book.rows.push(Row {
                kind: PUBLIC,
                tag: 0,
                parts: vec![part],
            });
        }
        return;
    }
    let mut part = random.below(book.rows.len()) as u32;
    for _ in 0..12 {
        if book.rows.len() >= MOST_ROWS as usize {
            break;
        }
        let row = match random.percent(50) {
            true => (OPERATION, 60_000, vec![part, part]),
            false => (CIPHER, 0, vec![part, part, part]),
        };
        part = book.rows.len() as u32;
        book.rows.push(Row {
            kind: row.0,
            tag: row.1,
            parts: row.2,
        });
    }
}

/// Refusal 6: a row once more, after all others; or one that nearly is.
fn repeat(random: &mut Random, book: &mut Book) {
    let rows = book.rows.iter().filter(|row| row.kind != ATOM);
    let rows: Vec<Row> = rows.cloned().collect();
    let mut row = match rows.is_empty() {
        true => Row {
            kind: PUBLIC,
            tag: 0,
            parts: vec![0],
        },
        false => random.pick(&rows).clone(),
    };
    if rows.is_empty() {
        book.rows.push(row.clone());
    }
    if random.percent(15) {
        match row.kind {
            OPERATION => row.tag ^= 1,
            CIPHER => row.parts.reverse(),
            _ => row.kind ^= 7,
        }
    }
    book.rows.push(row);
}

/// Refusal 9: words in the pool that no list takes.
fn longer_pool(random: &mut Random, words: &mut Vec<u32>) {
    let more = random.between(1, 3);
    words[COUNTS[3]] += more as u32;
    words.extend(vec![0; more]);
}

/// What is done to one record of a book, or to its list: how many records there are, and where they stand.
struct Damage {
    rows: usize,
    parties: usize,
    steps: usize,
    at: Layout,
}

impl Damage {
    fn to(book: &Book, words: &[u32]) -> Damage {
        Damage {
            rows: book.rows.len(),
            parties: book.parties.len(),
            steps: book.steps.len(),
            at: Layout::counted(words),
        }
    }

    /// Refusal 4: a kind, tag, count, first or part that breaks the row's rule, or a short pool.
    fn row(&self, random: &mut Random, words: &mut Vec<u32>) {
        let row = random.below(self.rows);
        let at = self.at.row(row);
        match random.below(8) {
            0 => words[at] = *random.pick(&[5, 6, u32::MAX]),
            1 => words[at] = random.below(5) as u32,
            2 if words[at] == OPERATION => words[at + 1] = *random.pick(&[MOST_TAG + 1, u32::MAX]),
            2 => words[at + 1] = *random.pick(&[1, MOST_TAG]),
            3 => words[at + 2] = odd(random, words[at + 2]),
            4 => words[at + 3] = odd(random, words[at + 3]),
            5 => words[at + 3] = *random.pick(&[0, 1, 2, MOST_PARTS, MOST_PARTS + 1]),
            6 => {
                // The pool ends early, before the end of the rows' lists, or of the others'.
                let kept = random.below(words[COUNTS[3]] as usize + 1);
                words[COUNTS[3]] = kept as u32;
                words.truncate(self.at.pool + kept);
            }
            _ => {
                let (first, count) = (words[at + 2] as usize, words[at + 3] as usize);
                if count > 0 {
                    let part = self.at.pool + first + random.below(count);
                    words[part] = *random.pick(&[row as u32, row as u32 + 1, u32::MAX]);
                }
            }
        }
    }

    /// Refusal 7: a name, count, first, mark or known row that breaks the party's rule.
    fn party(&self, random: &mut Random, words: &mut [u32]) {
        let party = random.below(self.parties);
        let at = self.at.party(party);
        let (first, count) = (words[at + 1] as usize, words[at + 2] as usize);
        match random.below(7) {
            0 => words[at] = *random.pick(&[self.rows as u32, u32::MAX]),
            1 => words[at] = random.below(self.rows) as u32,
            2 if party > 0 => words[at] = words[at - PARTY],
            3 => words[at + 1] = odd(random, words[at + 1]),
            4 => words[at + 2] = *random.pick(&[MOST_KNOWN + 1, count as u32 + 1, u32::MAX]),
            5 => words[at + MARK] = *random.pick(&[2, 256, 1 << 16, 1 << 31, u32::MAX]),
            _ if count > 1 => {
                let known = self.at.pool + first + random.below(count - 1);
                match random.percent(50) {
                    true => words[known + 1] = words[known],
                    false => words.swap(known, known + 1),
                }
            }
            _ if count > 0 => words[self.at.pool + first + count - 1] = self.rows as u32,
            _ => words[at + 2] = MOST_KNOWN + 1,
        }
    }

    /// Refusal 8: a sender, receiver, count, first or message that breaks the step's rule.
    fn step(&self, random: &mut Random, words: &mut [u32]) {
        if self.steps == 0 {
            return;
        }
        let step = random.below(self.steps);
        let at = self.at.step(step);
        let (first, count) = (words[at + 2] as usize, words[at + 3] as usize);
        let wrong = [self.parties as u32, u32::MAX];
        match random.below(7) {
            0 => words[at] = words[at + 1],
            1 => words[at] = *random.pick(&wrong),
            2 => words[at + 1] = *random.pick(&wrong),
            3 => words[at + 2] = odd(random, words[at + 2]),
            4 => words[at + 3] = *random.pick(&[MOST_MESSAGES + 1, count as u32 + 1, u32::MAX]),
            _ if count > 0 => {
                let message = self.at.pool + first + random.below(count);
                words[message] = *random.pick(&[self.rows as u32, u32::MAX]);
            }
            _ => words[at + 3] = MOST_MESSAGES + 1,
        }
    }
}

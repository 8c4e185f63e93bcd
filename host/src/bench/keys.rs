//! Books for the hunt of refusal 6, in which rows are told apart by a key first: rows whose keys are all equal, and rows
//! whose keys all differ. They have one party and no steps, so that hardly anything but the hunt takes time.

use super::cases::{atoms, parties, Case, Group};
use crate::book::{own_size, Book, Row, MOST_ROWS, MOST_SIZE, OPERATION};
use crate::random::{self, Random};
use std::collections::HashSet;

/// What a digit of the key is worth against the next.
const BASE: u32 = 33;
/// Books of each size.
const BOOKS: usize = 12;
const SEED: u64 = 6;

/// The key of a row: over kind, tag and parts in their order, wrapping around.
fn key(row: &Row) -> u32 {
    let words = [row.kind, row.tag].into_iter().chain(row.parts.iter().copied());
    words.fold(0, |key: u32, word| key.wrapping_mul(BASE).wrapping_add(word))
}

/// A full book: 35 atoms, and rows that all have one key. From a row over the second atom alone, one less of its tag or
/// of one part makes up for `BASE` more of the part behind it.
pub fn equal() -> Book {
    let mut rows = atoms(BASE + 2);
    let mut sizes: Vec<u32> = vec![2; rows.len()];
    let first = Row {
        kind: OPERATION,
        tag: 1,
        parts: vec![1; 8],
    };
    let mut seen = HashSet::new();
    let mut found = vec![first];
    while let Some(row) = found.pop() {
        let before = |part: &u32| (*part as usize) < rows.len();
        if rows.len() == MOST_ROWS as usize || !row.parts.iter().all(before) || seen.contains(&row) {
            continue;
        }
        let size = own_size(row.kind) + row.parts.iter().map(|part| sizes[*part as usize]).sum::<u32>();
        if size > MOST_SIZE {
            continue;
        }
        // The last is the next: what differs late is found first.
        found.extend((0..row.parts.len()).filter_map(|part| moved(&row, part)));
        seen.insert(row.clone());
        sizes.push(size);
        rows.push(row);
    }
    Book {
        rows,
        parties: parties(1, &[]),
        steps: Vec::new(),
    }
}

/// The row with one less of what is before a part and `BASE` more of the part: another row of the same key.
fn moved(row: &Row, part: usize) -> Option<Row> {
    let mut row = row.clone();
    let before = match part {
        0 => &mut row.tag,
        _ => &mut row.parts[part - 1],
    };
    *before = before.checked_sub(1)?;
    row.parts[part] += BASE;
    Some(row)
}

/// Books of rows whose keys all differ, growing: the rows' number, and the books.
pub fn growth() -> Vec<(usize, Group)> {
    let sizes = [128, 256, 512, MOST_ROWS as usize];
    let grown = sizes.map(|rows| {
        let cases = (0..BOOKS).map(|number| Case {
            name: format!("{rows} rows, hunt {number}"),
            words: different(&mut random::at(SEED, number), rows).words(),
        });
        let name = format!("{rows} rows");
        let cases = cases.collect();
        (rows, Group { name, cases })
    });
    grown.into_iter().collect()
}

/// A quarter atoms, then random operations over them with two to eight arguments.
fn different(random: &mut Random, count: usize) -> Book {
    let mut rows = atoms(count as u32 / 4);
    let atoms = rows.len();
    let mut keys = HashSet::new();
    while rows.len() < count {
        let parts = (0..random.between(2, 8)).map(|_| random.below(atoms) as u32);
        let row = Row {
            kind: OPERATION,
            tag: 0,
            parts: parts.collect(),
        };
        if keys.insert(key(&row)) {
            rows.push(row);
        }
    }
    Book {
        rows,
        parties: parties(1, &[]),
        steps: Vec::new(),
    }
}

#[cfg(test)]
mod tests {
    use super::*;
    use crate::book::{self, ATOM, MOST_POOL};
    use crate::narration::narrate;

    /// The keys of the rows that are compared.
    fn keys(book: &Book) -> Vec<u32> {
        book.rows.iter().filter(|row| row.kind != ATOM).map(key).collect()
    }

    #[test]
    fn keys_as_worked_out() {
        let row = |parts: &[u32]| Row {
            kind: OPERATION,
            tag: 2,
            parts: parts.to_vec(),
        };
        assert_eq!(key(&row(&[])), 35);
        assert_eq!(key(&row(&[7])), 1_162);
        assert_eq!(key(&row(&[7, 40])), key(&row(&[8, 7])));
        assert_eq!(key(&row(&[0; 8])), 0xed03_7323);
    }

    #[test]
    fn all_keys_are_equal() {
        let book = equal();
        let keys = keys(&book);
        assert_eq!((book.rows.len(), keys.len()), (1_024, 989));
        assert!(keys.iter().all(|key| *key == keys[0]));
        assert!(book.words()[6] <= MOST_POOL);
        // No row repeats another.
        assert_eq!(book::read(&book.words()), Ok(book));
    }

    /// The trials of rows that differ: in one book two rows share a key, twice, in the other none.
    #[test]
    fn the_trials_have_the_keys_they_say() {
        let keyed = |text: &str| keys(&narrate(text).expect("a narration"));
        let equal = keyed(include_str!("../../../books/trial-equal-keys.narration"));
        assert_eq!((equal.len(), equal[0], equal[2]), (4, equal[1], equal[3]));
        let permuted = keyed(include_str!("../../../books/trial-permuted-parts.narration"));
        assert_eq!((permuted.len(), HashSet::<u32>::from_iter(permuted).len()), (8, 8));
    }

    #[test]
    fn all_keys_differ() {
        for (rows, group) in growth() {
            assert_eq!(group.cases.len(), BOOKS);
            for case in group.cases {
                let book = book::read(&case.words).expect("it keeps the rules");
                let keys = keys(&book);
                assert_eq!((book.rows.len(), keys.len()), (rows, rows - rows / 4));
                assert_eq!(HashSet::<u32>::from_iter(keys).len(), rows - rows / 4, "{}", case.name);
            }
        }
    }
}

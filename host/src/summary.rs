//! Who knew what, when (document 02, request 4): the summary of a book, and questions that are answered from a summary
//! alone (refusals 20 and 21). Beside them stands the answer of the full walk, which makes no summary.

use crate::book::{self, Book, Refusal};
use crate::translate::{self, Source, Translation};

/// The words before the first party's: Q, T and L.
pub const HEAD: usize = 3;

/// The word of a row that is given at the start.
pub const START: u32 = 0;

/// Writes a book's summary into `out`: its length, 3+QT, or the book's refusal, or refusal 12. A refusal leaves all of
/// `out` as it was, an acceptance the words past the length.
pub fn write(words: &[u32], out: &mut [u32]) -> Result<usize, Refusal> {
    translate::lend(&of(&book::read(words)?)?, out)
}

/// The summary of a book that keeps its rules, or the refusal where the walk stops: "Q, T, L, then for each party and row
/// 0 if given at the start, s+1 if first in the dictionary after step s, L+1 if never". How the row is known tells it.
pub fn of(book: &Book) -> Result<Vec<u32>, Refusal> {
    let walk = Translation::whole(book)?;
    let [parties, rows, steps] = counts(book);
    let word = |source: Option<Source>| match source {
        Some(Source::Given) => START,
        Some(Source::Made { step } | Source::Stored { step, .. }) => step + 1,
        None => steps + 1,
    };
    let mut words = vec![parties, rows, steps];
    for party in 0..parties {
        words.extend((0..rows).map(|row| word(walk.source(party, row))));
    }
    Ok(words)
}

fn counts(book: &Book) -> [u32; HEAD] {
    [book.parties.len(), book.rows.len(), book.steps.len()].map(|count| count as u32)
}

/// Whether the party held the row after the step, "answered from the summary alone: yes exactly if the word is at most
/// t+1". Any words may be handed in: 20 if they have no summary's length, then 21 if a number is out of range.
pub fn ask(summary: &[u32], party: u32, row: u32, step: u32) -> Result<bool, Refusal> {
    let length = u32::try_from(summary.len()).unwrap_or(u32::MAX);
    let wrong = Refusal::new(20, &[length]);
    let &[parties, rows, steps, ref words @ ..] = summary else {
        return Err(wrong);
    };
    // Two words' product is no more than 64 bits.
    if words.len() as u64 != u64::from(parties) * u64::from(rows) {
        return Err(wrong);
    }
    in_range([(party, parties), (row, rows), (step, steps)])?;
    let at = party as usize * rows as usize + row as usize;
    Ok(words[at] <= step + 1)
}

/// Refusal 21, with the first of party, row and step that is out of range: each has to be below its count.
fn in_range(numbers: [(u32, u32); 3]) -> Result<(), Refusal> {
    match numbers.into_iter().find(|(number, count)| number >= count) {
        Some((number, _)) => Err(Refusal::new(21, &[number])),
        None => Ok(()),
    }
}

/// The answer of the full walk: whether the party's dictionary has the row once the steps up to this one are done. A
/// book that can't be played has none, whatever is asked.
pub fn held_after(book: &Book, party: u32, row: u32, step: u32) -> Result<bool, Refusal> {
    translate::programs(book)?;
    let [parties, rows, steps] = counts(book);
    in_range([(party, parties), (row, rows), (step, steps)])?;
    let mut walk = Translation::start(book);
    for done in &book.steps[..=step as usize] {
        walk.step(done)?;
    }
    Ok(walk.source(party, row).is_some())
}

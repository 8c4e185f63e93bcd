//! What is not proved guards itself: each of these compares a thing with what it was made from, in another way than it was
//! made. A guard that breaks ends the command with status 70.

mod source;

pub use source::plain;

use crate::failure::Failure;
use crate::listing::{self, Program};
use crate::subject::{to_bytes, to_words, Subject};
use narration::book::Book;
use std::collections::BTreeSet;

/// The book printed back with names is the source's terms: what the book's bytes say of each party and step is what its line
/// says, read here by itself, and its rows are the terms of the text with their parts, each once.
pub fn source(text: &str, subject: &Subject) -> Result<(), Failure> {
    let broken = |what: String| Err(Failure::guard(format!("{}: {what}", subject.name)));
    let book = book(&subject.name, &subject.bytes)?;
    let Some(source) = source::read(text) else {
        return broken("the text is not what was read of it".to_string());
    };
    let terms = subject.names.texts(&book);
    let mut lines = source.lines.into_iter();
    for printed in printed(&book, &terms) {
        let written = lines.next().unwrap_or_default();
        if written != printed {
            return broken(format!("`{written}` became `{printed}`"));
        }
    }
    if let Some(lost) = lines.next() {
        return broken(format!("`{lost}` was lost"));
    }
    let rows: BTreeSet<&String> = terms.iter().collect();
    if rows.len() < terms.len() || !rows.into_iter().eq(&source.terms) || terms != subject.terms {
        return broken("the book's rows are not the terms of the text".to_string());
    }
    Ok(())
}

/// The book of these bytes, which the proved reader accepts, is written back to the same bytes.
pub fn book(name: &str, bytes: &[u8]) -> Result<Book, Failure> {
    let book = Book::of(&to_words(bytes)).filter(|book| to_bytes(&book.words()) == bytes);
    book.ok_or_else(|| Failure::guard(format!("{name}: the book is not what was read of it")))
}

/// A line for each party and each step of a book.
fn printed<'b>(book: &'b Book, terms: &'b [String]) -> impl Iterator<Item = String> + 'b {
    let list = |rows: &[u32]| -> Vec<String> { rows.iter().map(|row| terms[*row as usize].clone()).collect() };
    let name = |party: u32| &terms[book.parties[party as usize].name as usize];
    let parties =
        (book.parties.iter()).map(move |own| source::party(&terms[own.name as usize], own.makes, list(&own.known)));
    let steps =
        (book.steps.iter()).map(move |own| source::step(name(own.sender), name(own.receiver), &list(&own.messages)));
    parties.chain(steps)
}

/// A book that is written as a narration is the book of that narration.
pub fn narration(subject: &Subject, text: &str) -> Result<(), Failure> {
    let read = narration::narrate(text).map(|narration| to_bytes(&narration.book.words()));
    match read.is_ok_and(|bytes| bytes == subject.bytes) {
        true => Ok(()),
        false => Err(Failure::guard(format!(
            "{}: the narration that is written of this book gives another one",
            subject.name
        ))),
    }
}

/// The listing decoded and encoded again is the same words.
pub fn listing(words: &[u32]) -> Result<Vec<Program>, Failure> {
    let programs = listing::decode(words).filter(|programs| listing::encode(programs) == words);
    programs.ok_or_else(|| Failure::guard("the listing is not what was read of it"))
}

/// A move is the difference of two proved rehearsals: at most one party has done one event more.
pub fn moved(before: &[u32], after: &[u32], party: u32) -> Result<bool, Failure> {
    let same = |at: usize| at == party as usize || before[at] == after[at];
    let own = (before[party as usize], after[party as usize]);
    if before.len() != after.len() || !(0..before.len()).all(same) || own.1 < own.0 || own.1 > own.0 + 1 {
        return Err(Failure::guard("a move did more than one event of its party"));
    }
    Ok(own.1 > own.0)
}

#[cfg(test)]
mod tests {
    use super::*;

    #[test]
    fn an_altered_word_is_told() {
        let words = [1, 3, 2, 6, 0];
        assert!(listing(&words).is_ok());
        for at in 0..words.len() {
            let mut other = words;
            other[at] ^= 1;
            assert_eq!(listing(&other).map_err(|failure| failure.status), Err(70), "word {at}");
        }
    }

    #[test]
    fn a_move_of_another_is_told() {
        assert_eq!(moved(&[1, 2], &[1, 2], 0), Ok(false));
        assert_eq!(moved(&[1, 2], &[2, 2], 0), Ok(true));
        for after in [[3, 2], [0, 2], [2, 3], [1, 3]] {
            assert_eq!(moved(&[1, 2], &after, 0).map_err(|failure| failure.status), Err(70));
        }
    }
}

//! The book of a narration text, by the package `narration`.

pub use ::narration::Mistake;

use crate::book::Book;

/// The book of a text, or the first mistake in it. A book given here passes refusals 1 to 9.
pub fn narrate(text: &str) -> Result<Book, Mistake> {
    let narrated = ::narration::narrate(text).map(|narration| narration.book);
    narrated.map_err(|mistakes| {
        mistakes
            .into_iter()
            .next()
            .expect("where there is no book there is a mistake")
    })
}

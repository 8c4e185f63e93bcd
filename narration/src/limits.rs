//! The bounds of a book as far as a text can break them, those of lists as lengths.
//! Each is the book's own (`book.rs`), but that of a name; what a text can't break has none here.

use super::book;

pub const ROWS: usize = book::MOST_ROWS as usize;
pub const PARTIES: usize = book::MOST_PARTIES as usize;
pub const STEPS: usize = book::MOST_STEPS as usize;
pub const POOL: usize = book::MOST_POOL as usize;
pub const SIZE: u32 = book::MOST_SIZE;
pub const KNOWN: usize = book::MOST_KNOWN as usize;
/// The letters of a name. A book has no names: it is so that a text's terms, printed, fit any machine.
pub const NAME: usize = 255;
/// Arguments of an operation, contents of a cipher, messages of a step.
pub const LIST: usize = book::MOST_MESSAGES as usize;

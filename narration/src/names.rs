//! What a text calls the atoms and operations of its book, and a book's terms written with names.

use super::book::{Book, Row, ATOM, CIPHER, OPERATION, PUBLIC};
use std::collections::BTreeMap;

/// The names of a text. A book alone has none: [`Names::made_up`].
#[derive(Clone, PartialEq, Eq, Debug)]
pub struct Names {
    /// The name of each row that is an atom of the text.
    pub atoms: Vec<Option<String>>,
    /// The names of operations by their tags.
    pub operations: BTreeMap<u32, String>,
}

impl Names {
    /// A party's name is a letter from A on, any other atom n and its row, an operation op and its tag: whatever the book,
    /// no two of these agree, and none is a placeholder's x and number.
    pub fn made_up(book: &Book) -> Names {
        let name = |(number, row): (usize, &Row)| {
            let party = book.parties.iter().position(|party| party.name as usize == number);
            match (row.kind, party) {
                (ATOM, Some(party)) => Some(char::from(b'A' + party as u8).to_string()),
                (ATOM, None) => Some(format!("n{number}")),
                _ => None,
            }
        };
        let operations = book.rows.iter().filter(|row| row.kind == OPERATION);
        Names {
            atoms: book.rows.iter().enumerate().map(name).collect(),
            operations: operations.map(|row| (row.tag, format!("op{}", row.tag))).collect(),
        }
    }

    pub fn operation(&self, tag: u32) -> String {
        self.operations.get(&tag).cloned().unwrap_or_else(|| format!("op{tag}"))
    }

    /// The text of each row. None is asked for before its parts, so nothing recurses.
    pub fn texts(&self, book: &Book) -> Vec<String> {
        let mut texts: Vec<String> = Vec::with_capacity(book.rows.len());
        for (number, row) in book.rows.iter().enumerate() {
            let text = match row.kind {
                ATOM => self.atoms[number].clone().unwrap_or_else(|| format!("n{number}")),
                _ => self.over_parts(row, &book.rows, &texts),
            };
            texts.push(text);
        }
        texts
    }

    /// The text of a row from its parts' texts. A half's sign would go to a cipher's key, so a cipher under a half stands in
    /// parentheses; nothing else needs them.
    fn over_parts(&self, row: &Row, rows: &[Row], texts: &[String]) -> String {
        let list = |parts: &[u32]| {
            let texts: Vec<&str> = parts.iter().map(|part| &texts[*part as usize][..]).collect();
            texts.join(", ")
        };
        let part = row.parts.first().map_or(0, |part| *part as usize);
        let half = |sign: char| match rows[part].kind {
            CIPHER => format!("({}){sign}", texts[part]),
            _ => format!("{}{sign}", texts[part]),
        };
        match row.kind {
            OPERATION => format!("{}({})", self.operation(row.tag), list(&row.parts)),
            CIPHER => format!("{{{}}}{}", list(&row.parts[1..]), texts[part]),
            PUBLIC => half('+'),
            _ => half('-'),
        }
    }
}

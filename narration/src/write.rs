//! A book written as a narration. With made-up names it narrates to the very same book: an operation that is called
//! otherwise gets its tag from the order of the text, which may be another one than it had.

use super::book::{Book, Party, Row, Step};
use super::names::Names;

/// Where a `rows` line ends that could take one more term.
const WIDTH: usize = 80;

/// The parties, and behind an empty line the steps. Where the table has another order than these give it, or rows that
/// nothing uses, `rows` lines come first and enter all of them.
pub fn write(book: &Book, names: &Names) -> String {
    let terms = names.texts(book);
    let mut out = String::new();
    if !canonical(book) {
        rows_lines(&terms, &mut out);
        out.push('\n');
    }
    for party in &book.parties {
        party_line(party, &terms, &mut out);
    }
    if !book.steps.is_empty() {
        out.push('\n');
    }
    for step in &book.steps {
        step_line(step, book, &terms, &mut out);
    }
    out
}

/// Every row in table order: none comes before its parts, so each gets its own number again.
fn rows_lines(terms: &[String], out: &mut String) {
    let mut line = String::new();
    for term in terms {
        if line.is_empty() {
            line.push_str("rows ");
        } else if line.len() + term.len() + 2 <= WIDTH {
            line.push_str(", ");
        } else {
            out.push_str(&line);
            out.push('\n');
            line.clear();
            line.push_str("rows ");
        }
        line.push_str(term);
    }
    out.push_str(&line);
    out.push('\n');
}

fn party_line(party: &Party, terms: &[String], out: &mut String) {
    out.push_str("party ");
    out.push_str(&terms[party.name as usize]);
    if !party.makes {
        out.push_str(" makes nothing");
    }
    if !party.known.is_empty() {
        out.push_str(" knows ");
        list(&party.known, terms, out);
    }
    out.push('\n');
}

fn step_line(step: &Step, book: &Book, terms: &[String], out: &mut String) {
    let name = |party: u32| &terms[book.parties[party as usize].name as usize];
    out.push_str(&format!("{} -> {}:", name(step.sender), name(step.receiver)));
    if !step.messages.is_empty() {
        out.push(' ');
        list(&step.messages, terms, out);
    }
    out.push('\n');
}

fn list(rows: &[u32], terms: &[String], out: &mut String) {
    for (n, row) in rows.iter().enumerate() {
        out.push_str(if n == 0 { "" } else { ", " });
        out.push_str(&terms[*row as usize]);
    }
}

/// Whether a narration without a `rows` line gives the book's table. Goes through the book as a narration is read: every
/// row has to be met, each as the next one.
fn canonical(book: &Book) -> bool {
    let mut next = 0;
    let mut enter = |row: u32| enter(&book.rows, row, &mut next);
    let parties = (book.parties.iter()).all(|party| enter(party.name) && party.known.iter().all(|row| enter(*row)));
    let steps = (book.steps.iter()).all(|step| step.messages.iter().all(|row| enter(*row)));
    parties && steps && next as usize == book.rows.len()
}

/// As long as the answer is yes, exactly the rows before `next` have been met.
fn enter(rows: &[Row], row: u32, next: &mut u32) -> bool {
    if row < *next {
        return true;
    }
    let parts = &rows[row as usize].parts;
    if !parts.iter().all(|part| enter(rows, *part, next)) {
        return false;
    }
    let met = row == *next;
    *next += u32::from(met);
    met
}

//! The book: its words, its rules and the refusals 1 to 9 (document 01, "The book", "The refusals and their order"), with
//! the fourth word of a party (document 02, request 5).
//! `read` gives the book of any words, or the first refusal that applies. What a book is, its bounds and how it is written
//! stand in the package `narration`.

pub use ::narration::book::*;

use crate::term::{Fold, Form, Shared, Term};
use std::collections::HashSet;
use std::fmt;
use std::hash::BuildHasherDefault;

/// The words that a program reads: "one word more than the longest book", and no further.
pub const READ: usize = LONGEST + 1;

/// A refusal: its number in the papers' table, and its place (two numbers where a walk stops: step and row).
#[derive(Clone, PartialEq, Eq, Debug)]
pub struct Refusal {
    pub number: u32,
    pub place: Vec<u32>,
}

impl Refusal {
    pub fn new(number: u32, place: &[u32]) -> Refusal {
        Refusal {
            number,
            place: place.to_vec(),
        }
    }
}

/// Where the walk through a book's steps stops: the first atom that can't be made, and why.
#[derive(Clone, Copy, PartialEq, Eq, Debug)]
pub struct Stop {
    pub why: Unmade,
    pub step: u32,
    pub row: u32,
}

/// Why an atom can't be made.
#[derive(Clone, Copy, PartialEq, Eq, Debug)]
pub enum Unmade {
    /// "Making a taken atom is refusal 10."
    Taken,
    /// Refusal 13: "a party marked 0 would have to make an atom".
    Maker,
}

impl From<Stop> for Refusal {
    fn from(stop: Stop) -> Refusal {
        let number = match stop.why {
            Unmade::Taken => 10,
            Unmade::Maker => 13,
        };
        Refusal::new(number, &[stop.step, stop.row])
    }
}

impl fmt::Display for Refusal {
    /// "A refusal as the word "refused", its number and its place, all in decimal on one line with
    /// single spaces."
    fn fmt(&self, out: &mut fmt::Formatter<'_>) -> fmt::Result {
        write!(out, "refused {}", self.number)?;
        self.place.iter().try_for_each(|word| write!(out, " {word}"))
    }
}

/// The terms that a book's rows stand for.
pub trait Terms {
    /// The term of a row, in a book that keeps the rows' rules (parts stand before their row).
    fn term(&self, row: u32) -> Term;

    /// The terms of all rows, each sharing its parts with the rows they are.
    fn shared(&self) -> Vec<Shared>;
}

impl Terms for Book {
    fn term(&self, row: u32) -> Term {
        let own = &self.rows[row as usize];
        let mut parts = own.parts.iter().map(|part| self.term(*part));
        let mut part = || Box::new(parts.next().expect("a cipher has a key, a half has a part"));
        match own.kind {
            ATOM => Term::Atom(row),
            OPERATION => Term::Operation(own.tag, parts.collect()),
            CIPHER => Term::Cipher(part(), parts.collect()),
            PUBLIC => Term::Public(part()),
            _ => Term::Private(part()),
        }
    }

    fn shared(&self) -> Vec<Shared> {
        let mut terms: Vec<Shared> = Vec::with_capacity(self.rows.len());
        for (number, row) in self.rows.iter().enumerate() {
            let part = |at: usize| terms[row.parts[at] as usize].clone();
            let parts = |from: usize| (from..row.parts.len()).map(part).collect();
            let form = match row.kind {
                ATOM => Form::Atom(number as u32),
                OPERATION => Form::Operation(row.tag, parts(0)),
                CIPHER => Form::Cipher(part(0), parts(1)),
                PUBLIC => Form::Public(part(0)),
                _ => Form::Private(part(0)),
            };
            terms.push(Shared::new(form));
        }
        terms
    }
}

/// Reads a book from any words, or gives the first refusal of 1 to 9 that applies.
pub fn read(words: &[u32]) -> Result<Book, Refusal> {
    let sections = header(words)?;
    let mut pool = Pool {
        words: sections.pool,
        read: 0,
    };
    let rows = rows(sections.rows, &mut pool)?;
    sizes(&rows)?;
    repeats(&rows)?;
    let parties = parties(sections.parties, &rows, &mut pool)?;
    let steps = steps(sections.steps, rows.len(), parties.len(), &mut pool)?;
    // "The sum of all counts is W."
    if pool.read != pool.words.len() {
        return Err(Refusal::new(9, &[0]));
    }
    Ok(Book { rows, parties, steps })
}

/// Refusals 1 to 3.
fn header(words: &[u32]) -> Result<Sections<'_>, Refusal> {
    if words.len() < HEADER {
        return Err(Refusal::new(1, &[0]));
    }
    for (word, (least, most)) in COUNTS.into_iter().zip(BOUNDS) {
        if !(least..=most).contains(&words[word]) {
            return Err(Refusal::new(2, &[word as u32]));
        }
    }
    let layout = Layout::counted(words);
    for (word, offset) in OFFSETS.into_iter().zip(layout.offsets()) {
        if words[word] as usize != offset {
            return Err(Refusal::new(3, &[word as u32]));
        }
    }
    // "Smallest header word, or 8 for the length": the place behind the header.
    if words.len() != layout.end {
        return Err(Refusal::new(3, &[HEADER as u32]));
    }
    Ok(Sections::of(words))
}

/// The pool, and how many of its words the lists so far have taken.
struct Pool<'w> {
    words: &'w [u32],
    read: usize,
}

impl<'w> Pool<'w> {
    /// The next list, if its first is the sum of the counts before it, its count at most `most`
    /// and all of it in the pool.
    fn list(&mut self, first: u32, count: u32, most: u32) -> Option<&'w [u32]> {
        if first as usize != self.read || count > most {
            return None;
        }
        let end = self.read + count as usize;
        let list = self.words.get(self.read..end)?;
        self.read = end;
        Some(list)
    }
}

/// Refusal 4: the smallest row that breaks its rule.
fn rows(section: &[u32], pool: &mut Pool) -> Result<Vec<Row>, Refusal> {
    let mut rows = Vec::with_capacity(section.len() / ROW);
    for (number, words) in section.chunks_exact(ROW).enumerate() {
        let row = row(number as u32, words, pool);
        rows.push(row.ok_or_else(|| Refusal::new(4, &[number as u32]))?);
    }
    Ok(rows)
}

fn row(number: u32, words: &[u32], pool: &mut Pool) -> Option<Row> {
    let [kind, tag, first, count] = words.try_into().ok()?;
    let (least, most) = parts(kind)?;
    // "Tag is 0 to 65,535 for kind 1 and 0 for all others."
    if count < least || tag > if kind == OPERATION { MOST_TAG } else { 0 } {
        return None;
    }
    let parts = pool.list(first, count, most)?;
    // "A row's parts are rows before it."
    parts.iter().all(|part| *part < number).then(|| Row {
        kind,
        tag,
        parts: parts.to_vec(),
    })
}

/// Refusal 5. The first size over the bound ends it, so a sum has no more sizes than a row has parts, all within the bound.
fn sizes(rows: &[Row]) -> Result<(), Refusal> {
    let mut sizes: Vec<u32> = Vec::with_capacity(rows.len());
    for (number, row) in rows.iter().enumerate() {
        let parts = row.parts.iter().map(|part| sizes[*part as usize]);
        let size = own_size(row.kind) + parts.sum::<u32>();
        if size > MOST_SIZE {
            return Err(Refusal::new(5, &[number as u32]));
        }
        sizes.push(size);
    }
    Ok(())
}

/// Refusal 6: "Two rows that aren't atoms never agree in kind, tag and parts."
fn repeats(rows: &[Row]) -> Result<(), Refusal> {
    let hasher = BuildHasherDefault::<Fold>::default();
    let mut earlier = HashSet::with_capacity_and_hasher(rows.len(), hasher);
    for (number, row) in rows.iter().enumerate() {
        if row.kind != ATOM && !earlier.insert(row) {
            return Err(Refusal::new(6, &[number as u32]));
        }
    }
    Ok(())
}

/// Refusal 7: the smallest party that breaks its rule.
fn parties(section: &[u32], rows: &[Row], pool: &mut Pool) -> Result<Vec<Party>, Refusal> {
    let mut parties: Vec<Party> = Vec::with_capacity(section.len() / PARTY);
    for (number, words) in section.chunks_exact(PARTY).enumerate() {
        let party = party(words, rows, &parties, pool);
        parties.push(party.ok_or_else(|| Refusal::new(7, &[number as u32]))?);
    }
    Ok(parties)
}

fn party(words: &[u32], rows: &[Row], earlier: &[Party], pool: &mut Pool) -> Option<Party> {
    let [name, first, count, mark] = words.try_into().ok()?;
    // "The name is an atom's row; a party that repeats an earlier party's name breaks the rule."
    if rows.get(name as usize)?.kind != ATOM || earlier.iter().any(|other| other.name == name) {
        return None;
    }
    let known = pool.list(first, count, MOST_KNOWN)?;
    // "The known rows stand in strictly increasing order": the last is the largest.
    let in_order = known.windows(2).all(|pair| pair[0] < pair[1]);
    let in_range = known.last().is_none_or(|row| (*row as usize) < rows.len());
    let makes = may_make(mark)?;
    (in_order && in_range).then(|| Party {
        name,
        known: known.to_vec(),
        makes,
    })
}

/// What a party's mark says: "1 may make, 0 may not; anything else is refusal 7".
fn may_make(mark: u32) -> Option<bool> {
    match mark {
        0 => Some(false),
        1 => Some(true),
        _ => None,
    }
}

/// Refusal 8: the smallest step that breaks its rule.
fn steps(section: &[u32], t: usize, q: usize, pool: &mut Pool) -> Result<Vec<Step>, Refusal> {
    let mut steps = Vec::with_capacity(section.len() / STEP);
    for (number, words) in section.chunks_exact(STEP).enumerate() {
        let step = step(words, t, q, pool);
        steps.push(step.ok_or_else(|| Refusal::new(8, &[number as u32]))?);
    }
    Ok(steps)
}

fn step(words: &[u32], t: usize, q: usize, pool: &mut Pool) -> Option<Step> {
    let [sender, receiver, first, count] = words.try_into().ok()?;
    // "Two different party numbers; 0 to 8 messages."
    if sender == receiver || sender as usize >= q || receiver as usize >= q {
        return None;
    }
    let messages = pool.list(first, count, MOST_MESSAGES)?;
    let in_range = messages.iter().all(|row| (*row as usize) < t);
    in_range.then(|| Step {
        sender,
        receiver,
        messages: messages.to_vec(),
    })
}

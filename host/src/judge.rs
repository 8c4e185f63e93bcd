//! The judge of another tool's listing (document 02, request 7): whether a one-to-one renaming of its placeholders turns
//! one party's part into ours, and if not, the smallest word at which none can. Along our own events the
//! renaming is built as a map, and tried on each of their words.

use crate::book::{self, Refusal};
use crate::translate::{self, Program, Slot};
use std::collections::{HashMap, HashSet};
use std::fmt;

/// What is said of a listing.
#[derive(Clone, Copy, PartialEq, Eq, Debug)]
pub enum Verdict {
    Same,
    /// "The smallest word at which no renaming can agree, or the shorter length."
    Differs(usize),
}

impl fmt::Display for Verdict {
    fn fmt(&self, out: &mut fmt::Formatter<'_>) -> fmt::Result {
        match self {
            Verdict::Same => out.write_str("same"),
            Verdict::Differs(place) => write!(out, "differs {place}"),
        }
    }
}

/// Judges the words of one party's listing against a book. "A book that is refused gives the book's refusal, then a party
/// number out of range is 22."
pub fn judge(book: &[u32], party: u32, listing: &[u32]) -> Result<Verdict, Refusal> {
    by(&translate::programs(&book::read(book)?)?, party, listing)
}

/// The same, by the programs of an accepted book.
pub fn by(programs: &[Program], party: u32, listing: &[u32]) -> Result<Verdict, Refusal> {
    let differs = difference(ours(programs, party)?, listing);
    Ok(differs.map_or(Verdict::Same, Verdict::Differs))
}

/// The party's own program, or refusal 22 with the party's number.
fn ours(programs: &[Program], party: u32) -> Result<&Program, Refusal> {
    let own = programs.get(party as usize);
    own.ok_or_else(|| Refusal::new(22, &[party]))
}

/// The first word that differs; none if a renaming turns the listing into the program's words.
fn difference(program: &Program, listing: &[u32]) -> Option<usize> {
    let mut renaming = Renaming::default();
    let mut place = 0;
    for event in program {
        let mut slots = Vec::new();
        event.spell(&mut |slot| slots.push(slot));
        for slot in slots {
            let theirs = listing.get(place);
            if !theirs.is_some_and(|theirs| renaming.take(slot, *theirs)) {
                return Some(place);
            }
            place += 1;
        }
    }
    (place < listing.len()).then_some(place)
}

/// A one-to-one renaming as far as it is known.
#[derive(Default)]
struct Renaming {
    /// From our placeholders to theirs.
    names: HashMap<u32, u32>,
    /// Theirs that stand for one of ours.
    taken: HashSet<u32>,
}

impl Renaming {
    /// Goes on by one word of theirs where ours has this, or says that it can't. All that is known was forced by the words
    /// before, so where it can't go on, no other renaming can.
    fn take(&mut self, slot: Slot, theirs: u32) -> bool {
        match slot {
            Slot::Plain(ours) => ours == theirs,
            // "Where n is 0 the first number must be ours."
            Slot::Run { first, n: 0 } => first == theirs,
            Slot::Run { first, n } => self.hand_out(first, n, theirs),
            // Our programs use what they were handed out.
            Slot::Use(ours) => self.names[&ours] == theirs,
        }
    }

    /// "RECEIVE and OPEN rename their whole run of n numbers, in order, judged at the first number with our n", and never
    /// "past the largest u32".
    fn hand_out(&mut self, first: u32, n: u32, theirs: u32) -> bool {
        let Some(last) = theirs.checked_add(n - 1) else {
            return false;
        };
        if (theirs..=last).any(|number| self.taken.contains(&number)) {
            return false;
        }
        self.names.extend((first..).zip(theirs..=last));
        self.taken.extend(theirs..=last);
        true
    }
}

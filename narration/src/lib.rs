//! Narration texts: what people write in place of a book's words; their books, names and places.
//!
//! The text is read in two passes. The first sees only how it is written; the second gives the terms
//! their rows. Two are needed because a tag depends on the operation names of the whole text.

pub mod book;

mod grammar;
mod limits;
mod mistake;
mod names;
mod table;
mod tags;
mod token;
mod write;
mod written;

pub use mistake::{Kind, Mistake, Spot};
pub use names::Names;
pub use token::of_a_name;
pub use write::write;

use book::{Book, Party, Step};
use grammar::{PartyLine, StepLine};
use mistake::mistake;
use std::collections::{HashMap, HashSet};
use table::Table;
use tags::Tags;
use written::Written;

/// A text that was read: its book, which passes refusals 1 to 9, what it calls things, and where they stand.
#[derive(Clone, PartialEq, Eq, Debug)]
pub struct Narration {
    pub book: Book,
    pub names: Names,
    /// Of each party, in the book's order.
    pub parties: Vec<PartyPlace>,
    /// Of each step.
    pub steps: Vec<StepPlace>,
    /// Every term that is written, with its row, parts before what they are parts of.
    pub terms: Vec<(u32, Spot)>,
}

/// Where a party's line stands.
#[derive(Clone, PartialEq, Eq, Debug)]
pub struct PartyPlace {
    pub name: Spot,
    /// What it knows, in the order of the text.
    pub known: Vec<(u32, Spot)>,
}

/// Where a step's line stands.
#[derive(Clone, PartialEq, Eq, Debug)]
pub struct StepPlace {
    pub sender: Spot,
    pub receiver: Spot,
    pub messages: Vec<(u32, Spot)>,
}

/// The lines of a text: they end with a line feed, a carriage return, or both in this order. A byte order mark in front of
/// the first is no part of it.
pub fn lines(text: &str) -> Vec<&str> {
    let mut rest = text.strip_prefix('\u{feff}').unwrap_or(text);
    let mut lines = Vec::new();
    while let Some(end) = rest.find(['\n', '\r']) {
        lines.push(&rest[..end]);
        let both = rest[end..].starts_with("\r\n");
        rest = &rest[end + 1 + usize::from(both)..];
    }
    lines.push(rest);
    lines
}

/// What a text says, or the mistakes in it, at least one, by their lines: of a line that is not well written the first, of the
/// others what is wrong in what they say. A limit that is passed is told once.
pub fn narrate(text: &str) -> Result<Narration, Vec<Mistake>> {
    let lines = grammar::read(text);
    if lines.parties.is_empty() && lines.mistakes.is_empty() {
        let empty = mistake(lines.end, "a party", "the end of the text");
        return Err(vec![empty.of(Kind::Empty)]);
    }
    let mut reading = Reading {
        table: Table::new(
            Tags::of(&lines.operations),
            lines.parties.iter().map(|party| party.name).collect(),
        ),
        terms: &lines.terms,
        unread: &lines.unread,
        mistakes: lines.mistakes,
    };
    for term in &lines.rows {
        let entered = reading.table.enter(&lines.terms, *term);
        reading.note(entered);
    }
    let mut numbers = HashMap::new();
    let (mut parties, mut party_places) = (Vec::new(), Vec::new());
    for line in &lines.parties {
        if numbers.len() == limits::PARTIES {
            let expected = format!("at most {} parties", limits::PARTIES);
            reading.wrong(mistake(line.spot, &expected, "one more").of(Kind::Limit));
        }
        if numbers.insert(line.name, parties.len() as u32).is_some() {
            let found = format!("`{}` a second time", line.name);
            reading.wrong(mistake(line.spot, "a party not declared yet", &found));
        }
        let (party, place) = reading.party(line);
        parties.push(party);
        party_places.push(place);
    }
    let (mut steps, mut step_places) = (Vec::new(), Vec::new());
    for line in &lines.steps {
        if steps.len() == limits::STEPS {
            let expected = format!("at most {} steps", limits::STEPS);
            reading.wrong(mistake(line.sender.1, &expected, "one more").of(Kind::Limit));
        }
        let (step, place) = reading.step(line, &numbers);
        steps.push(step);
        step_places.push(place);
    }
    if !reading.mistakes.is_empty() {
        reading.mistakes.sort_by_key(|mistake| mistake.spot.line);
        return Err(reading.mistakes);
    }
    let (rows, names, terms) = reading.table.end();
    Ok(Narration {
        book: Book { rows, parties, steps },
        names,
        parties: party_places,
        steps: step_places,
        terms,
    })
}

/// The second pass: what it has entered, and what it has found wrong. Where something is wrong it goes on without it.
struct Reading<'a, 't> {
    table: Table<'a>,
    terms: &'t [Written<'a>],
    /// The names in lines that can't be read: what these declare is not known.
    unread: &'t HashSet<&'a str>,
    mistakes: Vec<Mistake>,
}

impl<'a> Reading<'a, '_> {
    /// Notes a mistake; that a limit is passed, once.
    fn wrong(&mut self, wrong: Mistake) {
        let told = |earlier: &Mistake| wrong.kind == Kind::Limit && earlier.expected == wrong.expected;
        if !self.mistakes.iter().any(told) {
            self.mistakes.push(wrong);
        }
    }

    fn note<T>(&mut self, result: Result<T, Mistake>) -> Option<T> {
        result.map_err(|wrong| self.wrong(wrong)).ok()
    }

    /// The name's row comes before the rows of what the party knows.
    fn party(&mut self, line: &PartyLine<'a>) -> (Party, PartyPlace) {
        let name = self.table.atom(line.name, line.spot);
        let name = self.note(name).unwrap_or(0);
        let (mut known, mut places) = (Vec::new(), Vec::new());
        let mut seen = HashSet::new();
        for term in &line.known {
            let spot = self.terms[*term].spot;
            let row = self.table.enter(self.terms, *term);
            let Some(row) = self.note(row) else { continue };
            if !seen.insert(row) {
                let expected = "each term once in what a party knows";
                self.wrong(mistake(spot, expected, "this one again"));
            }
            let listed = self.table.lists(1, spot);
            self.note(listed);
            known.push(row);
            places.push((row, spot));
        }
        known.sort_unstable();
        let makes = line.makes;
        let place = PartyPlace {
            name: line.spot,
            known: places,
        };
        (Party { name, known, makes }, place)
    }

    fn step(&mut self, line: &StepLine<'a>, numbers: &HashMap<&str, u32>) -> (Step, StepPlace) {
        let sender = self.number(numbers, line.sender);
        let receiver = self.number(numbers, line.receiver);
        if sender.is_some() && sender == receiver {
            let found = format!("`{}` again", line.receiver.0);
            self.wrong(mistake(line.receiver.1, "a receiver other than the sender", &found));
        }
        let mut places = Vec::new();
        for term in &line.messages {
            let spot = self.terms[*term].spot;
            let row = self.table.enter(self.terms, *term);
            let Some(row) = self.note(row) else { continue };
            let listed = self.table.lists(1, spot);
            self.note(listed);
            places.push((row, spot));
        }
        let step = Step {
            sender: sender.unwrap_or(0),
            receiver: receiver.unwrap_or(0),
            messages: places.iter().map(|(row, _)| *row).collect(),
        };
        let place = StepPlace {
            sender: line.sender.1,
            receiver: line.receiver.1,
            messages: places,
        };
        (step, place)
    }

    fn number(&mut self, numbers: &HashMap<&str, u32>, (name, spot): (&'a str, Spot)) -> Option<u32> {
        let number = numbers.get(name).copied();
        if number.is_none() && !self.unread.contains(name) {
            let found = format!("`{name}`, which no party line declares");
            self.wrong(mistake(spot, "a party's name", &found).of(Kind::Undeclared));
        }
        number
    }
}

//! A book that is refused: which atom its sender lacks at which step, where that atom comes from, what the sender holds by
//! then, and what helps. What is held is asked of the book cut to the steps before, so that it is proved as well.

use super::edits::{self, Help};
use super::why::why;
use super::{count, listed, short, Diagnostic, Mark, Report, Verdict};
use crate::failure::Failure;
use crate::listing::{Event, Image};
use crate::proved::{Answers, Source};
use crate::subject::{to_bytes, Subject, Text};
use crate::warnings;
use narration::book::{Book, CIPHER, MOST_KNOWN};
use narration::Spot;
use nghiralum::Refusal;
use std::collections::BTreeMap;

/// So many helps are shown.
const MOST_HELPS: usize = 3;
/// So many refusals are told of one book.
const MOST_REFUSALS: usize = 12;

/// Bytes that are no book, and which rule they break.
pub fn no_book(name: &str, bytes: &[u8], refusal: Refusal) -> Report {
    let told = refusal.to_string();
    let sentence = told.split_once(": ").map_or(&told[..], |(_, sentence)| sentence);
    let code = format!("R{}", refusal.number());
    let mut diagnostic = Diagnostic::error(code, format!("this is no book: {sentence}"));
    diagnostic.notes.extend(why(bytes, refusal));
    Report::new(name, Vec::new(), Verdict::Refused(refusal.number()), vec![diagnostic])
}

/// A book that can't be played: its refusal, and those that come behind it. What was lacking is taken as known from then on,
/// and the proved translator is asked again; what helps is tried in the same way.
pub fn unplayable(subject: &Subject, refusal: Refusal) -> Result<Report, Failure> {
    let first = Case::of(subject, refusal)?;
    let mut diagnostics = vec![first.diagnostic()?];
    let mut lacking = vec![first.row];
    let mut assumed: Vec<(u32, u32)> = Vec::new();
    let (mut mended, mut step) = (subject.clone(), first.step);
    let mut known = first.as_known();
    for _ in 0..MOST_REFUSALS {
        let Some(more) = known else { break };
        assumed.extend(more.last());
        mended = knowing(&mended, &more);
        let later = unplayable_still(&mended).filter(|later| later.place() >= step);
        let Some(later) = later else { break };
        let case = Case::of(&mended, later)?;
        match diagnostics.last_mut() {
            // What a step lacks is told at once.
            Some(last) if case.step == step => case.add_to(last),
            _ => {
                let mut diagnostic = case.diagnostic()?.note(as_if(subject, &assumed));
                let assumed = |help: Help| Help { assumed: true, ..help };
                diagnostic.helps = case.helps(&[case.row]).into_iter().map(assumed).collect();
                diagnostics.push(diagnostic);
            }
        }
        if case.step == first.step {
            lacking.push(case.row);
        }
        step = case.step;
        known = case.as_known();
    }
    diagnostics[0].helps = first.helps(&lacking);
    diagnostics.extend(warnings::of_names(subject));
    let lines = subject.text.as_ref().map_or_else(Vec::new, |text| text.lines.clone());
    let report = Report::new(&subject.name, lines, Verdict::Refused(refusal.number()), diagnostics);
    Ok(warnings::wanted(report))
}

/// What was assumed so far, by party.
fn as_if(subject: &Subject, assumed: &[(u32, u32)]) -> String {
    let mut parties: BTreeMap<u32, Vec<String>> = BTreeMap::new();
    for (party, row) in assumed {
        parties.entry(*party).or_default().push(short(subject.term(*row)));
    }
    let knew = |(party, terms): (&u32, &Vec<String>)| format!("{} knew {}", subject.party(*party), listed(terms));
    let told: Vec<String> = parties.iter().map(knew).collect();
    format!("this is told as if {}", told.join(", and "))
}

/// Refusal 10 or 13 of a book that is one.
fn unplayable_still(subject: &Subject) -> Option<Refusal> {
    let refusal = nghiralum::translate(&subject.bytes, &mut []).err();
    refusal.filter(|refusal| matches!(refusal.number(), 10 | 13))
}

/// The subject with another book of the same rows, and with the same names.
fn with_book(subject: &Subject, book: Book) -> Subject {
    Subject {
        bytes: to_bytes(&book.words()),
        book,
        ..subject.clone()
    }
}

/// The subject in which parties know these rows as well, and its text, if it has one, says so. What stands in the steps stays
/// where it is.
fn knowing(subject: &Subject, more: &[(u32, u32)]) -> Subject {
    let mut book = subject.book.clone();
    for (party, row) in more {
        let known = &mut book.parties[*party as usize].known;
        known.push(*row);
        known.sort_unstable();
    }
    let mut subject = with_book(subject, book);
    for (party, row) in more {
        let term = subject.term(*row).to_string();
        let lines = subject.text.as_ref().map_or(&[][..], |text| &text.lines);
        let edit = edits::knowing(&subject, lines, *party, &term);
        if let (Some(edit), Some(text)) = (edit, &mut subject.text) {
            let place = &mut text.narration.parties[*party as usize];
            let line = place.name.line;
            let length = term.chars().count();
            let end = edits::said(&edit.lines[line - 1]).chars().count();
            let column = end - length + 1;
            place.known.push((*row, Spot { line, column, length }));
            text.lines = edit.lines;
        }
    }
    subject
}

/// A refusal: the sender of the step would have to make the atom of the row.
pub struct Case<'s> {
    pub subject: &'s Subject,
    pub number: u8,
    pub row: u32,
    pub step: u32,
    pub sender: u32,
    /// The answers about the steps before.
    pub before: Answers,
}

impl<'s> Case<'s> {
    fn of(subject: &'s Subject, refusal: Refusal) -> Result<Case<'s>, Failure> {
        let lost = || Failure::guard(format!("{}: {refusal}, and there is no such row or step", subject.name));
        let row = refusal.row().filter(|row| subject.book.rows.len() > *row as usize);
        let row = row.ok_or_else(lost)?;
        let step = refusal.place();
        let sender = subject.book.steps.get(step as usize).ok_or_else(lost)?.sender;
        let mut book = subject.book.clone();
        book.steps.truncate(step as usize);
        let before = Answers::of(&with_book(subject, book))?;
        let before =
            before.map_err(|earlier| Failure::guard(format!("{}: {earlier}, before {refusal}", subject.name)))?;
        Ok(Case {
            subject,
            number: refusal.number(),
            row,
            step,
            sender,
            before,
        })
    }

    /// One more atom that the sender lacks for the same step.
    fn add_to(&self, diagnostic: &mut Diagnostic) {
        let sender = self.subject.party(self.sender);
        let here = self.subject.text.as_ref().and_then(|text| self.here(text, self.row));
        match here {
            Some(spot) => diagnostic.marks.push(Mark {
                spot,
                label: format!("{sender} lacks this too"),
            }),
            None => diagnostic
                .notes
                .push(format!("{sender} lacks {} too", short(self.atom()))),
        }
    }

    /// Who would know which row, if the sender knew what it lacks: whoever made the atom, and last the sender. Nothing if one
    /// of them can't know more.
    fn as_known(&self) -> Option<Vec<(u32, u32)>> {
        let text = self.subject.text.as_ref();
        let needed = text.map_or(self.row, |text| self.needed_row(text, self.row));
        let parties = &self.subject.book.parties;
        let makers = (0..parties.len() as u32)
            .filter(|party| matches!(self.before.source(*party, self.row), Source::Made { .. }))
            .map(|party| (party, self.row));
        let more: Vec<(u32, u32)> = makers.chain([(self.sender, needed)]).collect();
        let can = |(party, row): &(u32, u32)| {
            let known = &parties[*party as usize].known;
            known.len() < MOST_KNOWN as usize && !known.contains(row)
        };
        more.iter().all(can).then_some(more)
    }

    /// What helps, where the sender lacks these atoms for the step.
    fn helps(&self, lacking: &[u32]) -> Vec<Help> {
        let Some(text) = &self.subject.text else {
            return Vec::new();
        };
        edits::helpful(
            &text.lines,
            self.edits(text, lacking),
            self.step,
            self.atom(),
            MOST_HELPS,
        )
    }

    fn diagnostic(&self) -> Result<Diagnostic, Failure> {
        let (sender, atom) = (self.subject.party(self.sender), short(self.atom()));
        let message = match self.number {
            10 => format!("{sender} would have to make {atom}, which is taken"),
            _ => format!("{sender} would have to make {atom}, and makes nothing"),
        };
        let diagnostic = Diagnostic::error(format!("R{}", self.number), message);
        let mut diagnostic = match &self.subject.text {
            None => diagnostic
                .note(format!(
                    "step {} is `{}`; steps count from 0",
                    self.step,
                    self.step_text()
                ))
                .note(self.origin_told()),
            Some(text) => {
                let here = self.here(text, self.row).ok_or_else(|| {
                    Failure::guard(format!(
                        "{}: {atom} does not stand in the refused step",
                        self.subject.name
                    ))
                })?;
                let (spot, label) = self.origin(text);
                diagnostic
                    .mark(Some(here), format!("{sender} lacks it"))
                    .mark(spot, label)
            }
        };
        diagnostic.notes.push(self.holdings());
        diagnostic.notes.extend(self.reasons());
        Ok(diagnostic)
    }

    /// Where the atom of a book without a text comes from.
    fn origin_told(&self) -> String {
        let (subject, atom) = (self.subject, short(self.atom()));
        let has = |rows: &[u32]| rows.iter().copied().find(|row| subject.has_part(*row, self.row));
        if self.number != 10 {
            return format!("{} is marked as one that makes nothing", subject.party(self.sender));
        }
        if subject.book.parties.iter().any(|party| party.name == self.row) {
            return format!("{atom} is a party's name, which nobody makes");
        }
        for (number, party) in (0..).zip(&subject.book.parties) {
            if let Some(row) = has(&party.known) {
                return format!(
                    "{} knows {} from the start",
                    subject.party(number),
                    short(subject.term(row))
                );
            }
        }
        let made = (0..)
            .zip(&subject.book.steps)
            .find(|(_, step)| has(&step.messages).is_some());
        made.map_or_else(String::new, |(number, step)| {
            format!("{} made {atom} in {}", subject.party(step.sender), subject.step(number))
        })
    }

    pub fn atom(&self) -> &str {
        self.subject.term(self.row)
    }

    pub fn holds(&self, party: u32, row: u32) -> bool {
        self.before.source(party, row) != Source::Not
    }

    /// The step as a narration has it.
    fn step_text(&self) -> String {
        let step = &self.subject.book.steps[self.step as usize];
        let messages: Vec<&str> = step.messages.iter().map(|row| self.subject.term(*row)).collect();
        let (sender, receiver) = (self.subject.party(step.sender), self.subject.party(step.receiver));
        short(&format!("{sender} -> {receiver}: {}", messages.join(", ")))
    }

    /// The terms written in the refused step's line.
    pub fn written<'t>(&self, text: &'t Text) -> impl Iterator<Item = &'t (u32, Spot)> {
        let line = self.subject.line(self.step);
        text.narration
            .terms
            .iter()
            .filter(move |(_, spot)| Some(spot.line) == line)
    }

    /// Where the sender would have to build the atom: in no term that it holds as a whole.
    pub fn here(&self, text: &Text, atom: u32) -> Option<Spot> {
        let inside_held = |spot: Spot| {
            self.written(text)
                .any(|(row, around)| self.holds(self.sender, *row) && around_of(*around, spot))
        };
        let spots = || (self.written(text).filter(|(row, _)| *row == atom)).map(|(_, spot)| *spot);
        spots().find(|spot| !inside_held(*spot)).or_else(|| spots().next())
    }

    /// Where the atom comes from, and what it is there; of an atom that is nobody's, why it can't be made.
    fn origin(&self, text: &Text) -> (Option<Spot>, String) {
        let (subject, narration) = (self.subject, &text.narration);
        let sender = subject.party(self.sender);
        if self.number != 10 {
            let place = &narration.parties[self.sender as usize];
            return (
                Some(makes_nothing(text, place.name)),
                format!("{sender} is said to make nothing"),
            );
        }
        if let Some(party) = subject.book.parties.iter().position(|party| party.name == self.row) {
            let label = "a party's name, which nobody makes";
            return (Some(narration.parties[party].name), label.to_string());
        }
        let first = |line: usize| {
            let on_line = narration
                .terms
                .iter()
                .filter(|(row, spot)| *row == self.row && spot.line == line);
            on_line.map(|(_, spot)| *spot).min()
        };
        for (party, place) in (0..).zip(&narration.parties) {
            let Some(spot) = first(place.name.line) else { continue };
            let known = place.known.iter().find(|(_, around)| around_of(*around, spot));
            let term = known.map_or_else(|| self.atom().to_string(), |(row, _)| short(subject.term(*row)));
            return (
                Some(spot),
                format!("{} knows {term} from the start", subject.party(party)),
            );
        }
        for step in 0..self.step {
            let Some(spot) = subject.line(step).and_then(first) else {
                continue;
            };
            let maker = subject.book.steps[step as usize].sender;
            return (Some(spot), format!("{} made it here", subject.party(maker)));
        }
        (None, String::new())
    }

    /// What the sender holds before the step, by when it came to hold it.
    fn holdings(&self) -> String {
        let rows = || 0..self.subject.book.rows.len() as u32;
        let source = |row: u32| self.before.source(self.sender, row);
        let terms = |chosen: &dyn Fn(Source) -> bool| -> Vec<String> {
            let chosen = rows().filter(|row| chosen(source(*row)));
            chosen.map(|row| self.subject.term(row).to_string()).collect()
        };
        let mut parts = Vec::new();
        let given = terms(&|source| source == Source::Given);
        if !given.is_empty() {
            parts.push(format!("{} from the start", listed(&given)));
        }
        for step in 0..self.step {
            let place = self.subject.step(step);
            let made = terms(&|source| source == Source::Made { step });
            if !made.is_empty() {
                parts.push(format!("{} which it made in {place}", listed(&made)));
            }
            let stored = terms(&|source| matches!(source, Source::Stored { step: own, .. } if own == step));
            if !stored.is_empty() {
                parts.push(format!("{} since {place}", listed(&stored)));
            }
        }
        // Of a long run the start and the last steps are told.
        const MOST: usize = 5;
        let more = parts.len().saturating_sub(MOST);
        if more > 0 {
            parts.splice(
                1..=more,
                [format!(
                    "what came to it in {}",
                    count(more, "other step", "other steps")
                )],
            );
        }
        let sender = self.subject.party(self.sender);
        match parts.is_empty() {
            true => format!("{sender} holds nothing by then"),
            false => format!("by then {sender} holds {}", parts.join("; ")),
        }
    }

    /// Why the sender lacks what it has seen: ciphers that it stored, or that it opened and would have to build again.
    fn reasons(&self) -> Vec<String> {
        let sender = self.subject.party(self.sender);
        let stored = self.stored_around().into_iter().map(|(row, step)| {
            format!(
                "{sender} stored {} in {}, when it could not open it; what is stored is not opened later",
                short(self.subject.term(row)),
                self.subject.step(step)
            )
        });
        let opened = self.opened_around().into_iter().map(|(row, step, _)| {
            format!(
                "{sender} opened {} in {}; of an opened cipher only the contents are kept",
                short(self.subject.term(row)),
                self.subject.step(step)
            )
        });
        stored.chain(opened).take(3).collect()
    }

    /// Ciphers with the atom in them that the sender stored, and when.
    pub fn stored_around(&self) -> Vec<(u32, u32)> {
        let rows = 0..self.subject.book.rows.len() as u32;
        let stored = rows.filter_map(|row| match self.before.source(self.sender, row) {
            Source::Stored { step, .. } => Some((row, step)),
            _ => None,
        });
        let kind = |row: u32| self.subject.book.rows[row as usize].kind;
        let openings = openings(self.subject, &self.before, self.sender);
        let opened = |row: u32| openings.iter().any(|(own, ..)| *own == row);
        stored
            .filter(|(row, _)| kind(*row) == CIPHER && self.subject.has_part(*row, self.row) && !opened(*row))
            .collect()
    }

    /// Ciphers of the refused step with the atom in them that the sender has opened: when, and with which row as the key.
    pub fn opened_around(&self) -> Vec<(u32, u32, Option<u32>)> {
        let book = &self.subject.book;
        let messages = &book.steps[self.step as usize].messages;
        let wanted = |row: u32| {
            self.subject.has_part(row, self.row) && messages.iter().any(|message| self.subject.has_part(*message, row))
        };
        let mut opened: Vec<(u32, u32, Option<u32>)> = Vec::new();
        for (row, step, key) in openings(self.subject, &self.before, self.sender) {
            if wanted(row) && opened.iter().all(|(own, ..)| *own != row) {
                opened.push((row, step, key));
            }
        }
        opened
    }
}

/// The ciphers that a party opens, each with its step and the row of the key, if that is held as itself.
pub fn openings(subject: &Subject, answers: &Answers, party: u32) -> Vec<(u32, u32, Option<u32>)> {
    let mut rows = std::collections::HashMap::new();
    let mut openings = Vec::new();
    let mut at = 0;
    for event in &answers.programs[party as usize] {
        match event {
            Event::Receive { step, first, .. } => {
                at = *step;
                rows.extend((*first..).zip(subject.book.steps[at as usize].messages.iter().copied()));
            }
            Event::Open {
                placeholder,
                first,
                key,
                ..
            } => {
                let Some(row) = rows.get(placeholder).copied() else {
                    continue;
                };
                rows.extend((*first..).zip(subject.book.rows[row as usize].parts[1..].iter().copied()));
                let key = match key {
                    Image::Itself(row) => Some(*row),
                    _ => None,
                };
                openings.push((row, at, key));
            }
            _ => (),
        }
    }
    openings
}

/// Whether a spot lies within another.
pub fn around_of(around: Spot, spot: Spot) -> bool {
    around.line == spot.line
        && around.column <= spot.column
        && spot.column + spot.length <= around.column + around.length
}

/// Where a party's line says that it makes nothing; if that isn't found, its name.
pub fn makes_nothing(text: &Text, name: Spot) -> Spot {
    let line: Vec<char> = text
        .lines
        .get(name.line - 1)
        .map_or_else(Vec::new, |line| line.chars().collect());
    let find = |word: &str, from: usize| {
        let word: Vec<char> = word.chars().collect();
        (from..line.len()).find(|at| line[*at..].starts_with(&word))
    };
    let makes = find("makes", name.column - 1 + name.length);
    let nothing = makes.and_then(|at| find("nothing", at + "makes".len()));
    match (makes, nothing) {
        (Some(makes), Some(nothing)) => Spot {
            line: name.line,
            column: makes + 1,
            length: nothing + "nothing".len() - makes,
        },
        _ => name,
    }
}

//! Changes that may help where a step is refused: each is a guess, which is tried before it is shown.

use super::edits::{self, Edit, Outcome};
use super::refused::{around_of, makes_nothing, openings, Case};
use super::{listed, short};
use crate::playable::Playable;
use crate::proved::Source;
use crate::slips::slips;
use crate::subject::Text;
use crate::warnings;
use narration::book::{ATOM, CIPHER, PRIVATE, PUBLIC};
use narration::Spot;

impl Case<'_> {
    /// Changes that may help, by kind, the likeliest first, where the sender lacks these atoms for the step.
    pub fn edits(&self, text: &Text, lacking: &[u32]) -> Vec<Vec<Edit>> {
        let names = self.other_names(text);
        let given: Vec<Edit> = self.given(text, lacking).into_iter().collect();
        match self.number {
            10 => vec![
                names,
                self.later_arrivals(text),
                self.opening_keys(text),
                self.without_keys(text),
                given,
                self.sent_before(text),
            ],
            // To know a nonce from the start is of little use; a key is another matter.
            _ if self.is_key() => vec![names, self.made(text), self.sent_before(text), given],
            _ => vec![names, self.made(text), self.sent_before(text)],
        }
    }

    /// A name that is close to the atom's in its place, wherever it stands in the line.
    fn other_names(&self, text: &Text) -> Vec<Edit> {
        let rows = 0..self.subject.book.rows.len() as u32;
        let atoms = rows.filter(|row| self.subject.book.rows[*row as usize].kind == ATOM && *row != self.row);
        let held = |row: &u32| {
            let halves = (0..).zip(&self.subject.book.rows);
            let halves = halves.filter(|(_, half)| matches!(half.kind, PUBLIC | PRIVATE) && half.parts[0] == *row);
            self.holds(self.sender, *row) || halves.into_iter().any(|(half, _)| self.holds(self.sender, half))
        };
        let near = |row: &u32| {
            let (own, name) = (self.atom(), self.subject.term(*row));
            warnings::alike(own, name) || (close(own, name) && !warnings::family(own, name))
        };
        let mut names: Vec<&str> = (atoms.filter(near).filter(held))
            .map(|row| self.subject.term(row))
            .collect();
        names.sort_by_key(|name| slips(2, self.atom(), name).unwrap_or(usize::MAX));
        let edit = |name: &str| {
            let mut spots: Vec<Spot> = (self.written(text).filter(|(row, _)| *row == self.row))
                .map(|(_, spot)| *spot)
                .collect();
            spots.sort_unstable();
            let number = spots.first()?.line;
            // From the right, so that the columns to the left stay what they are.
            let line = spots.iter().rev().fold(text.lines[number - 1].clone(), |line, spot| {
                edits::replaced(&line, spot.column, spot.length, name)
            });
            let message = format!("is `{name}` meant?");
            Some(edits::with_line(&text.lines, number, line, message))
        };
        names.into_iter().filter_map(edit).collect()
    }

    /// The sender knows from the start what it needs of these atoms.
    fn given(&self, text: &Text, lacking: &[u32]) -> Option<Edit> {
        let needed: Option<Vec<String>> = (lacking.iter())
            .map(|atom| self.needed(text, *atom).map(str::to_string))
            .collect();
        let needed = needed?;
        let edit = edits::knowing(self.subject, &text.lines, self.sender, &needed.join(", "))?;
        let message = format!(
            "let {} know {} from the start",
            self.subject.party(self.sender),
            listed(&needed)
        );
        Some(Edit { message, ..edit })
    }

    /// A cipher that was stored too early arrives later: its step moves down, behind each of the next ones.
    fn later_arrivals(&self, text: &Text) -> Vec<Edit> {
        let mut edits = Vec::new();
        for (row, step) in self.stored_around() {
            for behind in step + 1..self.step {
                let (Some(from), Some(to)) = (self.subject.line(step), self.subject.line(behind)) else {
                    continue;
                };
                let message = format!(
                    "move line {from} behind line {to}, so that {} can open {} when it arrives",
                    self.subject.party(self.sender),
                    short(self.subject.term(row))
                );
                edits.push(edits::moved(&text.lines, from, to, message));
            }
        }
        edits
    }

    /// The sender knows the key that opens what it stored. A key that another party made is known to that one too.
    fn opening_keys(&self, text: &Text) -> Vec<Edit> {
        let subject = self.subject;
        let edit = |(row, _): (u32, u32)| {
            let key = subject.book.rows[row as usize].parts[0];
            let parties = 0..subject.book.parties.len() as u32;
            let maker = |party: &u32| matches!(self.before.source(*party, key), Source::Made { .. });
            let parties: Vec<u32> = parties.filter(|party| *party == self.sender || maker(party)).collect();
            let edit = edits::all_knowing(subject, &text.lines, &parties, &edits::opening(subject, key)?)?;
            let (sender, cipher) = (subject.party(self.sender), short(subject.term(row)));
            let message = format!("{}, so that {sender} can open {cipher}", edit.message);
            Some(Edit { message, ..edit })
        };
        self.stored_around().into_iter().filter_map(edit).collect()
    }

    /// A cipher that was opened and is to be sent on is stored, if its receiver doesn't know the key. Where it lacks something
    /// else then, it knows that in the key's place.
    fn without_keys(&self, text: &Text) -> Vec<Edit> {
        let place = &text.narration.parties[self.sender as usize];
        let mut edits = Vec::new();
        for (row, _, key) in self.opened_around() {
            let Some(known) = place.known.iter().position(|(own, _)| Some(*own) == key) else {
                continue;
            };
            let spots: Vec<Spot> = place.known.iter().map(|(_, spot)| *spot).collect();
            let end = |spot: Spot| spot.column + spot.length;
            let (from, to) = match (known.checked_sub(1), spots.get(known + 1)) {
                (Some(before), _) => (end(spots[before]), end(spots[known])),
                (None, Some(next)) => (spots[known].column, next.column),
                (None, None) => continue,
            };
            let number = place.name.line;
            let line = edits::replaced(&text.lines[number - 1], from, to - from, "");
            let (sender, key) = (self.subject.party(self.sender), self.subject.term(place.known[known].0));
            let kept = short(self.subject.term(row));
            let message = format!("let {sender} not know {key}, so that it keeps {kept} and can send it on");
            let edit = edits::with_line(&text.lines, number, line, message);
            if let Some(term) = self.lacking(text, &edit) {
                let message =
                    format!("let {sender} know {term} and not {key}, so that it keeps {kept} and can send it on");
                let both = edits::knowing(self.subject, &edit.lines, self.sender, term);
                edits.extend(
                    both.map(|both| Edit { message, ..both })
                        .filter(|both| self.keeps(both, row)),
                );
            }
            edits.extend(Some(edit).filter(|edit| self.keeps(edit, row)));
        }
        edits
    }

    /// Whether the sender of a changed text has stored the row by the end, if it can be played at all.
    fn keeps(&self, edit: &Edit, row: u32) -> bool {
        let Ok(Some(changed)) = Playable::of_lines(&self.subject.name, &edit.lines) else {
            return true;
        };
        let term = self.subject.term(row);
        let own = (0..).zip(&changed.subject.terms).find(|(_, own)| *own == term);
        own.is_some_and(|(own, _)| matches!(changed.answers.source(self.sender, own), Source::Stored { .. }))
    }

    /// What the sender lacks at the same step after a change.
    fn lacking(&self, text: &Text, edit: &Edit) -> Option<&str> {
        match edits::attempt(&edit.lines) {
            Some(Outcome::Refused { step, atom, .. }) if step == self.step => {
                let row = self.subject.terms.iter().position(|term| *term == atom)?;
                self.needed(text, row as u32)
            }
            _ => None,
        }
    }

    /// What the sender would have to know in place of an atom: the half of it that it needs, or the atom itself.
    pub fn needed_row(&self, text: &Text, atom: u32) -> u32 {
        let here = self.here(text, atom);
        let half = |(row, spot): &&(u32, Spot)| {
            let own = &self.subject.book.rows[*row as usize];
            matches!(own.kind, PUBLIC | PRIVATE)
                && own.parts[0] == atom
                && here.is_some_and(|here| around_of(*spot, here))
        };
        self.written(text).find(half).map_or(atom, |(row, _)| *row)
    }

    /// The same, but that a private half which another party has is none of its business.
    fn needed(&self, text: &Text, atom: u32) -> Option<&str> {
        let needed = self.needed_row(text, atom);
        let mut parties = 0..self.subject.book.parties.len() as u32;
        let another = parties.any(|party| party != self.sender && self.holds(party, needed));
        let private = self.subject.book.rows[needed as usize].kind == PRIVATE;
        (!private || !another).then(|| self.subject.term(needed))
    }

    /// The sender makes atoms after all.
    fn made(&self, text: &Text) -> Vec<Edit> {
        let place = &text.narration.parties[self.sender as usize];
        let spot = makes_nothing(text, place.name);
        let line = &text.lines[spot.line - 1];
        let sender = self.subject.party(self.sender);
        let front = place.name.column + place.name.length;
        let changed = edits::replaced(line, front, spot.column + spot.length - front, "");
        let message = format!("if {sender} has a random source, leave out `makes nothing`");
        vec![edits::with_line(&text.lines, spot.line, changed, message)]
    }

    /// Another party sends the atom to the sender before: in the clear, if nothing is given away by that; in a message that the
    /// sender opens; or in a cipher that has it and that the sender can perhaps open.
    fn sent_before(&self, text: &Text) -> Vec<Edit> {
        let (subject, atom) = (self.subject, self.atom());
        let (book, sender) = (&subject.book, subject.party(self.sender));
        let openings = openings(subject, &self.before, self.sender);
        let mut edits = Vec::new();
        for step in (0..self.step).rev() {
            let own = &book.steps[step as usize];
            let Some(number) = subject.line(step).filter(|_| own.receiver == self.sender) else {
                continue;
            };
            let line = &text.lines[number - 1];
            let from = subject.party(own.sender);
            let edit = |term: &str, line: String| {
                let message = format!("let {from} send {term} to {sender} in line {number}");
                edits::with_line(&text.lines, number, line, message)
            };
            for term in self.sendable(own.sender, Some(step)) {
                let what = match own.messages.is_empty() {
                    true => format!(" {term}"),
                    false => format!(", {term}"),
                };
                edits.push(edit(term, edits::behind(line, &what)));
            }
            let has = self.number == 13 || self.before.holds(own.sender, self.row, Some(step));
            for (row, _, _) in openings.iter().filter(|(_, own, _)| *own == step && has) {
                let mut written = text.narration.terms.iter();
                let written = written.find(|(own, spot)| own == row && spot.line == number);
                let changed = written.and_then(|(_, spot)| with_content(line, *spot, atom));
                edits.extend(changed.map(|line| edit(atom, line)));
            }
        }
        let others = (0..book.parties.len() as u32).filter(|party| *party != self.sender && self.number == 10);
        for (party, number) in others.zip(std::iter::repeat(subject.line(self.step))) {
            let Some(number) = number else { continue };
            for term in self.sendable(party, self.step.checked_sub(1)) {
                let from = subject.party(party);
                let line = format!("{from} -> {sender}: {term}");
                let message = format!("let {from} send {term} to {sender} before");
                edits.push(edits::inserted(&text.lines, number, line, message));
            }
        }
        edits
    }

    /// What a party could send after a step to teach the atom: the atom itself, if it has it and nothing is given away, and
    /// ciphers with it that it stored or has sent.
    fn sendable(&self, party: u32, step: Option<u32>) -> Vec<&str> {
        const MOST: usize = 8;
        let book = &self.subject.book;
        let has = self.number == 13 || self.before.holds(party, self.row, step);
        let atom = (has && self.is_open()).then_some(self.row);
        let sent: Vec<u32> = (book.steps.iter().take(step.map_or(0, |step| step as usize + 1)))
            .filter(|step| step.sender == party)
            .flat_map(|step| step.messages.iter().copied())
            .collect();
        let ciphers = (0..book.rows.len() as u32).filter(|row| {
            book.rows[*row as usize].kind == CIPHER
                && self.subject.has_part(*row, self.row)
                && (sent.contains(row) || self.before.holds(party, *row, step))
        });
        let rows = atom.into_iter().chain(ciphers.take(MOST));
        rows.map(|row| self.subject.term(row)).collect()
    }

    /// Whether the atom stands in the key of a cipher.
    fn is_key(&self) -> bool {
        let mut ciphers = self.subject.book.rows.iter().filter(|row| row.kind == CIPHER);
        ciphers.any(|cipher| self.subject.has_part(cipher.parts[0], self.row))
    }

    /// Whether the atom can be sent in the clear and nothing is given away: it is a name, was sent so before, or is nobody's
    /// and no key.
    fn is_open(&self) -> bool {
        let book = &self.subject.book;
        let sent = book.steps[..self.step as usize].iter().flat_map(|step| &step.messages);
        let name = book.parties.iter().any(|party| party.name == self.row);
        name || sent.into_iter().any(|message| *message == self.row) || (self.number == 13 && !self.is_key())
    }
}

/// A cipher's line with one more content in it.
fn with_content(line: &str, cipher: Spot, content: &str) -> Option<String> {
    let mut depth = 0;
    for (at, sign) in line.chars().enumerate().skip(cipher.column - 1) {
        match sign {
            '{' => depth += 1,
            '}' if depth == 1 => {
                let empty = at == cipher.column;
                let what = if empty {
                    content.to_string()
                } else {
                    format!(", {content}")
                };
                return Some(edits::replaced(line, at + 1, 0, &what));
            }
            '}' => depth -= 1,
            _ => (),
        }
    }
    None
}

/// Whether two names are close enough for a slip of the pen.
fn close(one: &str, other: &str) -> bool {
    let longest = one.chars().count().max(other.chars().count());
    slips(2, one, other).is_some_and(|slips| 2 * slips < longest)
}

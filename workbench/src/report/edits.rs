//! Changes of a text that may help. Each is tried before it is shown: the changed text is read, and the proved translator is
//! asked about its book.

use super::words::{count, listed, short};
use crate::json::{object, Json};
use crate::subject::{to_bytes, Subject};
use narration::book::{ATOM, PRIVATE, PUBLIC};

/// A changed text, and what was changed.
#[derive(Clone, PartialEq, Eq, Debug)]
pub struct Edit {
    pub message: String,
    pub lines: Vec<String>,
    /// The numbers of the lines that are new or other than before, counted from 1.
    pub changed: Vec<usize>,
    /// Whether they are new, and no line of before is gone for them.
    pub added: bool,
}

/// What is said of a changed text.
#[derive(Clone, PartialEq, Eq, Debug)]
pub enum Outcome {
    Playable,
    /// It can be played, and what was stored unchecked is checked: what is said of it.
    Checked(String),
    Refused {
        number: u8,
        step: u32,
        line: usize,
        /// The name of the atom that would have to be made.
        atom: String,
    },
    /// So many mistakes are left in it.
    Mistaken(usize),
}

/// A change that was tried.
#[derive(Clone, PartialEq, Eq, Debug)]
pub struct Help {
    pub message: String,
    pub outcome: Outcome,
    /// The changed lines with their numbers.
    pub changed: Vec<(usize, String)>,
    /// Whether they are new lines.
    pub added: bool,
    /// The whole changed text, lines ended by line feeds.
    pub text: String,
    /// Whether that text has also what the diagnostic tells as if it were so.
    pub assumed: bool,
}

impl Help {
    pub fn of(edit: Edit, outcome: Outcome) -> Help {
        let line = |number: usize| edit.lines.get(number - 1).map(|line| (number, line.clone()));
        Help {
            changed: edit.changed.iter().filter_map(|number| line(*number)).collect(),
            added: edit.added,
            text: text(&edit.lines),
            message: edit.message,
            outcome,
            assumed: false,
        }
    }

    pub fn sentence(&self) -> String {
        let tried = if self.assumed {
            "tried under the same assumption"
        } else {
            "tried"
        };
        format!("{} ({tried}: then {})", self.message, self.outcome.sentence())
    }

    pub fn json(&self) -> Json {
        let line =
            |(number, text): &(usize, String)| object([("line", (*number).into()), ("text", text.as_str().into())]);
        object([
            ("message", self.message.as_str().into()),
            ("tried", self.outcome.sentence().into()),
            ("changed", self.changed.iter().map(line).collect::<Vec<_>>().into()),
            ("added", self.added.into()),
            ("text", self.text.as_str().into()),
            ("assumed", self.assumed.into()),
        ])
    }
}

impl Outcome {
    fn sentence(&self) -> String {
        match self {
            Outcome::Playable => String::from("it can be played"),
            Outcome::Checked(what) => format!("it can be played, and {what}"),
            Outcome::Refused { number, line, atom, .. } => {
                format!("it is refused in line {line}, for {atom} (R{number})")
            }
            Outcome::Mistaken(mistakes) => {
                let verb = if *mistakes == 1 { "is" } else { "are" };
                format!("{} {verb} left", count(*mistakes, "mistake", "mistakes"))
            }
        }
    }
}

/// Reads a text and asks the proved translator about its book. With no room lent it refuses every book, one that can be
/// played by 12. A text whose book is none helps nobody.
pub fn attempt(lines: &[String]) -> Option<Outcome> {
    let narration = match narration::narrate(&text(lines)) {
        Ok(narration) => narration,
        Err(mistakes) => return Some(Outcome::Mistaken(mistakes.len())),
    };
    let refusal = nghiralum::translate(&to_bytes(&narration.book.words()), &mut []).err()?;
    match refusal.number() {
        12 => Some(Outcome::Playable),
        10 | 13 => Some(Outcome::Refused {
            number: refusal.number(),
            step: refusal.place(),
            line: narration.steps.get(refusal.place() as usize)?.sender.line,
            atom: narration.names.atoms.get(refusal.row()? as usize)?.clone()?,
        }),
        _ => None,
    }
}

/// Of each kind of change the first with which a refused text can be played; if there is none, one that it comes further
/// with, or as far and there lacks another atom. A line that was put in is a step more before the refused one.
pub fn helpful(lines: &[String], kinds: Vec<Vec<Edit>>, step: u32, atom: &str, most: usize) -> Vec<Help> {
    let mut helps: Vec<Help> = Vec::new();
    let mut later: Option<(u32, Help)> = None;
    for edits in kinds {
        for edit in edits {
            // Two kinds may come to one change.
            let text = text(&edit.lines);
            if helps.iter().any(|help| help.text == text) {
                continue;
            }
            let step = step + edit.lines.len().saturating_sub(lines.len()) as u32;
            match attempt(&edit.lines) {
                Some(Outcome::Playable) => {
                    helps.push(Help::of(edit, Outcome::Playable));
                    break;
                }
                None | Some(Outcome::Checked(_) | Outcome::Mistaken(_)) => (),
                Some(Outcome::Refused {
                    step: stop, atom: next, ..
                }) if stop < step || (stop == step && next == atom) => (),
                Some(outcome @ Outcome::Refused { step: stop, .. }) => {
                    if later.as_ref().is_none_or(|(best, _)| *best < stop) {
                        later = Some((stop, Help::of(edit, outcome)));
                    }
                }
            }
        }
    }
    helps.truncate(most);
    match helps.is_empty() {
        true => later.into_iter().map(|(_, help)| help).collect(),
        false => helps,
    }
}

/// The text of these lines. A byte order mark that is a part of the first needs another one before it.
pub fn text(lines: &[String]) -> String {
    let text = lines.join("\n");
    match text.starts_with('\u{feff}') {
        true => format!("\u{feff}{text}"),
        false => text,
    }
}

/// A line with characters put in the place of others; columns count from 1.
pub fn replaced(line: &str, column: usize, length: usize, with: &str) -> String {
    let signs: Vec<char> = line.chars().collect();
    let from = (column - 1).min(signs.len());
    let to = (from + length).min(signs.len());
    let front: String = signs[..from].iter().collect();
    let back: String = signs[to..].iter().collect();
    format!("{front}{with}{back}")
}

/// What a line says: all but a comment, and the blanks before that.
pub fn said(line: &str) -> &str {
    let said = line.find('#').map_or(line, |at| &line[..at]);
    said.trim_end_matches([' ', '\t'])
}

/// A line with something behind what it says.
pub fn behind(line: &str, what: &str) -> String {
    let said = said(line);
    format!("{said}{what}{}", &line[said.len()..])
}

/// These lines with one moved down, behind another.
pub fn moved(lines: &[String], from: usize, to: usize, message: String) -> Edit {
    let mut lines = lines.to_vec();
    if let Some(part) = lines.get_mut(from - 1..to) {
        part.rotate_left(1);
    }
    Edit {
        message,
        lines,
        changed: vec![to],
        added: false,
    }
}

/// These lines with a new one, which gets this number.
pub fn inserted(lines: &[String], number: usize, line: String, message: String) -> Edit {
    let mut lines = lines.to_vec();
    lines.insert(number - 1, line);
    Edit {
        message,
        lines,
        changed: vec![number],
        added: true,
    }
}

/// These lines with a party that knows one more term from the start. The lines of the parties are where the text has them.
pub fn knowing(subject: &Subject, lines: &[String], party: u32, term: &str) -> Option<Edit> {
    let place = subject.text.as_ref()?.narration.parties.get(party as usize)?;
    let number = place.name.line;
    let what = match place.known.is_empty() {
        true => format!(" knows {term}"),
        false => format!(", {term}"),
    };
    let line = behind(lines.get(number - 1)?, &what);
    let message = format!("let {} know {} from the start", subject.party(party), short(term));
    Some(with_line(lines, number, line, message))
}

/// The same for several parties.
pub fn all_knowing(subject: &Subject, lines: &[String], parties: &[u32], term: &str) -> Option<Edit> {
    let names: Vec<String> = parties.iter().map(|party| subject.party(*party).to_string()).collect();
    let start = Edit {
        message: format!("let {} know {} from the start", listed(&names), short(term)),
        lines: lines.to_vec(),
        changed: Vec::new(),
        added: false,
    };
    parties.iter().try_fold(start, |mut all, party| {
        let edit = knowing(subject, &all.lines, *party, term)?;
        all.lines = edit.lines;
        all.changed.extend(edit.changed);
        all.changed.sort_unstable();
        Some(all)
    })
}

/// What opens a cipher under this key: the key itself, or the public half for a private one. A private half for a public one
/// is nothing to be handed round.
pub fn opening(subject: &Subject, key: u32) -> Option<String> {
    let row = &subject.book.rows[key as usize];
    match (row.kind, row.parts.first()) {
        (PUBLIC, _) => None,
        (PRIVATE, Some(part)) if subject.book.rows[*part as usize].kind == ATOM => {
            Some(format!("{}+", subject.term(*part)))
        }
        (PRIVATE, _) => None,
        _ => Some(subject.term(key).to_string()),
    }
}

/// These lines with one changed.
pub fn with_line(lines: &[String], number: usize, line: String, message: String) -> Edit {
    let mut lines = lines.to_vec();
    if let Some(own) = lines.get_mut(number - 1) {
        *own = line;
    }
    Edit {
        message,
        lines,
        changed: vec![number],
        added: false,
    }
}

#[cfg(test)]
mod tests {
    use super::*;

    fn lines(text: &str) -> Vec<String> {
        narration::lines(text).into_iter().map(str::to_string).collect()
    }

    #[test]
    fn tried() {
        assert_eq!(attempt(&lines("party A\nparty B\nA -> B: N")), Some(Outcome::Playable));
        let refused = Outcome::Refused {
            number: 13,
            step: 0,
            line: 3,
            atom: String::from("N"),
        };
        let maker = lines("party A makes nothing\nparty B\nA -> B: N");
        assert_eq!(attempt(&maker), Some(refused));
        let mistaken = lines("party A\nA -> C: N\nB -> A: N");
        assert_eq!(attempt(&mistaken), Some(Outcome::Mistaken(2)));
    }

    #[test]
    fn changed_lines() {
        assert_eq!(replaced("A -> Ö: N", 6, 1, "Bob"), "A -> Bob: N");
        assert_eq!(replaced("A", 2, 5, "B"), "AB");
        assert_eq!(behind("A -> B: N  # why", ", M"), "A -> B: N, M  # why");
        assert_eq!(behind("A -> B:", " M"), "A -> B: M");
    }
}

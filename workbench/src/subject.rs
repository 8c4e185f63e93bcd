//! What a command is about: a book, with the names and lines of its narration if it has one.

use crate::failure::Failure;
use crate::guard;
use crate::input::{Content, Input};
use narration::book::Book;
use narration::{Mistake, Names, Narration};
use nghiralum::Refusal;

#[derive(Clone)]
pub struct Subject {
    /// What its source is called.
    pub name: String,
    /// The text's lines and what was read in them; a book that was handed in has none.
    pub text: Option<Text>,
    pub book: Book,
    /// The book's bytes, which the proved functions are asked with.
    pub bytes: Vec<u8>,
    pub names: Names,
    /// The term of each row, as a narration has it.
    pub terms: Vec<String>,
}

#[derive(Clone)]
pub struct Text {
    pub lines: Vec<String>,
    pub narration: Narration,
}

/// What was handed in.
pub enum Opened {
    /// It has rows, parties and steps. Whether it can be played is another question.
    Subject(Box<Subject>),
    /// A text that is no narration: its lines, and what is wrong in them.
    Mistaken { lines: Vec<String>, mistakes: Vec<Mistake> },
    /// Bytes that are no book: refusals 1 to 9.
    Refused(Refusal),
}

impl Subject {
    pub fn party(&self, number: u32) -> &str {
        &self.terms[self.book.parties[number as usize].name as usize]
    }

    /// The number of the party that has this name.
    pub fn number(&self, name: &str) -> Option<u32> {
        let parties = 0..self.book.parties.len() as u32;
        parties.into_iter().find(|party| self.party(*party) == name)
    }

    /// The party that is meant: by its name, or by its number where it has none of its own, as in a book.
    pub fn meant(&self, name: &str) -> Result<u32, Failure> {
        let parties = 0..self.book.parties.len() as u32;
        let number = match self.text {
            None => name.parse().ok().filter(|number| parties.contains(number)),
            Some(_) => None,
        };
        self.number(name).or(number).ok_or_else(|| {
            let names: Vec<&str> = parties.map(|party| self.party(party)).collect();
            Failure::command_line(format!(
                "{} has no party `{name}`; its parties are {}",
                self.name,
                names.join(", ")
            ))
        })
    }

    pub fn term(&self, row: u32) -> &str {
        &self.terms[row as usize]
    }

    /// Whether a term is the other or has it as a part, however deep.
    pub fn has_part(&self, row: u32, part: u32) -> bool {
        // Parts stand before what they are parts of, so only rows from the part on matter.
        let mut seen = vec![false; row as usize + 1];
        let mut open = vec![row];
        while let Some(own) = open.pop() {
            if own == part {
                return true;
            }
            if own > part && !std::mem::replace(&mut seen[own as usize], true) {
                open.extend(&self.book.rows[own as usize].parts);
            }
        }
        false
    }

    /// The line of the text in which a step stands.
    pub fn line(&self, step: u32) -> Option<usize> {
        let text = self.text.as_ref()?;
        text.narration.steps.get(step as usize).map(|place| place.sender.line)
    }

    /// Where a step is: the line of the text, or the step of the book.
    pub fn step(&self, step: u32) -> String {
        match self.line(step) {
            Some(line) => format!("line {line}"),
            None => format!("step {step}"),
        }
    }
}

/// Opens what was handed in: as a narration if it is text, else as a book.
pub fn open(input: &Input) -> Result<Opened, Failure> {
    match input.content() {
        Content::Narration(text) => of_text(&input.name, &text),
        Content::Book => of_book(&input.name, &input.bytes),
        Content::Other(kind) => {
            let advice = if kind.contains("UTF") { ": save it as UTF-8" } else { "" };
            Err(Failure::file(format!(
                "{}: it is {kind}, and a narration or a book is asked for{advice}",
                input.name
            )))
        }
    }
}

fn of_text(name: &str, text: &str) -> Result<Opened, Failure> {
    let lines: Vec<String> = narration::lines(text).into_iter().map(str::to_string).collect();
    let narration = match narration::narrate(text) {
        Ok(narration) => narration,
        Err(mistakes) => return Ok(Opened::Mistaken { lines, mistakes }),
    };
    let book = narration.book.clone();
    let bytes = to_bytes(&book.words());
    if let Some(refusal) = unread(&bytes) {
        return Err(Failure::guard(format!(
            "{name}: the book of this narration is no book: {refusal}"
        )));
    }
    let names = narration.names.clone();
    let subject = Subject {
        name: name.to_string(),
        terms: names.texts(&book),
        text: Some(Text { lines, narration }),
        book,
        bytes,
        names,
    };
    guard::source(text, &subject)?;
    Ok(Opened::Subject(Box::new(subject)))
}

fn of_book(name: &str, bytes: &[u8]) -> Result<Opened, Failure> {
    if let Some(refusal) = unread(bytes) {
        return Ok(Opened::Refused(refusal));
    }
    let book = guard::book(name, bytes)?;
    let names = Names::made_up(&book);
    Ok(Opened::Subject(Box::new(Subject {
        name: name.to_string(),
        text: None,
        terms: names.texts(&book),
        bytes: bytes.to_vec(),
        book,
        names,
    })))
}

/// The refusal of 1 to 9, if one applies, by the proved reader: with no room lent, any book is refused.
fn unread(bytes: &[u8]) -> Option<Refusal> {
    let refusal = nghiralum::translate(bytes, &mut []).err();
    refusal.filter(|refusal| refusal.number() < 10)
}

/// The words of bytes that make whole ones.
pub fn to_words(bytes: &[u8]) -> Vec<u32> {
    let word = |four: &[u8]| u32::from_le_bytes([four[0], four[1], four[2], four[3]]);
    bytes.chunks_exact(4).map(word).collect()
}

pub fn to_bytes(words: &[u32]) -> Vec<u8> {
    words.iter().flat_map(|word| word.to_le_bytes()).collect()
}

//! Programs as people read them: each event with the narration's own names, and the step that it belongs to.

use crate::failure::Failure;
use crate::listing::{Event, Image, Program};
use crate::proved::Source;
use crate::subject::Subject;
use std::collections::HashMap;

/// An event, told.
#[derive(Clone, PartialEq, Eq, Debug)]
pub struct Told {
    /// `new`, `send`, `receive`, `check`, `open` or `end`.
    pub kind: &'static str,
    /// The step that it is sent or received at, or that it is done for; END has none.
    pub step: Option<u32>,
    /// What is done, without the kind.
    pub text: String,
    /// The rows that it is about: what is made, sent, received, compared, opened or kept.
    pub rows: Vec<u32>,
}

/// What placeholders are called, and the rows that they stand for.
pub struct Names<'s> {
    subject: &'s Subject,
    prefix: String,
}

impl<'s> Names<'s> {
    /// Placeholders are x and their number, or, where the text has such a name itself, more letters.
    pub fn of(subject: &'s Subject) -> Names<'s> {
        let taken = |prefix: &str| {
            let atoms = subject.names.atoms.iter().flatten();
            atoms.chain(subject.names.operations.values()).any(|name| {
                let number = name.strip_prefix(prefix);
                number.is_some_and(|number| !number.is_empty() && number.bytes().all(|byte| byte.is_ascii_digit()))
            })
        };
        let mut prefix = String::from("x");
        while taken(&prefix) {
            prefix.push('x');
        }
        Names { subject, prefix }
    }

    pub fn placeholder(&self, number: u32) -> String {
        format!("{}{number}", self.prefix)
    }

    /// How a row is held, if it is.
    pub fn held(&self, source: Source) -> Option<String> {
        let step = |step: u32| self.subject.step(step);
        match source {
            Source::Given => Some(String::from("given")),
            Source::Made { step: at } => Some(format!("made at {}", step(at))),
            Source::Stored { step: at, placeholder } => {
                Some(format!("stored at {} as {}", step(at), self.placeholder(placeholder)))
            }
            Source::Not => None,
        }
    }

    /// An image: what is held as itself by its name, and the rest by its placeholders.
    pub fn image(&self, image: &Image) -> String {
        match image {
            Image::Itself(row) => self.subject.term(*row).to_string(),
            Image::Placeholder(number) => self.placeholder(*number),
            Image::Operation(tag, arguments) => {
                format!("{}({})", self.subject.names.operation(*tag), self.images(arguments))
            }
            Image::Cipher(key, contents) => format!("{{{}}}{}", self.images(contents), self.image(key)),
            Image::Public(part) => self.half(part, '+'),
            Image::Private(part) => self.half(part, '-'),
        }
    }

    pub fn images(&self, images: &[Image]) -> String {
        let texts: Vec<String> = images.iter().map(|image| self.image(image)).collect();
        texts.join(", ")
    }

    /// A sign would go to a cipher's key, so a cipher under a half stands in parentheses.
    fn half(&self, part: &Image, sign: char) -> String {
        let text = self.image(part);
        match text.starts_with('{') {
            true => format!("({text}){sign}"),
            false => format!("{text}{sign}"),
        }
    }

    /// Placeholders and the rows that they stand for: `x3 = N, x4 = B`.
    fn run(&self, first: u32, rows: &[u32]) -> String {
        let named = (first..).zip(rows).map(|(number, row)| {
            let (own, term) = (self.placeholder(number), self.subject.term(*row));
            format!("{own} = {term}")
        });
        or_nothing(named.collect::<Vec<_>>().join(", "))
    }

    /// A party's events, told. What a placeholder stands for is told by the messages of its step and by the ciphers opened;
    /// END has to agree.
    pub fn program(&self, program: &Program) -> Result<Vec<Told>, Failure> {
        let book = &self.subject.book;
        let lost = || Failure::guard("a placeholder stands for no row");
        let mut rows: HashMap<u32, u32> = HashMap::new();
        let mut told: Vec<Told> = Vec::new();
        let mut at = None;
        for event in program {
            let (kind, step, text, about) = match event {
                Event::New { row } => ("new", None, self.subject.term(*row).to_string(), vec![*row]),
                Event::Send { step, images } => {
                    let sent = book.steps.get(*step as usize).ok_or_else(lost)?;
                    let made = told.iter_mut().rev().take_while(|told| told.kind == "new");
                    made.for_each(|told| told.step = Some(*step));
                    (
                        "send",
                        Some(*step),
                        or_nothing(self.images(images)),
                        sent.messages.clone(),
                    )
                }
                Event::Receive { step, first, n } => {
                    let messages = &book.steps.get(*step as usize).ok_or_else(lost)?.messages;
                    if messages.len() != *n as usize {
                        return Err(lost());
                    }
                    rows.extend((*first..).zip(messages.iter().copied()));
                    at = Some(*step);
                    ("receive", at, self.run(*first, messages), messages.clone())
                }
                Event::Check { placeholder, image } => {
                    let row = *rows.get(placeholder).ok_or_else(lost)?;
                    let text = format!("{} = {}", self.placeholder(*placeholder), self.image(image));
                    ("check", at, text, vec![row])
                }
                Event::Open {
                    placeholder,
                    first,
                    n,
                    key,
                } => {
                    let row = *rows.get(placeholder).ok_or_else(lost)?;
                    let contents = book.rows[row as usize].parts.get(1..).ok_or_else(lost)?;
                    if contents.len() != *n as usize {
                        return Err(lost());
                    }
                    rows.extend((*first..).zip(contents.iter().copied()));
                    let (own, key, run) = (
                        self.placeholder(*placeholder),
                        self.image(key),
                        self.run(*first, contents),
                    );
                    ("open", at, format!("{own} with {key}: {run}"), vec![row])
                }
                Event::End { stored } => {
                    let kept = stored.iter().map(|own| {
                        let same = rows.get(&own.placeholder) == Some(&own.row);
                        let term = self.subject.term(own.row);
                        same.then(|| format!("{term} as {}", self.placeholder(own.placeholder)))
                    });
                    let kept: Option<Vec<String>> = kept.collect();
                    let text = kept.ok_or_else(lost)?.join(", ");
                    let about = stored.iter().map(|own| own.row).collect();
                    ("end", None, format!("keeps {}", or_nothing(text)), about)
                }
            };
            told.push(Told {
                kind,
                step,
                text,
                rows: about,
            });
        }
        Ok(told)
    }
}

/// An empty list is said, not left to be guessed from a line's end.
fn or_nothing(text: String) -> String {
    match text.is_empty() {
        true => String::from("nothing"),
        false => text,
    }
}

//! `nghi build`: the book of a narration, and beside it what its rows and operations are called; or of a book a narration.

use crate::arguments::{Call, Command, Takes, FORCE, JSON};
use crate::commands::Output;
use crate::failure::{Failure, PLAYABLE, REFUSED};
use crate::guard;
use crate::input::{Content, Input};
use crate::json::answer;
use crate::playable;
use crate::proved::Answers;
use crate::report::{self, count};
use crate::store::{self, Target};
use crate::subject::{open, Opened, Subject};
use std::path::{Path, PathBuf};

pub static COMMAND: Command = Command {
    name: "build",
    takes: "FILE -o X.book|X.narration [--force] [--json]",
    does: "writes the book, and its names beside it as X.names; or of a book a narration; never over its source",
    places: (1, 1),
    options: &[("-o", Takes::One("the book's file, or the narration's")), FORCE, JSON],
};

/// What is asked for, and where it goes.
enum Asked {
    /// The book, and its names beside it.
    Book { book: PathBuf, names: PathBuf },
    /// The narration of a book, for a person who has only the book.
    Narration(PathBuf),
}

/// A file that was written: what it is, by the name of its JSON field, and what it is called.
type Wrote = (&'static str, String);

pub fn run(call: &Call) -> Result<Output, Failure> {
    let asked = asked(call)?;
    let input = Input::read(&call.places[0])?;
    if matches!((&asked, input.content()), (Asked::Narration(_), Content::Narration(_))) {
        return wrong(&format!(
            "{} is a narration already: one is written of a book alone",
            input.name
        ));
    }
    let unreadable = |report| Ok(playable::told(call, report));
    let subject = match open(&input)? {
        Opened::Subject(subject) => subject,
        Opened::Mistaken { lines, mistakes } => return unreadable(report::mistaken(&input.name, lines, &mistakes)),
        Opened::Refused(refusal) => return unreadable(report::no_book(&input.name, &input.bytes, refusal)),
    };
    let source = input.path.clone().or_else(store::standard_input);
    let force = call.has("--force");
    let (wrote, bytes) = match asked {
        Asked::Book { book, names } => {
            let book = Target::of(&book, source.as_deref(), is_book, "book", force)?;
            let names = Target::of(&names, source.as_deref(), is_names, "list of names", force)?;
            let wrote = vec![("book", book.name.clone()), ("names", names.name.clone())];
            let text = listed(&subject);
            store::write(&[(book, &subject.bytes), (names, text.as_bytes())])?;
            (wrote, subject.bytes.len())
        }
        Asked::Narration(path) => {
            let text = narration::write(&subject.book, &subject.names);
            guard::narration(&subject, &text)?;
            // Another narration is somebody's work, be it of the same book.
            let same = |there: &[u8]| there == text.as_bytes();
            let target = Target::of(&path, source.as_deref(), same, "copy of this narration", force)?;
            let wrote = vec![("narration", target.name.clone())];
            store::write(&[(target, text.as_bytes())])?;
            (wrote, text.len())
        }
    };
    told(call, &subject, &wrote, bytes)
}

fn asked(call: &Call) -> Result<Asked, Failure> {
    let Some(path) = call.value("-o") else {
        return wrong("`-o` is missing, the file that the book or the narration goes to");
    };
    let path = Path::new(path);
    if path == Path::new("-") || path.file_name().is_none() {
        return wrong("`-o` asks for a file: a book and its names go to two");
    }
    let ends = |end: &str| path.extension().is_some_and(|own| own.eq_ignore_ascii_case(end));
    if ends("names") {
        return wrong("a file that ends with .names is for the names, which go beside the book");
    }
    if ends("narration") {
        return Ok(Asked::Narration(path.to_path_buf()));
    }
    Ok(Asked::Book {
        book: path.to_path_buf(),
        names: path.with_extension("names"),
    })
}

fn wrong<T>(message: &str) -> Result<T, Failure> {
    Err(Failure::command_line(format!(
        "{message}\nuse: nghi build FILE -o X.book, or nghi build X.book -o X.narration"
    )))
}

/// By the proved reader: no refusal of 1 to 9.
fn is_book(bytes: &[u8]) -> bool {
    let refusal = nghiralum::translate(bytes, &mut []).err();
    refusal.is_none_or(|refusal| refusal.number() >= 10)
}

const HEAD: &str = "# The names of a book: of each row its name or term, of each operation's tag its name.\n";

fn is_names(bytes: &[u8]) -> bool {
    bytes.starts_with(HEAD.as_bytes())
}

/// A line a row, with its name or term, and a line an operation, with its tag and name.
fn listed(subject: &Subject) -> String {
    let mut text = String::from(HEAD);
    for (row, term) in subject.terms.iter().enumerate() {
        text.push_str(&format!("row {row} {term}\n"));
    }
    for (tag, name) in &subject.names.operations {
        text.push_str(&format!("operation {tag} {name}\n"));
    }
    text
}

/// What was written; of a book that can't be played also why, as it was written all the same. The bytes are the first file's.
fn told(call: &Call, subject: &Subject, wrote: &[Wrote], bytes: usize) -> Result<Output, Failure> {
    let refusal = Answers::of(subject)?.err();
    let status = if refusal.is_none() { PLAYABLE } else { REFUSED };
    let (rows, parties, steps) = (
        subject.book.rows.len(),
        subject.book.parties.len(),
        subject.book.steps.len(),
    );
    let text = match call.has("--json") {
        true => {
            let name = |field: &str| {
                wrote
                    .iter()
                    .find(|(own, _)| *own == field)
                    .map(|(_, name)| name.as_str())
            };
            let answer = answer(
                "build",
                [
                    ("file", subject.name.as_str().into()),
                    ("book", name("book").into()),
                    ("names", name("names").into()),
                    ("narration", name("narration").into()),
                    ("bytes", bytes.into()),
                    ("rows", rows.into()),
                    ("parties", parties.into()),
                    ("steps", steps.into()),
                    ("playable", refusal.is_none().into()),
                ],
            );
            format!("{answer}\n")
        }
        false => {
            let counts = [
                count(rows, "row", "rows"),
                count(parties, "party", "parties"),
                count(steps, "step", "steps"),
                count(bytes, "byte", "bytes"),
            ];
            let counts = format!(": {}", counts.join(", "));
            let mut text = String::new();
            for (n, (_, name)) in wrote.iter().enumerate() {
                text.push_str(&format!("wrote {name}{}\n", if n == 0 { &counts[..] } else { "" }));
            }
            if let Some(refusal) = refusal {
                text.push_str(&report::unplayable(subject, refusal)?.text(&[]));
            }
            text
        }
    };
    Ok(Output::answer(text, status))
}

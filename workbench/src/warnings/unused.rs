//! W1 and W2: what a party stored and never compared, opened or sent on.

use crate::failure::Failure;
use crate::listing::{Event, Image, Program, Stored};
use crate::playable::Playable;
use crate::proved::{Answers, Source};
use crate::question::{on_arrival, Arrival};
use crate::report::edits::{all_knowing, attempt, moved, opening, Edit, Help, Outcome};
use crate::report::{listed, short, Diagnostic};
use crate::subject::{Subject, Text};
use narration::book::{CIPHER, PRIVATE};
use narration::Spot;
use std::collections::{BTreeMap, BTreeSet};

/// Why it is told that a row was stored and never used.
#[derive(Clone, Copy, PartialEq, Eq, PartialOrd, Ord)]
enum Kind {
    /// The party could not check it, not even by the end.
    Plain,
    /// The same, of a cipher under a private half.
    Signature,
    /// By the end it could build it.
    Buildable,
    /// By the end it could open it.
    Openable,
}

/// Where there are more warnings than this, no helps are looked for: each has to be tried.
const MOST_HELPED: usize = 12;

/// One warning for each party, step and kind.
pub fn of(playable: &Playable) -> Result<Vec<Diagnostic>, Failure> {
    let (subject, answers) = (&playable.subject, &playable.answers);
    let mut found: BTreeMap<(u32, u32, Kind), Vec<u32>> = BTreeMap::new();
    for (party, program) in (0..).zip(&answers.programs) {
        for own in unused(program) {
            let kind = kind(playable, party, own.row)?;
            found.entry((party, own.step, kind)).or_default().push(own.row);
        }
    }
    let helped = found.len() <= MOST_HELPED;
    let mut warnings = Vec::new();
    for ((party, step, kind), rows) in found {
        let mut warning = warning(subject, party, step, kind, &rows);
        if helped {
            warning.helps.extend(help(subject, answers, party, step, kind, &rows)?);
        }
        warnings.push(warning);
    }
    Ok(warnings)
}

/// What a party stored and never used. That the same term came once more and was opened then says nothing of the first.
fn unused(program: &Program) -> impl Iterator<Item = Stored> + '_ {
    let used = used(program);
    stored(program).filter(move |own| !used.contains(&own.placeholder))
}

fn stored(program: &Program) -> impl Iterator<Item = Stored> + '_ {
    let end = program.iter().filter_map(|event| match event {
        Event::End { stored } => Some(stored),
        _ => None,
    });
    end.flatten().copied()
}

/// The placeholders that stand in what is sent, compared or opened, keys too.
fn used(program: &Program) -> BTreeSet<u32> {
    let mut used = BTreeSet::new();
    for event in program {
        match event {
            Event::Send { images, .. } => images.iter().for_each(|image| placeholders(image, &mut used)),
            Event::Check { placeholder, image } => {
                used.insert(*placeholder);
                placeholders(image, &mut used);
            }
            Event::Open { placeholder, key, .. } => {
                used.insert(*placeholder);
                placeholders(key, &mut used);
            }
            Event::New { .. } | Event::Receive { .. } | Event::End { .. } => (),
        }
    }
    used
}

fn placeholders(image: &Image, used: &mut BTreeSet<u32>) {
    match image {
        Image::Itself(_) => (),
        Image::Placeholder(number) => {
            used.insert(*number);
        }
        Image::Operation(_, parts) => parts.iter().for_each(|part| placeholders(part, used)),
        Image::Cipher(key, parts) => {
            placeholders(key, used);
            parts.iter().for_each(|part| placeholders(part, used));
        }
        Image::Public(part) | Image::Private(part) => placeholders(part, used),
    }
}

/// Whether the party could check the row by the end: what it would do if the row arrived then.
fn kind(playable: &Playable, party: u32, row: u32) -> Result<Kind, Failure> {
    let book = &playable.subject.book;
    let held = |own: u32| playable.answers.source(party, own) != Source::Not;
    let own = &book.rows[row as usize];
    Ok(match on_arrival(book, row, held)? {
        Arrival::Compared => Kind::Buildable,
        Arrival::Opened => Kind::Openable,
        Arrival::Stored if own.kind == CIPHER && book.rows[own.parts[0] as usize].kind == PRIVATE => Kind::Signature,
        Arrival::Stored => Kind::Plain,
    })
}

fn warning(subject: &Subject, party: u32, step: u32, kind: Kind, rows: &[u32]) -> Diagnostic {
    let name = subject.party(party);
    let terms: Vec<String> = rows.iter().map(|row| subject.term(*row).to_string()).collect();
    let (terms, them) = (listed(&terms), if rows.len() == 1 { "it" } else { "them" });
    let place = match subject.text {
        Some(_) => String::new(),
        None => format!(" in {}", subject.step(step)),
    };
    let (code, message, label) = match kind {
        Kind::Plain => (
            "W1",
            format!("{name} stores {terms}{place} and never compares, opens or sends {them} on"),
            format!("{name} keeps this as it comes"),
        ),
        Kind::Signature => (
            "W1",
            format!("{name} stores the signature {terms}{place} and never opens {them}"),
            format!("{name} can't tell who signed this, or what"),
        ),
        Kind::Buildable => (
            "W2",
            format!("{name} stores {terms}{place} unchecked, though it could compare {them} by the end"),
            format!("{name} can't build this yet"),
        ),
        Kind::Openable => (
            "W2",
            format!("{name} stores {terms}{place} unopened, though it could open {them} by the end"),
            format!("{name} lacks the key at this point"),
        ),
    };
    let warning = Diagnostic::warning(code, message);
    let warning = rows.iter().fold(warning, |warning, row| {
        warning.mark(spot(subject, step, *row), label.clone())
    });
    match code {
        "W2" => warning.note("it would be checked if it arrived later; what is stored is not looked at again"),
        _ => warning,
    }
}

/// Where a row is written in a step's line.
fn spot(subject: &Subject, step: u32, row: u32) -> Option<Spot> {
    let text = subject.text.as_ref()?;
    let line = subject.line(step);
    let written = text
        .narration
        .terms
        .iter()
        .filter(|(own, spot)| *own == row && Some(spot.line) == line);
    written.map(|(_, spot)| *spot).min()
}

/// A change with which these rows are checked: the step comes later; or of a cipher among them the party knows the key.
fn help(
    subject: &Subject,
    answers: &Answers,
    party: u32,
    step: u32,
    kind: Kind,
    rows: &[u32],
) -> Result<Option<Help>, Failure> {
    let Some(text) = &subject.text else { return Ok(None) };
    let tried = |edit: Edit, rows: &[u32], what: String| {
        let helps = attempt(&edit.lines) == Some(Outcome::Playable) && checked(subject, &edit.lines, party, rows)?;
        Ok(helps.then(|| Help::of(edit, Outcome::Checked(what))))
    };
    match kind {
        Kind::Plain | Kind::Signature => {
            let mut ciphers = rows
                .iter()
                .filter(|row| subject.book.rows[**row as usize].kind == CIPHER);
            let Some(cipher) = ciphers.next() else { return Ok(None) };
            let Some(edit) = with_key(subject, answers, party, *cipher) else {
                return Ok(None);
            };
            tried(edit, &[*cipher], format!("{} is opened", short(subject.term(*cipher))))
        }
        Kind::Buildable | Kind::Openable => {
            for edit in later(subject, text, step) {
                let what = if rows.len() == 1 {
                    "this is checked"
                } else {
                    "these are checked"
                };
                let help = tried(edit, rows, what.to_string())?;
                if help.is_some() {
                    return Ok(help);
                }
            }
            Ok(None)
        }
    }
}

/// The party knows what opens a cipher; a key that another party made is known to that one too.
fn with_key(subject: &Subject, answers: &Answers, party: u32, cipher: u32) -> Option<Edit> {
    let key = subject.book.rows[cipher as usize].parts[0];
    let parties = 0..subject.book.parties.len() as u32;
    let maker = |other: &u32| matches!(answers.source(*other, key), Source::Made { .. });
    let parties: Vec<u32> = parties.filter(|other| *other == party || maker(other)).collect();
    let lines = &subject.text.as_ref()?.lines;
    let edit = all_knowing(subject, lines, &parties, &opening(subject, key)?)?;
    let (name, cipher) = (subject.party(party), short(subject.term(cipher)));
    let message = format!("if {name} is to open {cipher}, {}", edit.message);
    Some(Edit { message, ..edit })
}

/// The step's line moves down, behind each of the next ones.
fn later(subject: &Subject, text: &Text, step: u32) -> Vec<Edit> {
    let lines = (step + 1..subject.book.steps.len() as u32).filter_map(|next| subject.line(next));
    let from = subject.line(step).unwrap_or(1);
    let edit = |to: usize| moved(&text.lines, from, to, format!("move line {from} behind line {to}"));
    lines.map(edit).collect()
}

/// Whether the party of a changed text leaves none of these rows unused.
fn checked(subject: &Subject, lines: &[String], party: u32, rows: &[u32]) -> Result<bool, Failure> {
    let Some(changed) = Playable::of_lines(&subject.name, lines)? else {
        return Ok(false);
    };
    let left = unused(&changed.answers.programs[party as usize]).map(|own| changed.subject.term(own.row));
    let left: Vec<&str> = left.collect();
    Ok(rows.iter().all(|row| !left.contains(&subject.term(*row))))
}

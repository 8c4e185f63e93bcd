//! `nghi knows`: which party holds which term, how and since when.

use crate::arguments::{Call, Command, Takes, JSON};
use crate::cells::{cells, padded};
use crate::commands::Output;
use crate::failure::{Failure, PLAYABLE};
use crate::guard::plain;
use crate::json::{answer, object, Json};
use crate::playable::{self, Playable};
use crate::proved::Source;
use crate::question::can_build;
use crate::slips::slips;
use crate::subject::{Subject, Text};
use crate::told::Names;

pub static COMMAND: Command = Command {
    name: "knows",
    takes: "FILE [--party P] [--at LINE] [--term T] [--json]",
    does: "who holds what, how and since when, and who can build it",
    places: (1, 1),
    options: &[
        ("--party", Takes::One("a party's name")),
        (
            "--at",
            Takes::One("a line: what is held after its step; of a book, a step"),
        ),
        ("--term", Takes::One("a term, as the narration has it")),
        JSON,
    ],
};

pub fn run(call: &Call) -> Result<Output, Failure> {
    let playable = match playable::open(call)? {
        Ok(playable) => playable,
        Err(output) => return Ok(output),
    };
    let subject = &playable.subject;
    let at = call.text("--at")?.map(|at| after(subject, &at)).transpose()?;
    let rows = match call.text("--term")? {
        Some(term) => vec![meant(subject, &term)?],
        None => (0..subject.terms.len() as u32).collect(),
    };
    let after = at.unwrap_or_else(|| (subject.book.steps.len() as u32).checked_sub(1));
    let parties = playable.parties(call.text("--party")?)?;
    let columns = parties.iter().map(|party| column(&playable, *party, &rows, after));
    let columns = columns.collect::<Result<_, _>>()?;
    let table = Table {
        playable: &playable,
        parties,
        columns,
        rows,
    };
    let text = match call.has("--json") {
        true => format!("{}\n", table.json(after)),
        false => {
            let head = at.map_or_else(String::new, |after| table.head(after));
            format!("{head}{}", table.text())
        }
    };
    Ok(Output::answer(text, PLAYABLE))
}

/// The number of a text's last line: behind a line's end there may be nothing more.
fn last(text: &Text) -> usize {
    let lines = text.lines.len();
    lines - usize::from(lines > 1 && text.lines[lines - 1].is_empty())
}

/// The step behind which it is asked: that of the line, or the last one before it; nothing is the start.
fn after(subject: &Subject, at: &str) -> Result<Option<u32>, Failure> {
    let steps = subject.book.steps.len();
    let wrong = |message: String| Failure::command_line(format!("`--at {at}`: {message}"));
    let number: Result<usize, _> = at.parse();
    match (&subject.text, number) {
        (Some(text), Ok(line)) if (1..=last(text)).contains(&line) => {
            let before = (text.narration.steps.iter()).take_while(|step| step.sender.line <= line);
            Ok((before.count() as u32).checked_sub(1))
        }
        (Some(text), _) => Err(wrong(format!(
            "a line of {} is asked for, 1 to {}",
            subject.name,
            last(text)
        ))),
        (None, Ok(step)) if step < steps => Ok(Some(step as u32)),
        (None, _) if steps == 0 => Err(wrong(format!("{} has no steps", subject.name))),
        (None, _) => Err(wrong(format!(
            "a step of {} is asked for, 0 to {}",
            subject.name,
            steps - 1
        ))),
    }
}

/// The row of a term, however its blanks and parentheses are set.
fn meant(subject: &Subject, written: &str) -> Result<u32, Failure> {
    let Some(term) = plain(written) else {
        let help = "a term is written as in a narration, such as K, f(N), {N, M}K or K+";
        return Err(Failure::command_line(format!("`{written}` is no term; {help}")));
    };
    if let Some(row) = subject.terms.iter().position(|own| *own == term) {
        return Ok(row as u32);
    }
    let near = nearest(&subject.terms, &term);
    let near = near.map_or_else(String::new, |own| format!("; the nearest is `{own}`"));
    Err(Failure::command_line(format!(
        "{} has no term `{term}`{near}",
        subject.name
    )))
}

/// The first of the terms from which the fewest letters differ, and no more than half of them.
fn nearest<'t>(terms: &'t [String], term: &str) -> Option<&'t str> {
    const MOST: usize = 10;
    let length = term.chars().count();
    let mut best: Option<&str> = None;
    let mut most = MOST;
    for own in terms {
        let half = own.chars().count().max(length) / 2;
        if let Some(differ) = slips(most.min(half), own, term) {
            best = Some(own);
            // The next one has to be nearer; the term itself is none of them.
            most = differ.saturating_sub(1);
        }
    }
    best
}

/// How a party has a row.
#[derive(Clone, Copy, PartialEq, Eq)]
enum Has {
    Held(Source),
    /// It is not held, and can be built from what is.
    Buildable,
    Not,
}

/// How a party has each of these rows after a step, or at the start.
fn column(playable: &Playable, party: u32, rows: &[u32], after: Option<u32>) -> Result<Vec<Has>, Failure> {
    let (book, answers) = (&playable.subject.book, &playable.answers);
    let holds = |row: u32| answers.holds(party, row, after);
    let has = |row: &u32| {
        Ok(match holds(*row) {
            true => Has::Held(answers.source(party, *row)),
            false if can_build(book, *row, holds)? == Some(true) => Has::Buildable,
            false => Has::Not,
        })
    };
    rows.iter().map(has).collect()
}

/// What is told: rows of the book, and in a column a party how it has each.
struct Table<'p> {
    playable: &'p Playable,
    parties: Vec<u32>,
    columns: Vec<Vec<Has>>,
    rows: Vec<u32>,
}

impl Table<'_> {
    /// When it is that is told of, where that was asked.
    fn head(&self, after: Option<u32>) -> String {
        match after {
            Some(step) => format!("after {}:\n", self.playable.subject.step(step)),
            None => String::from("at the start:\n"),
        }
    }

    /// A column a party, and the term last, as it may be long.
    fn text(&self) -> String {
        let subject = &self.playable.subject;
        let names = Names::of(subject);
        let not_held = || String::from("not held");
        let column = |(party, column): (&u32, &Vec<Has>)| -> Vec<String> {
            let cells = column.iter().map(|has| match *has {
                Has::Held(source) => names.held(source).unwrap_or_else(not_held),
                Has::Buildable => String::from("can build"),
                Has::Not => not_held(),
            });
            let head = subject.party(*party).to_string();
            std::iter::once(head).chain(cells).collect()
        };
        let columns: Vec<Vec<String>> = self.parties.iter().zip(&self.columns).map(column).collect();
        let widths: Vec<usize> = (columns.iter())
            .map(|column| column.iter().map(|cell| cells(cell)).max().unwrap_or(0))
            .collect();
        let terms = self.rows.iter().map(|row| subject.term(*row));
        let mut text = String::new();
        for (line, term) in std::iter::once("term").chain(terms).enumerate() {
            for (column, width) in columns.iter().zip(&widths) {
                text.push_str(&format!("{}  ", padded(&column[line], *width)));
            }
            text.push_str(&format!("{term}\n"));
        }
        text
    }

    fn json(&self, after: Option<u32>) -> Json {
        let subject = &self.playable.subject;
        let names = Names::of(subject);
        let cell = |row: u32, party: u32, has: Has| {
            let (how, step, placeholder) = match has {
                Has::Held(Source::Given) => ("given", None, None),
                Has::Held(Source::Made { step }) => ("made", Some(step), None),
                Has::Held(Source::Stored { step, placeholder }) => ("stored", Some(step), Some(placeholder)),
                Has::Buildable => ("can build", None, None),
                Has::Held(Source::Not) | Has::Not => ("not held", None, None),
            };
            object([
                ("party", subject.party(party).into()),
                ("held", self.playable.answers.holds(party, row, after).into()),
                ("how", how.into()),
                ("step", step.into()),
                ("line", step.and_then(|step| subject.line(step)).into()),
                ("as", placeholder.map(|number| names.placeholder(number)).into()),
            ])
        };
        let row = |(at, row): (usize, &u32)| {
            let cells = (self.parties.iter().zip(&self.columns))
                .map(|(party, column)| cell(*row, *party, column[at]))
                .collect::<Vec<_>>();
            object([
                ("row", (*row).into()),
                ("term", subject.term(*row).into()),
                ("parties", cells.into()),
            ])
        };
        answer(
            "knows",
            [
                ("file", subject.name.as_str().into()),
                ("step", after.into()),
                ("line", after.and_then(|step| subject.line(step)).into()),
                (
                    "terms",
                    self.rows.iter().enumerate().map(row).collect::<Vec<_>>().into(),
                ),
            ],
        )
    }
}

#[cfg(test)]
mod tests {
    use super::*;

    #[test]
    fn nearest_terms() {
        let terms = ["K", "{N, M}K", "{N}K", "KAB"].map(String::from);
        assert_eq!(nearest(&terms, "{N, M}L"), Some("{N, M}K"));
        assert_eq!(nearest(&terms, "KA"), Some("K"));
        assert_eq!(nearest(&terms, "KBB"), Some("KAB"));
        assert_eq!(nearest(&terms, "{N, M, KAB, {N, M}K}K"), None);
        assert_eq!(nearest(&[], "K"), None);
        assert_eq!(nearest(&terms, "Q"), None);
    }
}

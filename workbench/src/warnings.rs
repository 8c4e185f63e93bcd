//! Warnings: what can be played, and is perhaps not what was meant. They are read off the proved programs and the proved
//! summary; what a party could check is asked of the proved translator.
//!
//! W1: stored and never compared, opened or sent on. W2: the same, though the party could check it by the end. W3: a private
//! half of a party's name, which everyone who knows the name can build. W4: names that look alike. W5: one operation with
//! several numbers of arguments.

mod alike;
mod unused;

pub use alike::{alike, family};

use crate::failure::Failure;
use crate::playable::Playable;
use crate::report::{listed, Diagnostic, Report, Severity};
use crate::subject::Subject;
use narration::book::{ATOM, OPERATION, PRIVATE};
use narration::Spot;
use std::collections::BTreeMap;

pub const CODES: [&str; 5] = ["W1", "W2", "W3", "W4", "W5"];

/// The warnings about what can be played, by their places in the text.
pub fn of(playable: &Playable) -> Result<Vec<Diagnostic>, Failure> {
    let mut warnings = unused::of(playable)?;
    warnings.extend(private_names(playable));
    warnings.extend(of_names(&playable.subject));
    warnings.sort_by_key(|warning| warning.marks.first().map(|mark| mark.spot));
    Ok(warnings)
}

/// The warnings that a text deserves by its names alone, whether it can be played or not.
pub fn of_names(subject: &Subject) -> Vec<Diagnostic> {
    let mut warnings = alike::of(subject);
    warnings.extend(arguments(subject));
    warnings
}

/// A report without the warnings that its file wants: a comment `# allow W1` or `# allow W1: reason` in a line of its own.
pub fn wanted(mut report: Report) -> Report {
    let wanted: Vec<(String, String)> = report.lines.iter().flat_map(|line| allows(line)).collect();
    let mut left = Vec::new();
    for diagnostic in report.diagnostics {
        let reason = wanted.iter().find(|(code, _)| *code == diagnostic.code);
        match reason.filter(|_| diagnostic.severity == Severity::Warning) {
            Some((_, reason)) => report.allowed.push((diagnostic, reason.clone())),
            None => left.push(diagnostic),
        }
    }
    report.diagnostics = left;
    report
}

/// The codes that a line allows, with its reason.
fn allows(line: &str) -> Vec<(String, String)> {
    let comment = line.trim_start().strip_prefix('#').map(str::trim_start);
    let Some(rest) = comment.and_then(|comment| comment.strip_prefix("allow ")) else {
        return Vec::new();
    };
    let (codes, reason) = rest.split_once(':').unwrap_or((rest, ""));
    let codes: Vec<String> = codes.split(',').map(|code| code.trim().to_uppercase()).collect();
    // A comment that happens to begin so is a comment.
    if !codes.iter().all(|code| CODES.contains(&&code[..])) {
        return Vec::new();
    }
    codes
        .into_iter()
        .map(|code| (code, reason.trim().to_string()))
        .collect()
}

/// W3. Only where a party that doesn't have the name holds it.
fn private_names(playable: &Playable) -> Vec<Diagnostic> {
    let subject = &playable.subject;
    let book = &subject.book;
    let mut warnings = Vec::new();
    for (row, half) in (0..).zip(&book.rows).filter(|(_, row)| row.kind == PRIVATE) {
        let Some(owner) = book.parties.iter().position(|party| party.name == half.parts[0]) else {
            continue;
        };
        let last = book.steps.len().checked_sub(1).map(|step| step as u32);
        let others: Vec<String> = (0..book.parties.len() as u32)
            .filter(|party| *party as usize != owner && playable.answers.holds(*party, half.parts[0], last))
            .map(|party| subject.party(party).to_string())
            .collect();
        if others.is_empty() {
            continue;
        }
        let (term, name) = (subject.term(row), subject.term(half.parts[0]));
        let message = format!(
            "{term} can be built by {}, as by everyone who holds the name {name}",
            listed(&others)
        );
        let warning = Diagnostic::warning("W3", message)
            .mark(first(subject, row), "a private half of a name is no secret")
            .note(format!(
                "a key of its own, as in `party {name} knows K{name}+, K{name}-`, is {name}'s alone"
            ));
        warnings.push(warning);
    }
    warnings
}

/// W5.
fn arguments(subject: &Subject) -> Vec<Diagnostic> {
    let mut uses: BTreeMap<u32, BTreeMap<usize, u32>> = BTreeMap::new();
    for (row, own) in (0..).zip(&subject.book.rows).filter(|(_, row)| row.kind == OPERATION) {
        uses.entry(own.tag).or_default().entry(own.parts.len()).or_insert(row);
    }
    let several = uses.into_iter().filter(|(_, counts)| counts.len() > 1);
    several
        .map(|(tag, counts)| {
            let numbers: Vec<String> = counts.keys().map(usize::to_string).collect();
            let name = subject.names.operation(tag);
            let message = format!("{name} is used with {} arguments", listed(&numbers));
            let mut marks: Vec<(Option<Spot>, usize)> =
                counts.iter().map(|(n, row)| (first(subject, *row), *n)).collect();
            marks.sort();
            let label = |n: usize| {
                if n == 1 {
                    String::from("1 argument")
                } else {
                    format!("{n} arguments")
                }
            };
            let warning = Diagnostic::warning("W5", message)
                .note("operations with another number of arguments are other operations, whatever their name");
            marks
                .into_iter()
                .fold(warning, |warning, (spot, n)| warning.mark(spot, label(n)))
        })
        .collect()
}

/// Where a row is first written in the text.
fn first(subject: &Subject, row: u32) -> Option<Spot> {
    let text = subject.text.as_ref()?;
    let written = text.narration.terms.iter().filter(|(own, _)| *own == row);
    written.map(|(_, spot)| *spot).min()
}

/// Where each atom is written, as a term or as a party's name.
fn atoms(subject: &Subject) -> BTreeMap<u32, Vec<Spot>> {
    let mut atoms: BTreeMap<u32, Vec<Spot>> = BTreeMap::new();
    let Some(text) = &subject.text else { return atoms };
    let names =
        (subject.book.parties.iter().zip(&text.narration.parties)).map(|(party, place)| (party.name, place.name));
    for (row, spot) in text.narration.terms.iter().copied().chain(names) {
        if subject.book.rows[row as usize].kind == ATOM {
            atoms.entry(row).or_default().push(spot);
        }
    }
    // A party says its name when it sends or receives, too.
    for (step, place) in subject.book.steps.iter().zip(&text.narration.steps) {
        for (party, spot) in [(step.sender, place.sender), (step.receiver, place.receiver)] {
            let name = subject.book.parties[party as usize].name;
            atoms.entry(name).or_default().push(spot);
        }
    }
    atoms.values_mut().for_each(|spots| spots.sort_unstable());
    atoms
}

/// Where the name of each operation is written.
fn operations(subject: &Subject) -> BTreeMap<String, Vec<Spot>> {
    let mut operations: BTreeMap<String, Vec<Spot>> = BTreeMap::new();
    let Some(text) = &subject.text else { return operations };
    for (row, spot) in &text.narration.terms {
        let row = &subject.book.rows[*row as usize];
        if row.kind == OPERATION {
            let name = subject.names.operation(row.tag);
            let length = name.chars().count();
            operations.entry(name).or_default().push(Spot { length, ..*spot });
        }
    }
    operations.values_mut().for_each(|spots| spots.sort_unstable());
    operations
}

#[cfg(test)]
mod tests {
    use super::*;

    #[test]
    fn allowed() {
        let one = |code: &str, reason: &str| (code.to_string(), reason.to_string());
        assert_eq!(allows("# allow W1"), [one("W1", "")]);
        assert_eq!(
            allows("  #allow w1, W3: as in the paper"),
            [one("W1", "as in the paper"), one("W3", "as in the paper")]
        );
        assert_eq!(allows("# allow W9"), []);
        assert_eq!(allows("# allow nobody in"), []);
        assert_eq!(allows("A -> B: N # allow W1"), []);
    }
}

//! `nghi check`: whether files can be played, and what is wrong in them or deserves a look.

use crate::arguments::{Call, Command, Takes, JSON};
use crate::commands::Output;
use crate::failure::{Failure, FILE, PLAYABLE, REFUSED};
use crate::input::{self, Input};
use crate::playable;
use crate::progress::Progress;
use crate::report::{answered, count, Report, Verdict};
use crate::warnings;
use std::ffi::OsStr;

pub static COMMAND: Command = Command {
    name: "check",
    takes: "FILE.. [--deny W2] [--json]",
    does: "whether it can be played, and what is wrong or deserves a look",
    places: (1, usize::MAX),
    options: &[("--deny", Takes::Many("W1 to W5, or all")), JSON],
};

pub fn run(call: &Call) -> Result<Output, Failure> {
    let denied = denied(call)?;
    let mut reports = Vec::new();
    let mut progress = Progress::of("files");
    for path in &call.places {
        progress.tell(reports.len());
        reports.push(report(path));
    }
    let status = (reports.iter().map(|report| status(report, &denied)))
        .max()
        .unwrap_or(PLAYABLE);
    let text = match call.has("--json") {
        true => format!("{}\n", answered(&reports, status)),
        false => text(&reports, &denied),
    };
    Ok(Output::answer(text, status))
}

/// The codes of the warnings that are denied.
fn denied(call: &Call) -> Result<Vec<String>, Failure> {
    let mut denied = Vec::new();
    for value in call.all("--deny") {
        let value = value.to_string_lossy().to_uppercase();
        for code in value.split(',').map(str::trim) {
            match code {
                "ALL" => denied.extend(warnings::CODES.map(str::to_string)),
                _ if warnings::CODES.contains(&code) => denied.push(code.to_string()),
                _ => {
                    return Err(Failure::command_line(format!(
                        "`{code}` is no warning that can be denied; these are {}, or all",
                        warnings::CODES.join(", ")
                    )))
                }
            }
        }
    }
    Ok(denied)
}

/// All that is said of one file. One that can't be read is told among the others.
fn report(path: &OsStr) -> Report {
    match Input::read(path) {
        Ok(input) => of(&input),
        Err(failure) => Report::unread(&input::name(path), &failure),
    }
}

/// All that is said of what was handed in, and if that is nothing, why.
pub fn of(input: &Input) -> Report {
    examined(input).unwrap_or_else(|failure| Report::unread(&input.name, &failure))
}

fn examined(input: &Input) -> Result<Report, Failure> {
    match playable::examine(input)? {
        Ok(playable) => {
            let subject = &playable.subject;
            let verdict = Verdict::Playable {
                parties: subject.book.parties.len(),
                steps: subject.book.steps.len(),
            };
            let lines = subject.text.as_ref().map_or_else(Vec::new, |text| text.lines.clone());
            let report = Report::new(&input.name, lines, verdict, warnings::of(&playable)?);
            Ok(warnings::wanted(report))
        }
        Err(report) => Ok(report),
    }
}

fn status(report: &Report, denied: &[String]) -> u8 {
    let found = report
        .warnings()
        .into_iter()
        .any(|code| denied.iter().any(|own| own == code));
    match found {
        true => report.status().max(REFUSED),
        false => report.status(),
    }
}

/// The reports one after another, and of several files a line about them all.
fn text(reports: &[Report], denied: &[String]) -> String {
    let mut text: String = reports.iter().map(|report| report.text(denied)).collect();
    if let [_, _, ..] = reports {
        let of = |kind: fn(&Verdict) -> bool| reports.iter().filter(|report| kind(&report.verdict)).count();
        let kinds = [
            (of(|verdict| matches!(verdict, Verdict::Playable { .. })), "playable"),
            (of(|verdict| matches!(verdict, Verdict::Refused(_))), "refused"),
            (of(|verdict| matches!(verdict, Verdict::Mistaken(_))), "with mistakes"),
            (of(|verdict| matches!(verdict, Verdict::Unread(FILE))), "not read"),
            (
                of(|verdict| matches!(verdict, Verdict::Unread(status) if *status != FILE)),
                "not answered",
            ),
        ];
        let told: Vec<String> = (kinds.iter().filter(|(n, _)| *n > 0))
            .map(|(n, kind)| format!("{n} {kind}"))
            .collect();
        text.push_str(&format!(
            "{}: {}\n",
            count(reports.len(), "file", "files"),
            told.join(", ")
        ));
    }
    text
}

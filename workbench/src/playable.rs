//! What most commands begin with: a file that has to be playable, and the answers about it.

use crate::arguments::Call;
use crate::commands::Output;
use crate::failure::Failure;
use crate::input::Input;
use crate::proved::Answers;
use crate::report::{self, edits, Report};
use crate::subject::{open as open_input, Opened, Subject};

pub struct Playable {
    pub subject: Subject,
    pub answers: Answers,
}

/// The command's first file, if it can be played; else what `nghi check` says of it.
pub fn open(call: &Call) -> Result<Result<Playable, Output>, Failure> {
    let input = Input::read(&call.places[0])?;
    Ok(examine(&input)?.map_err(|report| told(call, report)))
}

/// What a command answers of a file that it can do nothing with.
pub fn told(call: &Call, report: Report) -> Output {
    let status = report.status();
    match call.has("--json") {
        true => Output::answer(format!("{}\n", report::answered(&[report], status)), status),
        false => Output::error(report.text(&[]), status),
    }
}

/// What was handed in, if it can be played; else why it can't.
pub fn examine(input: &Input) -> Result<Result<Playable, Report>, Failure> {
    let report = match open_input(input)? {
        Opened::Mistaken { lines, mistakes } => report::mistaken(&input.name, lines, &mistakes),
        Opened::Refused(refusal) => report::no_book(&input.name, &input.bytes, refusal),
        Opened::Subject(subject) => match Answers::of(&subject)? {
            Ok(answers) => {
                return Ok(Ok(Playable {
                    subject: *subject,
                    answers,
                }))
            }
            Err(refusal) => report::unplayable(&subject, refusal)?,
        },
    };
    Ok(Err(report))
}

impl Playable {
    /// Of a text that was changed, if it can be played.
    pub fn of_lines(name: &str, lines: &[String]) -> Result<Option<Playable>, Failure> {
        let input = Input {
            name: name.to_string(),
            path: None,
            bytes: edits::text(lines).into_bytes(),
        };
        let Opened::Subject(subject) = open_input(&input)? else {
            return Ok(None);
        };
        let answers = Answers::of(&subject)?.ok();
        Ok(answers.map(|answers| Playable {
            subject: *subject,
            answers,
        }))
    }

    /// The party that was asked for, or all.
    pub fn parties(&self, asked: Option<String>) -> Result<Vec<u32>, Failure> {
        match asked {
            Some(name) => Ok(vec![self.subject.meant(&name)?]),
            None => Ok((0..self.subject.book.parties.len() as u32).collect()),
        }
    }
}

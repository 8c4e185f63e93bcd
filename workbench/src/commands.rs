//! The commands: each reads its files, asks the proved functions, and answers with a text and a status.

pub mod build;
pub mod check;
pub mod completions;
pub mod draw;
pub mod explain;
pub mod judge;
pub mod knows;
pub mod new;
pub mod play;
pub mod programs;
pub mod watch;

use crate::arguments::{Call, Command};
use crate::failure::Failure;
use crate::json::answer;
use crate::slips::slips;
use std::ffi::OsString;

/// What a command answers, and its status. The answer goes to standard output; where there is none, what is said instead
/// goes to standard error.
#[derive(Clone, PartialEq, Eq, Debug)]
pub struct Output {
    pub text: String,
    pub status: u8,
    pub error: bool,
}

impl Output {
    pub fn answer(text: String, status: u8) -> Output {
        Output {
            text,
            status,
            error: false,
        }
    }

    pub fn error(text: String, status: u8) -> Output {
        Output {
            text,
            status,
            error: true,
        }
    }
}

type Run = fn(&Call) -> Result<Output, Failure>;

/// The commands, in the order of the help.
static COMMANDS: &[(&Command, Run)] = &[
    (&check::COMMAND, check::run),
    (&programs::COMMAND, programs::run),
    (&knows::COMMAND, knows::run),
    (&play::COMMAND, play::run),
    (&judge::COMMAND, judge::run),
    (&draw::COMMAND, draw::run),
    (&build::COMMAND, build::run),
    (&watch::COMMAND, watch::run),
    (&explain::COMMAND, explain::run),
    (&new::COMMAND, new::run),
    (&completions::COMMAND, completions::run),
];

/// Runs a command line. Where there is no answer, and one for programs was asked, it says why on the line that they read.
pub fn run(arguments: &[OsString]) -> Result<Output, Failure> {
    match answered(arguments) {
        Err(failure) if arguments.iter().any(|argument| argument == "--json") => {
            let command = arguments[0].to_string_lossy();
            let fields = [
                ("status", u32::from(failure.status).into()),
                ("error", failure.message.as_str().into()),
            ];
            let text = format!("{}\n", answer(&command, fields));
            Ok(Output::answer(text, failure.status))
        }
        answered => answered,
    }
}

fn answered(arguments: &[OsString]) -> Result<Output, Failure> {
    let Some((name, rest)) = arguments.split_first() else {
        return Ok(told(help()));
    };
    let name = name.to_string_lossy();
    match &name[..] {
        "help" | "--help" | "-h" => {
            let asked = rest
                .iter()
                .find(|argument| !argument.to_string_lossy().starts_with('-'));
            return match asked {
                None => Ok(told(help())),
                Some(asked) => answered(&[asked.clone(), "--help".into()]),
            };
        }
        "--version" | "-V" => return Ok(told(format!("nghi {}\n", env!("CARGO_PKG_VERSION")))),
        _ => (),
    }
    let Some((command, run)) = COMMANDS.iter().find(|(command, _)| command.name == name) else {
        let near = COMMANDS
            .iter()
            .find(|(command, _)| slips(2, command.name, &name).is_some());
        let near = near.map_or_else(String::new, |(command, _)| format!("; is `{}` meant?", command.name));
        return Err(Failure::command_line(format!(
            "`{name}` is no command{near}\nuse: nghi COMMAND FILE.. (`nghi --help` lists the commands)"
        )));
    };
    let mut options = rest.iter().take_while(|argument| *argument != "--");
    if options.any(|argument| argument == "--help" || argument == "-h") {
        return Ok(told(help_of(command)));
    }
    run(&Call::of(command, rest)?)
}

fn told(text: String) -> Output {
    Output::answer(text, 0)
}

fn help() -> String {
    let mut text = String::from("nghi: what the proved translator says of a handshake, for people\n\n");
    for (command, _) in COMMANDS {
        text.push_str(&format!(
            "  nghi {} {}\n      {}\n",
            command.name, command.takes, command.does
        ));
    }
    text.push_str(
        "\nFILE is a narration, a book, or - for standard input. --json answers for programs.\n\
         Status: 0 playable, 1 refused or a denied warning, 2 command line, 3 mistake in the text, 4 file, 70 guard.\n",
    );
    text
}

fn help_of(command: &Command) -> String {
    let mut text = format!("nghi {} {}\n\n  {}\n\n", command.name, command.takes, command.does);
    let width = command.options.iter().map(|(option, _)| option.len()).max();
    for (option, takes) in command.options {
        text.push_str(&format!("  {option:0$}  {1}\n", width.unwrap_or(0), takes.what()));
    }
    text
}

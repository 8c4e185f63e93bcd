//! Why a command ends without an answer, and the status that says so.

use std::{fmt, io};

/// A message, and the status that goes with it.
#[derive(Clone, PartialEq, Eq, Debug)]
pub struct Failure {
    pub status: u8,
    pub message: String,
}

/// What is asked can be played, and nothing that is denied was warned of.
pub const PLAYABLE: u8 = 0;
/// It is refused, or a warning is that is denied.
pub const REFUSED: u8 = 1;
const COMMAND_LINE: u8 = 2;
/// There is a mistake in the text.
pub const MISTAKE: u8 = 3;
/// A file can't be read or written, or is something else.
pub const FILE: u8 = 4;
const GUARD: u8 = 70;

impl Failure {
    pub fn command_line(message: impl Into<String>) -> Failure {
        Failure::new(COMMAND_LINE, message)
    }

    pub fn mistake(message: impl Into<String>) -> Failure {
        Failure::new(MISTAKE, message)
    }

    pub fn file(message: impl Into<String>) -> Failure {
        Failure::new(FILE, message)
    }

    /// A guard broke: what is not proved did not keep what it was given.
    pub fn guard(message: impl fmt::Display) -> Failure {
        let help = "this is a fault of the workbench, and nothing was answered; please report it with the file";
        Failure::new(GUARD, format!("guard: {message}\n{help}"))
    }

    fn new(status: u8, message: impl Into<String>) -> Failure {
        Failure {
            status,
            message: message.into(),
        }
    }
}

/// What the system says, without the number that it gives it.
pub fn plain(error: &io::Error) -> String {
    let text = error.to_string();
    text.split(" (os error").next().unwrap_or(&text).to_string()
}

impl fmt::Display for Failure {
    fn fmt(&self, out: &mut fmt::Formatter<'_>) -> fmt::Result {
        out.write_str(&self.message)
    }
}

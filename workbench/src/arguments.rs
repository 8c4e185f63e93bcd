//! The command line: a command, its files and its options. Paths need not be UTF-8.

use crate::failure::Failure;
use crate::slips::slips;
use std::collections::BTreeMap;
use std::ffi::{OsStr, OsString};

/// A command as it can be written.
pub struct Command {
    pub name: &'static str,
    /// What stands behind the name, as the help has it.
    pub takes: &'static str,
    /// What it does, in a line.
    pub does: &'static str,
    /// The fewest and the most things besides options.
    pub places: (usize, usize),
    pub options: &'static [(&'static str, Takes)],
}

/// What an option takes, and what that is: nothing, and what the option does; a value; or values, one each time that it is
/// written.
#[derive(Clone, Copy, PartialEq, Eq, Debug)]
pub enum Takes {
    Nothing(&'static str),
    One(&'static str),
    Many(&'static str),
}

impl Takes {
    pub fn what(self) -> &'static str {
        match self {
            Takes::Nothing(what) | Takes::One(what) | Takes::Many(what) => what,
        }
    }
}

/// Options that several commands have.
pub const JSON: (&str, Takes) = ("--json", Takes::Nothing("one line of JSON, for programs"));
pub const FORCE: (&str, Takes) = ("--force", Takes::Nothing("also over a file that is something else"));
pub const ORDER: (&str, Takes) = ("--order", Takes::One("narration, round, reverse or random:SEED"));

/// A command as it was written.
#[derive(Debug)]
pub struct Call {
    pub places: Vec<OsString>,
    options: BTreeMap<&'static str, Vec<OsString>>,
}

impl Call {
    /// Reads what stands behind a command's name. `--` ends the options, and `-` alone is standard input.
    pub fn of(command: &'static Command, arguments: &[OsString]) -> Result<Call, Failure> {
        let wrong = |message: String| {
            let how = format!("nghi {} {}", command.name, command.takes);
            Failure::command_line(format!("{message}\nuse: {}", how.trim_end()))
        };
        let mut call = Call {
            places: Vec::new(),
            options: BTreeMap::new(),
        };
        let mut rest = arguments.iter();
        let mut ended = false;
        while let Some(argument) = rest.next() {
            let text = argument.to_string_lossy();
            if ended || text == "-" || !text.starts_with('-') {
                call.places.push(argument.clone());
                continue;
            }
            if text == "--" {
                ended = true;
                continue;
            }
            let (name, joined) = match text.split_once('=') {
                Some((name, value)) => (name, Some(OsString::from(value))),
                None => (&text[..], None),
            };
            let known = command.options.iter().find(|(own, _)| *own == name);
            let Some((name, takes)) = known else {
                return Err(wrong(format!(
                    "`{name}` is no option of `nghi {}`{}",
                    command.name,
                    near(name, command)
                )));
            };
            let given = match (takes, joined) {
                (Takes::Nothing(_), None) => OsString::new(),
                (Takes::Nothing(_), Some(_)) => return Err(wrong(format!("`{name}` has no value"))),
                (Takes::One(_), _) if call.has(name) => return Err(wrong(format!("`{name}` is given twice"))),
                // Behind `=` a path that is no text would lose its bytes.
                (_, Some(_)) if argument.to_str().is_none() => {
                    return Err(wrong(format!(
                        "the value of `{name}` is no text; put a blank before it, not `=`"
                    )))
                }
                (_, Some(value)) => value,
                (Takes::One(what) | Takes::Many(what), None) => match rest.next() {
                    Some(value) => value.clone(),
                    None => return Err(wrong(format!("`{name}` needs a value, {what}"))),
                },
            };
            call.options.entry(name).or_default().push(given);
        }
        let (least, most) = command.places;
        if call.places.len() < least || call.places.len() > most {
            let found = call.places.len();
            let asked = match least == most {
                true => least.to_string(),
                false if most == usize::MAX => format!("at least {least}"),
                false => format!("{least} to {most}"),
            };
            let verb = if found == 1 { "is" } else { "are" };
            return Err(wrong(format!(
                "`nghi {}` takes {asked} besides options, and {found} {verb} given",
                command.name
            )));
        }
        if call.places.iter().filter(|place| *place == "-").count() > 1 {
            return Err(wrong(String::from("standard input can be one file and not two")));
        }
        Ok(call)
    }

    pub fn has(&self, option: &str) -> bool {
        self.options.contains_key(option)
    }

    /// The values of an option, in the order in which they were written.
    pub fn all(&self, option: &str) -> &[OsString] {
        self.options.get(option).map_or(&[], Vec::as_slice)
    }

    /// The value of an option that is written once.
    pub fn value(&self, option: &str) -> Option<&OsStr> {
        self.all(option).first().map(OsString::as_os_str)
    }

    /// The same as text.
    pub fn text(&self, option: &str) -> Result<Option<String>, Failure> {
        let text = |value: &OsStr| {
            let text = value.to_str().map(str::to_string);
            text.ok_or_else(|| Failure::command_line(format!("the value of `{option}` is no text")))
        };
        self.value(option).map(text).transpose()
    }
}

/// The option that was perhaps meant.
fn near(name: &str, command: &Command) -> String {
    let alike = command.options.iter().find(|(own, _)| slips(2, own, name).is_some());
    alike.map_or_else(String::new, |(own, _)| format!("; is `{own}` meant?"))
}

#[cfg(test)]
mod tests {
    use super::*;

    static CHECK: Command = Command {
        name: "check",
        takes: "FILE..",
        does: "",
        places: (1, usize::MAX),
        options: &[
            ("--deny", Takes::Many("W1 to W5")),
            ("--at", Takes::One("a line")),
            JSON,
        ],
    };

    fn call(arguments: &[&str]) -> Result<Call, String> {
        let arguments: Vec<OsString> = arguments.iter().map(OsString::from).collect();
        Call::of(&CHECK, &arguments).map_err(|failure| failure.message)
    }

    #[test]
    fn calls() {
        let read = call(&["a", "--deny", "W1", "-", "--deny=W2", "--json", "--", "--b"]).unwrap();
        assert_eq!(read.places, ["a", "-", "--b"]);
        assert_eq!(read.all("--deny"), ["W1", "W2"]);
        assert!(read.has("--json") && !read.has("--other"));
        assert!(call(&[]).unwrap_err().contains("at least 1"));
        assert!(call(&["a", "--jsn"]).unwrap_err().contains("is `--json` meant?"));
        assert!(call(&["a", "--json=1"]).unwrap_err().contains("has no value"));
        assert!(call(&["a", "--deny"]).unwrap_err().contains("W1 to W5"));
        assert!(call(&["a", "--at", "1", "--at=2"]).unwrap_err().contains("given twice"));
        assert_eq!(
            call(&["a", "--at", "1"]).unwrap().text("--at"),
            Ok(Some("1".to_string()))
        );
    }
}

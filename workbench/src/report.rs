//! What is said of a file: whether it can be played, and diagnostics as a compiler has them: the file, line and column, the
//! line itself with a mark under the term, what is known about it, and helps that were tried.

mod cures;
pub mod edits;
mod excerpt;
mod mistaken;
mod refused;
mod why;
mod words;

pub use mistaken::mistaken;
pub use refused::{no_book, unplayable};
pub use words::{count, listed, short};

use crate::failure::{Failure, FILE, MISTAKE, PLAYABLE, REFUSED};
use crate::json::{answer, object, Json};
use edits::Help;
use narration::Spot;

#[derive(Clone, Copy, PartialEq, Eq, Debug)]
pub enum Severity {
    Error,
    Warning,
}

/// A place in the text, and what is said of it.
#[derive(Clone, PartialEq, Eq, Debug)]
pub struct Mark {
    pub spot: Spot,
    pub label: String,
}

/// One thing that is wrong, or that deserves a look. Its first mark is where it is.
#[derive(Clone, PartialEq, Eq, Debug)]
pub struct Diagnostic {
    pub severity: Severity,
    /// `R10`, `W1`; or `text` for a mistake in the text, `file` for a file that can't be read, and `guard` where a guard broke.
    pub code: String,
    pub message: String,
    pub marks: Vec<Mark>,
    pub notes: Vec<String>,
    pub helps: Vec<Help>,
}

#[derive(Clone, Copy, PartialEq, Eq, Debug)]
pub enum Verdict {
    Playable {
        parties: usize,
        steps: usize,
    },
    /// By the refusal of this number.
    Refused(u8),
    /// The text is no narration: so many mistakes.
    Mistaken(usize),
    /// Nothing can be said of it: the status that says why.
    Unread(u8),
}

/// All that is said of one file.
#[derive(Clone, PartialEq, Eq, Debug)]
pub struct Report {
    pub name: String,
    /// The lines of its text, if it has one.
    pub lines: Vec<String>,
    pub verdict: Verdict,
    pub diagnostics: Vec<Diagnostic>,
    /// The warnings that the file wants, with its reason.
    pub allowed: Vec<(Diagnostic, String)>,
}

impl Diagnostic {
    pub fn new(severity: Severity, code: impl Into<String>, message: impl Into<String>) -> Diagnostic {
        Diagnostic {
            severity,
            code: code.into(),
            message: message.into(),
            marks: Vec::new(),
            notes: Vec::new(),
            helps: Vec::new(),
        }
    }

    pub fn error(code: impl Into<String>, message: impl Into<String>) -> Diagnostic {
        Diagnostic::new(Severity::Error, code, message)
    }

    pub fn warning(code: impl Into<String>, message: impl Into<String>) -> Diagnostic {
        Diagnostic::new(Severity::Warning, code, message)
    }

    /// With one more mark, if there is a place for it.
    pub fn mark(mut self, spot: Option<Spot>, label: impl Into<String>) -> Diagnostic {
        let label = label.into();
        self.marks.extend(spot.map(|spot| Mark { spot, label }));
        self
    }

    pub fn note(mut self, note: impl Into<String>) -> Diagnostic {
        self.notes.push(note.into());
        self
    }

    /// As a compiler prints it, with an empty line behind it.
    fn text(&self, name: &str, lines: &[String]) -> String {
        let kind = match self.severity {
            Severity::Error => "error",
            Severity::Warning => "warning",
        };
        // There is nothing to explain of a mistake but what it says.
        let code = match self.code.as_str() {
            "text" | "file" | "guard" => String::new(),
            code => format!("[{code}]"),
        };
        let plain = excerpt::plain;
        let mut text = format!("{kind}{code}: {}\n", plain(&self.message));
        let margin = excerpt::margin(&self.marks, &self.helps);
        text.push_str(&excerpt::marks(name, lines, &self.marks, margin));
        for note in &self.notes {
            text.push_str(&format!("{:margin$} = note: {}\n", "", plain(note)));
        }
        for help in &self.helps {
            text.push_str(&format!("{:margin$} = help: {}\n", "", plain(&help.sentence())));
            text.push_str(&excerpt::changed(help, lines, margin));
        }
        text.push('\n');
        text
    }

    fn json(&self) -> Json {
        let mark = |mark: &Mark| {
            object([
                ("line", mark.spot.line.into()),
                ("column", mark.spot.column.into()),
                ("length", mark.spot.length.into()),
                ("label", mark.label.as_str().into()),
            ])
        };
        object([
            (
                "severity",
                match self.severity {
                    Severity::Error => "error",
                    Severity::Warning => "warning",
                }
                .into(),
            ),
            ("code", self.code.as_str().into()),
            ("message", self.message.as_str().into()),
            ("marks", self.marks.iter().map(mark).collect::<Vec<_>>().into()),
            ("notes", self.notes.clone().into()),
            ("helps", self.helps.iter().map(Help::json).collect::<Vec<_>>().into()),
        ])
    }
}

impl Report {
    pub fn new(name: &str, lines: Vec<String>, verdict: Verdict, diagnostics: Vec<Diagnostic>) -> Report {
        Report {
            name: name.to_string(),
            lines,
            verdict,
            diagnostics,
            allowed: Vec::new(),
        }
    }

    /// Of a file of which nothing can be said: it can't be read, or a guard broke.
    pub fn unread(name: &str, failure: &Failure) -> Report {
        let front = format!("{name}: ");
        let message = failure.message.strip_prefix(&front).unwrap_or(&failure.message);
        let code = if failure.status == FILE { "file" } else { "guard" };
        let diagnostic = Diagnostic::error(code, message);
        Report::new(name, Vec::new(), Verdict::Unread(failure.status), vec![diagnostic])
    }

    /// The codes of its warnings, each once, in the order of the codes.
    pub fn warnings(&self) -> Vec<&str> {
        let warnings = self.diagnostics.iter().filter(|own| own.severity == Severity::Warning);
        let mut codes: Vec<&str> = warnings.map(|own| own.code.as_str()).collect();
        codes.sort_unstable();
        codes.dedup();
        codes
    }

    /// The status that its verdict alone asks for.
    pub fn status(&self) -> u8 {
        match self.verdict {
            Verdict::Playable { .. } => PLAYABLE,
            Verdict::Refused(_) => REFUSED,
            Verdict::Mistaken(_) => MISTAKE,
            Verdict::Unread(status) => status,
        }
    }

    /// Its diagnostics, and the verdict in a line of its own.
    pub fn text(&self, denied: &[String]) -> String {
        let name = excerpt::plain(&self.name);
        let mut text: String = (self.diagnostics.iter())
            .map(|diagnostic| diagnostic.text(&name, &self.lines))
            .collect();
        text.push_str(&format!("{name}: {}\n", self.sentence(denied)));
        text
    }

    /// The verdict, and what was warned of.
    fn sentence(&self, denied: &[String]) -> String {
        let verdict = match self.verdict {
            Verdict::Playable { parties, steps } => {
                format!(
                    "playable, {}, {}",
                    count(parties, "party", "parties"),
                    count(steps, "step", "steps")
                )
            }
            Verdict::Refused(number) => format!("refused (R{number})"),
            Verdict::Mistaken(mistakes) => count(mistakes, "mistake", "mistakes"),
            Verdict::Unread(FILE) => String::from("not read"),
            Verdict::Unread(_) => String::from("not answered"),
        };
        let warnings = self.diagnostics.iter().filter(|own| own.severity == Severity::Warning);
        let codes: Vec<String> = (self.warnings().into_iter())
            .map(|code| match denied.iter().any(|own| own == code) {
                true => format!("{code} denied"),
                false => code.to_string(),
            })
            .collect();
        match warnings.count() {
            0 => verdict,
            n => format!("{verdict}, {} ({})", count(n, "warning", "warnings"), codes.join(", ")),
        }
    }

    pub fn json(&self) -> Json {
        let (verdict, refusal, parties, steps) = match self.verdict {
            Verdict::Playable { parties, steps } => ("playable", None, Some(parties), Some(steps)),
            Verdict::Refused(number) => ("refused", Some(u32::from(number)), None, None),
            Verdict::Mistaken(_) => ("mistaken", None, None, None),
            Verdict::Unread(_) => ("unread", None, None, None),
        };
        let allowed = self.allowed.iter().map(|(diagnostic, reason)| {
            object([
                ("code", diagnostic.code.as_str().into()),
                ("message", diagnostic.message.as_str().into()),
                ("reason", reason.as_str().into()),
            ])
        });
        object([
            ("file", self.name.as_str().into()),
            ("verdict", verdict.into()),
            ("refusal", refusal.into()),
            ("parties", parties.into()),
            ("steps", steps.into()),
            (
                "diagnostics",
                self.diagnostics.iter().map(Diagnostic::json).collect::<Vec<_>>().into(),
            ),
            ("allowed", allowed.collect::<Vec<_>>().into()),
        ])
    }
}

/// What `nghi check --json` answers, and every other command that is asked about a file which can't be played.
pub fn answered(reports: &[Report], status: u8) -> Json {
    answer(
        "check",
        [
            ("status", u32::from(status).into()),
            ("files", reports.iter().map(Report::json).collect::<Vec<_>>().into()),
        ],
    )
}

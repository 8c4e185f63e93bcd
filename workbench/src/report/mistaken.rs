//! A text that is no narration: all its mistakes, each with its mark, and what was perhaps meant.

use super::edits::{self, Edit, Help, Outcome};
use super::{listed, Diagnostic, Report, Verdict};
use crate::cells::cell;
use crate::slips::slips;
use narration::{of_a_name, Kind, Mistake};
use std::collections::HashSet;

/// Helps are looked for for so many mistakes, and in a text of so many bytes: each help is tried on the whole text.
const MOST_HELPED: usize = 40;
const MOST_BYTES: usize = 200_000;

/// Arrows as they are drawn elsewhere.
const ARROWS: [&str; 9] = [
    "\u{2192}",
    "\u{27f6}",
    "\u{21d2}",
    "-->",
    "->>",
    "=>",
    "- >",
    "\u{2014}>",
    "\u{2013}>",
];

/// Every mistake of a text.
pub fn mistaken(name: &str, lines: Vec<String>, mistakes: &[Mistake]) -> Report {
    let helped = match lines.iter().map(String::len).sum::<usize>() <= MOST_BYTES {
        true => MOST_HELPED,
        false => 0,
    };
    let diagnostics = (mistakes.iter().enumerate())
        .map(|(n, mistake)| {
            let mut diagnostic = Diagnostic::error("text", mistake.message()).mark(Some(mistake.spot), "");
            if n < helped {
                help(&mut diagnostic, &lines, mistake, mistakes.len());
            }
            diagnostic
        })
        .collect();
    Report::new(name, lines, Verdict::Mistaken(mistakes.len()), diagnostics)
}

/// What is said beside the mistake, and what was perhaps meant: the first change that leaves fewer mistakes in the text.
fn help(diagnostic: &mut Diagnostic, lines: &[String], mistake: &Mistake, mistakes: usize) {
    let wrong = Wrong::of(lines, mistake);
    diagnostic.notes.extend(wrong.note());
    let edits = match wrong.undeclared() {
        true => [wrong.near_parties(), wrong.declared()].concat(),
        false => [wrong.arrows(), wrong.first_word(), wrong.expected()].concat(),
    };
    let fewer = |outcome: &Outcome| !matches!(outcome, Outcome::Mistaken(left) if *left >= mistakes);
    let tried = edits
        .into_iter()
        .filter_map(|edit| Some((edits::attempt(&edit.lines)?, edit)));
    let best = tried.into_iter().find(|(outcome, _)| fewer(outcome));
    diagnostic
        .helps
        .extend(best.map(|(outcome, edit)| Help::of(edit, outcome)));
}

/// A mistake, its line, and what was found in it.
struct Wrong<'t> {
    lines: &'t [String],
    mistake: &'t Mistake,
    line: &'t str,
    found: String,
}

impl<'t> Wrong<'t> {
    fn of(lines: &'t [String], mistake: &'t Mistake) -> Wrong<'t> {
        let line = lines.get(mistake.spot.line - 1).map_or("", String::as_str);
        Wrong {
            lines,
            mistake,
            line,
            found: line
                .chars()
                .skip(mistake.spot.column - 1)
                .take(mistake.spot.length)
                .collect(),
        }
    }

    fn undeclared(&self) -> bool {
        self.mistake.kind == Kind::Undeclared
    }

    fn note(&self) -> Option<String> {
        let front: String = self.line.chars().take(self.mistake.spot.column - 1).collect();
        let keyless = self.mistake.expected == "a term" && front.trim_end().ends_with('}');
        if self.mistake.kind == Kind::Empty {
            let note = "a narration begins with its parties, a line each: `party A knows K`";
            return Some(String::from(note));
        }
        if self.undeclared() {
            let parties = declared(self.lines);
            let verb = if parties.len() == 1 { "party is" } else { "parties are" };
            return Some(format!("the {verb} {}", listed(&parties)));
        }
        if keyless {
            return Some(String::from(
                "a cipher's key stands right behind its brace, as in `{N}K`",
            ));
        }
        self.strange()
    }

    /// What a sign is that isn't on every keyboard, and perhaps can't be seen. An arrow has its help.
    fn strange(&self) -> Option<String> {
        let strange = |sign: &char| !sign.is_ascii() && !of_a_name(*sign) && !ARROWS.contains(&&sign.to_string()[..]);
        let sign = self.found.chars().next().filter(strange)?;
        let number = format!("U+{:04X}", u32::from(sign));
        Some(match cell(sign) {
            0 => format!("{number} takes no place of its own; in names every letter is one character, accents too"),
            _ => format!("{number} is no letter, and no sign of a narration"),
        })
    }

    /// The text with this line changed.
    fn edit(&self, line: String, message: String) -> Edit {
        edits::with_line(self.lines, self.mistake.spot.line, line, message)
    }

    /// The line with something in the place of what was found.
    fn instead(&self, what: &str) -> String {
        edits::replaced(self.line, self.mistake.spot.column, self.mistake.spot.length, what)
    }

    /// The declared names that are close to the one that isn't, the closest first.
    fn near_parties(&self) -> Vec<Edit> {
        const MOST: usize = 3;
        let name = &self.found;
        let far = |own: &String| match own.to_lowercase() == name.to_lowercase() {
            true => Some(0),
            false => slips(2, own, name).filter(|slips| *slips < own.chars().count().max(name.chars().count())),
        };
        let mut near: Vec<String> = declared(self.lines);
        near.retain(|own| far(own).is_some());
        near.sort_by_key(far);
        near.truncate(MOST);
        let edit = |own: &String| self.edit(self.instead(own), format!("is `{own}` meant?"));
        near.iter().map(edit).collect()
    }

    /// A line that declares the party, behind the other party lines.
    fn declared(&self) -> Vec<Edit> {
        let declares = |line: &String| !declared(std::slice::from_ref(line)).is_empty();
        let Some(last) = self.lines.iter().rposition(declares) else {
            return Vec::new();
        };
        let line = format!("party {}", self.found);
        let message = format!("declare {}, and what it knows", self.found);
        vec![edits::inserted(self.lines, last + 2, line, message)]
    }

    /// An arrow of another kind is the one that is meant.
    fn arrows(&self) -> Vec<Edit> {
        let edit = |arrow: &str| {
            let message = format!("an arrow is written `->`, and not `{arrow}`");
            self.edit(self.line.replace(arrow, "->"), message)
        };
        let found = ARROWS.into_iter().filter(|arrow| self.line.contains(arrow));
        found.map(edit).chain(self.backwards()).collect()
    }

    /// An arrow from the receiver to the sender.
    fn backwards(&self) -> Option<Edit> {
        let (receiver, rest) = self.line.split_once("<-")?;
        let (sender, messages) = rest.split_once(':')?;
        let blanks = [' ', '\t', '-'];
        let line = format!(
            "{} -> {}:{messages}",
            sender.trim_matches(blanks),
            receiver.trim_matches(blanks)
        );
        Some(self.edit(line, String::from("the sender stands in front of the arrow, `->`")))
    }

    /// The word at the front of the line may be the one that is wrong.
    fn first_word(&self) -> Vec<Edit> {
        let rest = self.line.trim_start();
        let first: String = rest.chars().take_while(|sign| of_a_name(*sign)).collect();
        let column = self.line.chars().count() - rest.chars().count() + 1;
        let near = |word: &&str| !first.is_empty() && first != *word && slips(1, word, &first.to_lowercase()).is_some();
        let edit = |word: &str| {
            let line = edits::replaced(self.line, column, first.chars().count(), word);
            self.edit(line, format!("is `{word}` meant?"))
        };
        ["party", "rows"].into_iter().filter(near).map(edit).collect()
    }

    /// What was expected, put in or in the place of what was found: all that stands in backquotes. What stands in parentheses
    /// is an explanation.
    fn expected(&self) -> Vec<Edit> {
        let expected = self.mistake.expected.split(" (").next().unwrap_or("");
        let signs = expected.split('`').skip(1).step_by(2);
        signs.flat_map(|sign| self.with(sign)).collect()
    }

    /// A word in the place of one that is close to it; a sign put in, or in the place of another.
    fn with(&self, sign: &str) -> Vec<Edit> {
        let word = |text: &str| !text.is_empty() && text.chars().all(|sign| of_a_name(sign) || sign == ' ');
        if word(sign) {
            let near = word(&self.found) && slips(2, sign, &self.found.to_lowercase()).is_some();
            let edit = near.then(|| self.edit(self.instead(sign), format!("is `{sign}` meant?")));
            return edit.into_iter().collect();
        }
        let put = match sign {
            "->" => " -> ",
            "," => ", ",
            ":" if !self.found.is_empty() => ": ",
            _ => sign,
        };
        let (column, blanks) = blanks_before(self.line, self.mistake.spot.column);
        let line = edits::replaced(self.line, column, blanks, put);
        let mut edits = vec![self.edit(line, format!("put in `{sign}`"))];
        if !self.found.is_empty() && self.found.is_ascii() && !word(&self.found) {
            let message = format!("put `{sign}` in the place of `{}`", self.found);
            edits.push(self.edit(self.instead(sign), message));
        }
        edits
    }
}

/// The names that party lines declare, as far as they can be read.
fn declared(lines: &[String]) -> Vec<String> {
    let party = |line: &String| -> Option<String> {
        let line = line.trim_start_matches([' ', '\t']).strip_prefix("party")?;
        let rest = line.trim_start_matches([' ', '\t']);
        let name: String = rest.chars().take_while(|sign| of_a_name(*sign)).collect();
        (rest.len() < line.len() && !name.is_empty()).then_some(name)
    };
    let mut seen = HashSet::new();
    let names = lines.iter().filter_map(party);
    names.filter(|name| seen.insert(name.clone())).collect()
}

/// Where the blanks in front of a column begin, and how many they are.
fn blanks_before(line: &str, column: usize) -> (usize, usize) {
    let front: Vec<char> = line.chars().take(column - 1).collect();
    let blanks = front.iter().rev().take_while(|sign| matches!(sign, ' ' | '\t')).count();
    (front.len() + 1 - blanks, blanks)
}

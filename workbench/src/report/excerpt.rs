//! Lines of a text as they are shown: numbered, with marks under the terms. A tab stays a tab above and below, so that the
//! mark stands under its term; of a long line only the part around the mark is shown.

use super::edits::Help;
use super::Mark;
use crate::cells::cell;
use narration::Spot;

/// A line of more characters than this is cut.
const WIDEST: usize = 140;
/// What is left in front of a mark in a line that is cut.
const FRONT: usize = 40;

/// As many columns as the largest line number needs.
pub fn margin(marks: &[Mark], helps: &[Help]) -> usize {
    let marked = marks.iter().map(|mark| mark.spot.line);
    let changed = helps
        .iter()
        .flat_map(|help| help.changed.iter().map(|(number, _)| *number));
    let largest = marked.chain(changed).max().unwrap_or(1);
    largest.to_string().len()
}

/// Where it is, and each marked line with its marks: `^` under what it is about, `-` under the rest.
pub fn marks(name: &str, lines: &[String], marks: &[Mark], margin: usize) -> String {
    let Some(first) = marks.first() else {
        return format!("{:margin$}--> {name}\n", "");
    };
    let Spot { line, column, .. } = first.spot;
    let mut text = format!("{:margin$}--> {name}:{line}:{column}\n{:margin$} |\n", "", "");
    // Marks of one line stand under it together, in the order in which the lines are first marked.
    let mut shown: Vec<(usize, usize, String, String)> = Vec::new();
    for (n, mark) in marks.iter().enumerate() {
        let Spot { line, column, length } = mark.spot;
        let whole = lines.get(line - 1).map_or("", String::as_str);
        let (part, skipped) = part(whole, column);
        let under = under(&part, column - 1 - skipped, length, if n == 0 { "^" } else { "-" });
        let label = format!("{:margin$} | {under} {}", "", mark.label);
        let label = format!("{}\n", label.trim_end());
        match shown.iter_mut().find(|own| (own.0, own.1) == (line, skipped)) {
            Some(own) => own.3.push_str(&label),
            None => shown.push((line, skipped, part, label)),
        }
    }
    let shown = shown.into_iter().map(|(line, _, part, labels)| {
        let part = format!("{line:margin$} | {part}");
        format!("{}\n{labels}", part.trim_end_matches(' '))
    });
    let between = format!("{:margin$} |\n", "");
    text.push_str(&shown.collect::<Vec<_>>().join(&between));
    text
}

/// What stands under a line: blanks, tabs where the line has tabs, and the mark, as wide as what it marks.
fn under(line: &str, before: usize, length: usize, mark: &str) -> String {
    let blank = |sign: char| match sign {
        '\t' => "\t".to_string(),
        _ => " ".repeat(cell(sign)),
    };
    let blanks: String = line.chars().take(before).map(blank).collect();
    // The place just behind a line's end can be marked too.
    let behind = " ".repeat(before.saturating_sub(line.chars().count()));
    let marked: usize = line.chars().skip(before).take(length).map(cell).sum();
    format!("{blanks}{behind}{}", mark.repeat(marked.max(1)))
}

/// Lines as a help would have them: `+` stands before new ones, `~` before changed ones, of which the part around the change
/// is shown.
pub fn changed(help: &Help, lines: &[String], margin: usize) -> String {
    let sign = if help.added { '+' } else { '~' };
    let line = |(number, line): &(usize, String)| {
        let old = lines.get(number - 1).filter(|_| !help.added).map_or("", String::as_str);
        let same = line
            .chars()
            .zip(old.chars())
            .take_while(|(new, old)| new == old)
            .count();
        let (shown, _) = part(line, same + 1);
        format!("{number:margin$} {sign} {shown}\n")
    };
    help.changed.iter().map(line).collect()
}

/// The part of a line that is shown, and how many characters are left out in front of it less those that say so.
fn part(line: &str, column: usize) -> (String, usize) {
    let signs: Vec<char> = plain(line).chars().collect();
    if signs.len() <= WIDEST {
        return (signs.into_iter().collect(), 0);
    }
    let from = (column - 1).min(signs.len()).saturating_sub(FRONT);
    let to = signs.len().min(from + WIDEST);
    let front = if from > 2 { ".." } else { "" };
    let from = if from > 2 { from } else { 0 };
    let back = if to < signs.len() { ".." } else { "" };
    let shown: String = signs[from..to].iter().collect();
    (format!("{front}{shown}{back}"), from - front.len())
}

/// What a terminal would take for a command, would print from right to left, or would not show, is one unknown character.
pub fn plain(text: &str) -> String {
    let hidden = |sign: char| {
        let turns = matches!(sign, '\u{200e}' | '\u{200f}' | '\u{202a}'..='\u{202e}' | '\u{2066}'..='\u{2069}');
        let unseen = matches!(sign, '\u{200b}' | '\u{2060}'..='\u{2064}' | '\u{feff}');
        (sign.is_control() && sign != '\t') || turns || unseen
    };
    text.chars()
        .map(|sign| if hidden(sign) { '\u{fffd}' } else { sign })
        .collect()
}

#[cfg(test)]
mod tests {
    use super::super::edits::Outcome;
    use super::*;

    fn mark(line: usize, column: usize, length: usize) -> Mark {
        Mark {
            spot: Spot { line, column, length },
            label: String::from("here"),
        }
    }

    #[test]
    fn marked() {
        let lines = [String::from("\tä -> b: N"), String::from("party \u{1b}[31m")];
        assert_eq!(
            marks("f", &lines, &[mark(1, 10, 1), mark(1, 2, 1), mark(2, 1, 5)], 1),
            " --> f:1:10\n  |\n1 | \tä -> b: N\n  | \t        ^ here\n  | \t- here\n  |\n2 | party \u{fffd}[31m\n  | ----- here\n"
        );
        assert_eq!(marks("f", &lines, &[], 2), "  --> f\n");
    }

    /// Under letters that fill two columns, and behind marks that fill none.
    #[test]
    fn columns() {
        let lines = [String::from("甲 -> 乙: {密}鍵, e\u{301}, K")];
        let under = |column: usize| {
            let text = marks("f", &lines, &[mark(1, column, 1)], 1);
            text.lines().nth(3).map(str::to_string)
        };
        assert_eq!(under(12), Some(format!("  | {:14}^^ here", "")));
        assert_eq!(under(19), Some(format!("  | {:21}^ here", "")));
    }

    /// Of a long line that is changed the change is shown, wherever it is.
    #[test]
    fn long_changes() {
        let old: String = ('a'..='z').cycle().take(1_000).collect();
        for at in [0, 1, 500, 999, 1_000] {
            let new = format!("{}KEY{}", &old[..at], &old[at..]);
            let mut help = Help {
                message: String::new(),
                outcome: Outcome::Playable,
                changed: vec![(1, new.clone())],
                added: false,
                text: new,
                assumed: false,
            };
            let lines = [old.clone()];
            let shown = changed(&help, &lines, 1);
            assert!(shown.starts_with("1 ~ ") && shown.contains("KEY"), "{at}: {shown}");
            assert!(shown.len() < 160);
            help.added = true;
            let shown = changed(&help, &lines, 1);
            assert!(
                shown.starts_with("1 + ") && shown.contains("KEY") == (at < 100),
                "{at}: {shown}"
            );
        }
    }

    /// The mark of a line that is cut stands under its term, wherever that is.
    #[test]
    fn long_lines() {
        let line: String = ('a'..='z').cycle().take(1_000).collect();
        let lines = [line.clone()];
        for column in [1, 2, 3, 42, 43, 44, 500, 990, 1_000, 1_001] {
            let text = marks("f", &lines, &[mark(1, column, 3)], 1);
            let rows: Vec<&str> = text.lines().collect();
            let at = rows[3].find('^').expect("a mark");
            let sign = rows[2].as_bytes().get(at).copied();
            assert_eq!(sign, line.as_bytes().get(column - 1).copied(), "column {column}");
            assert!(rows[2].len() < 160);
        }
    }
}

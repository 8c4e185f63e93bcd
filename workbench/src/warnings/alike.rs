//! W4: names that look alike and are two things. A slip in a name makes another atom, or another operation, and the translator
//! is right to take it so.

use super::{atoms, operations};
use crate::report::edits::{attempt, replaced, Edit, Help, Outcome};
use crate::report::Diagnostic;
use crate::slips::slips;
use crate::subject::{Subject, Text};
use narration::Spot;

/// Where there are more warnings than this, no helps are looked for: each has to be tried.
const MOST_HELPED: usize = 12;

/// A name, where it is written, and what a hasty reader sees of it.
struct Name<'s> {
    name: &'s str,
    spots: &'s [Spot],
    seen: String,
}

impl<'s> Name<'s> {
    fn of(name: &'s str, spots: &'s [Spot]) -> Name<'s> {
        Name {
            name,
            spots,
            seen: seen(name),
        }
    }
}

/// Names of atoms that look alike, and names of operations that do. A name that is seldom written is told once.
pub fn of(subject: &Subject) -> Vec<Diagnostic> {
    let Some(text) = &subject.text else { return Vec::new() };
    let atoms = atoms(subject);
    let operations = operations(subject);
    let atoms: Vec<Name> = (atoms.iter())
        .map(|(row, spots)| Name::of(subject.term(*row), spots))
        .collect();
    let mut operations: Vec<Name> = operations.iter().map(|(name, spots)| Name::of(name, spots)).collect();
    operations.sort_by_key(|own| own.spots.first());
    let pairs = [alike_pairs(&atoms), alike_pairs(&operations)].concat();
    let helped = pairs.len() <= MOST_HELPED;
    let warning = |(rare, usual): (&Name, &Name)| warning(text, rare, usual, helped);
    pairs.into_iter().map(warning).collect()
}

/// Each name that looks like another, with the first such one: the one that is seldom written is likelier the slip; of two the
/// later one.
fn alike_pairs<'n, 's>(names: &'n [Name<'s>]) -> Vec<(&'n Name<'s>, &'n Name<'s>)> {
    let mut pairs: Vec<(&Name, &Name)> = Vec::new();
    let mut told = vec![false; names.len()];
    for (n, one) in names.iter().enumerate() {
        for (m, other) in names.iter().enumerate().skip(n + 1) {
            let (rare, usual) = if one.spots.len() < other.spots.len() {
                (n, m)
            } else {
                (m, n)
            };
            let look = one.seen == other.seen && !primed(one.name, other.name);
            let once = names[rare].spots.len() == 1;
            if !told[rare] && (look || (once && slip(one.name, other.name))) {
                told[rare] = true;
                pairs.push((&names[rare], &names[usual]));
            }
        }
    }
    pairs
}

fn warning(text: &Text, rare: &Name, usual: &Name, helped: bool) -> Diagnostic {
    let message = format!("`{}` and `{}` look alike, and are two things", rare.name, usual.name);
    let mut warning = Diagnostic::warning("W4", message)
        .mark(rare.spots.first().copied(), written(rare.spots.len()))
        .mark(usual.spots.first().copied(), written(usual.spots.len()));
    if !helped {
        return warning;
    }
    let mut lines = text.lines.clone();
    // From the right, so that the columns to the left stay what they are.
    for spot in rare.spots.iter().rev() {
        lines[spot.line - 1] = replaced(&lines[spot.line - 1], spot.column, spot.length, usual.name);
    }
    let mut changed: Vec<usize> = rare.spots.iter().map(|spot| spot.line).collect();
    changed.dedup();
    let edit = Edit {
        message: format!("if they are one, write `{}`", usual.name),
        lines,
        changed,
        added: false,
    };
    if attempt(&edit.lines) == Some(Outcome::Playable) {
        warning.helps.push(Help::of(edit, Outcome::Playable));
    }
    warning
}

fn written(times: usize) -> String {
    match times {
        1 => String::from("written only here"),
        n => format!("first of {n} times"),
    }
}

/// Whether two names look the same to a hasty reader: but for case, for signs that look like each other, for `_` and for a
/// prime inside. A prime at the end is the usual way to a new name, and so is a last digit or capital letter.
pub fn alike(one: &str, other: &str) -> bool {
    one != other && seen(one) == seen(other) && !primed(one, other)
}

/// Whether they differ by primes at the end alone.
fn primed(one: &str, other: &str) -> bool {
    one.trim_end_matches('\'') == other.trim_end_matches('\'')
}

/// What is seen of a name.
fn seen(name: &str) -> String {
    let signs = name.chars().filter(|sign| !matches!(sign, '_' | '\''));
    signs.map(looks).flat_map(char::to_lowercase).map(low).collect()
}

/// Letters of other scripts that look like ours.
fn looks(sign: char) -> char {
    const PAIRS: &str =
        "АAВBЕEКKМMНHОOРPСCТTУYХXЅSІIЈJаaеeоoрpсcуyхxѕsіiјjԁdһhԛqԝwΑAΒBΕEΖZΗHΙIΚKΜMΝNΟOΡPΤTΥYΧXοoνvαaρpκkιiχx";
    let mut pairs = PAIRS.chars();
    while let (Some(foreign), Some(own)) = (pairs.next(), pairs.next()) {
        if foreign == sign {
            return own;
        }
    }
    // Letters of double width.
    match sign {
        '\u{ff10}'..='\u{ff5a}' => char::from_u32(sign as u32 - 0xfee0).unwrap_or(sign),
        _ => sign,
    }
}

/// Signs that are hard to tell apart, in small letters.
fn low(sign: char) -> char {
    match sign {
        'l' | 'i' => '1',
        'o' => '0',
        _ => sign,
    }
}

/// Whether one is the other with a letter put in, left out or changed, and no member of the same family of names; or with two
/// neighbours exchanged.
fn slip(one: &str, other: &str) -> bool {
    let shortest = one.chars().count().min(other.chars().count());
    shortest >= 3 && ((slips(1, one, other) == Some(1) && !family(one, other)) || exchanged(one, other))
}

fn exchanged(one: &str, other: &str) -> bool {
    let (one, other): (Vec<char>, Vec<char>) = (one.chars().collect(), other.chars().collect());
    let differ: Vec<usize> = (0..one.len().min(other.len()))
        .filter(|at| one[*at] != other[*at])
        .collect();
    match differ[..] {
        // N12 and N21 are numbers.
        [a, b] if one[a].is_numeric() && one[b].is_numeric() => false,
        [a, b] => one.len() == other.len() && b == a + 1 && one[a] == other[b] && one[b] == other[a],
        _ => false,
    }
}

/// Whether names differ as those of a family do: KAB and KAS, KAS and KBS, N1 and N20, N and N1, K and K'.
pub fn family(one: &str, other: &str) -> bool {
    let stem = |name: &str| -> String {
        name.trim_end_matches(|sign: char| sign.is_numeric() || sign == '\'')
            .to_string()
    };
    if stem(one) == stem(other) {
        return true;
    }
    let (one, other): (Vec<char>, Vec<char>) = (one.chars().collect(), other.chars().collect());
    if one.len() == other.len() {
        let mut changed = one.iter().zip(&other).filter(|(a, b)| a != b);
        return changed.all(|(a, b)| (a.is_uppercase() && b.is_uppercase()) || (a.is_numeric() && b.is_numeric()));
    }
    let (short, long) = if one.len() < other.len() {
        (one, other)
    } else {
        (other, one)
    };
    long.starts_with(&short) && long[short.len()..].iter().all(|sign| sign.is_uppercase())
}

#[cfg(test)]
mod tests {
    use super::*;

    #[test]
    fn looks_alike() {
        for (one, other) in [
            ("KAS", "K_AS"),
            ("Kas", "KAS"),
            ("N1", "Nl"),
            ("N1", "NI"),
            ("O", "0"),
            ("K'A", "KA"),
            ("КAB", "KAB"),
            ("K\u{ff21}", "KA"),
        ] {
            assert!(alike(one, other), "{one} {other}");
        }
        for (one, other) in [
            ("K", "K'"),
            ("K'", "K''"),
            ("N1", "N2"),
            ("KAB", "KAS"),
            ("NA", "NB"),
            ("K", "K"),
            ("N", "N1"),
        ] {
            assert!(!alike(one, other), "{one} {other}");
        }
    }

    #[test]
    fn slips() {
        for (one, other) in [
            ("begin", "begn"),
            ("secret", "secrat"),
            ("KAS", "KAXS"),
            ("key", "kez"),
            ("KAB", "KBA"),
        ] {
            assert!(slip(one, other), "{one} {other}");
        }
        for (one, other) in [
            ("KAB", "KAS"),
            ("KAS", "KBS"),
            ("NA1", "NA2"),
            ("KA", "KB"),
            ("msg", "msg1"),
            ("KA", "KAB"),
            ("end", "end'"),
            ("N12", "N21"),
            ("NA1", "NA10"),
        ] {
            assert!(!slip(one, other), "{one} {other}");
        }
        assert!(exchanged("KAS", "KSA") && !exchanged("KAS", "SAK"));
    }
}

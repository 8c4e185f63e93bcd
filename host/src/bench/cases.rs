//! The books that are timed: those of a folder, random ones, random ones that grow, and the worst that were thought
//! of, each made to ask most of one thing.

use super::keys;
use crate::book::{
    Book, Party, Row, Step, ATOM, CIPHER, MOST_KNOWN, MOST_MESSAGES, MOST_PARTIES, MOST_ROWS, MOST_STEPS, OPERATION,
    PRIVATE, PUBLIC,
};
use crate::files;
use crate::random;
use crate::translate::{self, LENT};
use crate::words;
use std::path::Path;

/// A book in memory, with a name to tell it by.
pub struct Case {
    pub name: String,
    pub words: Vec<u32>,
}

/// Books whose times are taken together.
pub struct Group {
    pub name: String,
    pub cases: Vec<Case>,
}

/// Random books of a group.
const RANDOM: usize = 40;
/// Random books for each size of the growth.
const GROWN: usize = 12;
const SEED: u64 = 1;

/// Whether the host accepts a book.
fn accepts(words: &[u32]) -> bool {
    translate::translate(words, &mut [0; LENT]).is_ok()
}

/// The groups from a folder of books and from random ones.
pub fn groups(folder: &Path) -> Result<Vec<Group>, String> {
    let random: Vec<Case> = (random::well_formed(SEED, RANDOM, 3).enumerate())
        .map(|(number, book)| Case {
            name: format!("random {number}"),
            words: book.words(),
        })
        .collect();
    let named = |start: &'static str| move |case: &Case| case.name.starts_with(start);
    let accepted = |case: &Case| accepts(&case.words);
    let refused = |case: &Case| !accepts(&case.words);
    let groups = [
        group("examples", books(folder)?, named("example-")),
        group("corpus, accepted", books(folder)?, accepted),
        group("corpus, refused", books(folder)?, refused),
        group("corpus, full size", books(folder)?, named("full-")),
    ];
    let (played, unplayed): (Vec<Case>, Vec<Case>) = random.into_iter().partition(accepted);
    let random = [
        group("random, full size", played, |_| true),
        group("random, full size, refused", unplayed, |_| true),
    ];
    let filled = |group: &Group| !group.cases.is_empty();
    Ok(groups.into_iter().chain(random).filter(filled).collect())
}

fn group(name: &str, cases: Vec<Case>, wanted: impl Fn(&Case) -> bool) -> Group {
    Group {
        name: name.to_string(),
        cases: cases.into_iter().filter(wanted).collect(),
    }
}

/// The books of a folder whose bytes are words, sorted by name.
fn books(folder: &Path) -> Result<Vec<Case>, String> {
    let mut cases = Vec::new();
    for file in files::ending(folder, "book")? {
        let name = file.file_stem().unwrap_or_default();
        cases.extend(words::of_bytes(&files::bytes(&file)?).ok().map(|words| Case {
            name: name.to_string_lossy().into_owned(),
            words,
        }));
    }
    cases.sort_by(|one, other| one.name.cmp(&other.name));
    Ok(cases)
}

/// Random playable books that grow in everything at once, up to full size: the rows' number, and the books.
pub fn growth() -> Vec<(usize, Group)> {
    let sizes = [16, 32, 64, 128, 256, 512, MOST_ROWS as usize];
    let grown = sizes.map(|rows| {
        let (parties, steps) = ((rows / 64).max(2), rows / 16);
        let books = random::playable(SEED, GROWN, rows, parties, steps);
        let cases = books.enumerate().map(|(number, book)| Case {
            name: format!("{rows} rows, random {number}"),
            words: book.words(),
        });
        let many = if steps == 1 { "" } else { "s" };
        let name = format!("{rows} rows, {parties} parties, {steps} step{many}");
        let cases = cases.collect();
        (rows, group(&name, cases, |case| accepts(&case.words)))
    });
    grown.into_iter().collect()
}

/// Books that ask most of one thing, a group each.
pub fn worst() -> Vec<Group> {
    let kinds = [
        ("idle parties", idle()),
        ("empty steps", empty()),
        ("messages that are stored", stored()),
        ("alike rows", alike()),
        ("equal keys", keys::equal()),
        ("halves in a chain", chain()),
        ("partner in the last row", far_partner(1)),
        ("the same, 204 deep", far_partner(204)),
        ("ciphers in ciphers", nested()),
        ("many known rows", known()),
        ("long images", long()),
        ("refused at step 0", early()),
    ];
    let alone = |(name, book): (&str, Book)| Group {
        name: name.to_string(),
        cases: vec![Case {
            name: name.to_string(),
            words: book.words(),
        }],
    };
    kinds.into_iter().map(alone).collect()
}

pub fn row(kind: u32, parts: &[u32]) -> Row {
    Row {
        kind,
        tag: 0,
        parts: parts.to_vec(),
    }
}

pub fn atoms(count: u32) -> Vec<Row> {
    (0..count).map(|_| row(ATOM, &[])).collect()
}

/// Parties named by the first atoms, who all know the same rows.
pub fn parties(count: u32, known: &[u32]) -> Vec<Party> {
    let party = |name: u32| Party {
        name,
        known: known.to_vec(),
        makes: true,
    };
    (0..count).map(party).collect()
}

/// As many steps as there may be, from party 0 to party 1, with these messages.
fn steps(mut messages: impl FnMut(u32) -> Vec<u32>) -> Vec<Step> {
    let step = |number: u32| Step {
        sender: 0,
        receiver: 1,
        messages: messages(number),
    };
    (0..MOST_STEPS).map(step).collect()
}

/// Fourteen of sixteen parties do nothing in any step, and nothing is said.
fn idle() -> Book {
    Book {
        rows: atoms(MOST_PARTIES),
        parties: parties(MOST_PARTIES, &[]),
        steps: steps(|_| Vec::new()),
    }
}

/// The same with two parties, both of whom have a part in every step.
fn empty() -> Book {
    Book {
        rows: atoms(2),
        parties: parties(2, &[]),
        steps: steps(|_| Vec::new()),
    }
}

/// Each of 512 messages is an atom, made for it and stored on arrival.
fn stored() -> Book {
    let most = MOST_MESSAGES;
    Book {
        rows: atoms(2 + MOST_STEPS * most),
        parties: parties(2, &[]),
        steps: steps(|number| (0..most).map(|k| 2 + number * most + k).collect()),
    }
}

/// Rows that agree in kind, tag and count and in all parts but the last two.
fn alike() -> Book {
    let mut rows = atoms(32);
    for number in 0..MOST_ROWS - 32 {
        rows.push(row(OPERATION, &[0, 0, 0, 0, 0, 0, number / 32, number % 32]));
    }
    Book {
        rows,
        parties: parties(1, &[]),
        steps: Vec::new(),
    }
}

/// Each row the public half of the row before, down to the largest size.
fn chain() -> Book {
    let mut rows = atoms(1);
    for number in 0..MOST_ROWS - 2 {
        rows.push(row(PUBLIC, &[number]));
    }
    Book {
        rows,
        parties: parties(1, &[]),
        steps: Vec::new(),
    }
}

/// The same cipher in all 512 messages, with so many ciphers in one another, all under one public half. The receiver
/// can't build that half and opens them every time with the private one, which is the last row, behind private halves
/// of other rows.
fn far_partner(depth: u32) -> Book {
    let mut rows = atoms(3);
    rows.push(row(PUBLIC, &[2]));
    rows.push(row(CIPHER, &[3, 0]));
    for inner in 4..3 + depth {
        rows.push(row(CIPHER, &[3, inner]));
    }
    let outermost = 3 + depth;
    rows.push(row(PRIVATE, &[0]));
    for number in outermost + 1..MOST_ROWS - 2 {
        rows.push(row(PRIVATE, &[number]));
    }
    rows.push(row(PRIVATE, &[2]));
    let mut parties = parties(2, &[0, 3]);
    parties[1].known = vec![MOST_ROWS - 1];
    Book {
        rows,
        parties,
        steps: steps(|_| vec![outermost; MOST_MESSAGES as usize]),
    }
}

/// A cipher in a cipher and so on, 255 deep, all of which the receiver opens.
fn nested() -> Book {
    let mut rows = atoms(4);
    rows.push(row(CIPHER, &[2, 3]));
    for inner in 4..4 + 254 {
        rows.push(row(CIPHER, &[2, inner]));
    }
    let last = rows.len() as u32 - 1;
    let mut steps = steps(|_| vec![last]);
    steps.truncate(1);
    Book {
        rows,
        parties: parties(2, &[2]),
        steps,
    }
}

/// Sixteen parties who know 256 rows each, and nothing is said.
fn known() -> Book {
    let known: Vec<u32> = (0..MOST_KNOWN).collect();
    Book {
        rows: atoms(MOST_ROWS),
        parties: parties(MOST_PARTIES, &known),
        steps: Vec::new(),
    }
}

/// A listing nearly as long as one may be: a large term over known atoms, sent and compared in full.
fn long() -> Book {
    let mut rows = atoms(2);
    rows.push(row(OPERATION, &[0, 1, 0, 1, 0, 1, 0, 1]));
    rows.push(row(OPERATION, &[2, 2, 2, 2, 2, 2, 2, 2]));
    let mut steps = steps(|_| vec![3]);
    steps.truncate(50);
    Book {
        rows,
        parties: parties(2, &[0, 1]),
        steps,
    }
}

/// Party 0 sends what only party 1 knows, and then party 1 sends the largest term again and again.
fn early() -> Book {
    let mut rows = atoms(3);
    rows.push(row(OPERATION, &[1, 2, 1, 2, 1, 2, 1, 2]));
    rows.push(row(OPERATION, &[3; 8]));
    rows.push(row(OPERATION, &[4; 6]));
    let mut parties = parties(2, &[1, 2]);
    parties[0].known = vec![0, 1];
    let mut steps = steps(|_| vec![5; MOST_MESSAGES as usize]);
    for step in &mut steps {
        (step.sender, step.receiver) = (1, 0);
    }
    steps[0] = Step {
        sender: 0,
        receiver: 1,
        messages: vec![2],
    };
    Book { rows, parties, steps }
}

#[cfg(test)]
mod tests {
    use super::*;
    use crate::book::Refusal;
    use crate::lean;

    /// The refusal of a book, if there is one.
    fn refused(case: &Case) -> Option<Refusal> {
        translate::translate(&case.words, &mut [0; LENT]).err()
    }

    #[test]
    fn books_are_what_they_are_made_for() {
        let grown = growth();
        let grown = grown.iter().map(|(_, group)| group);
        for group in worst().iter().chain(grown) {
            assert!(!group.cases.is_empty(), "{}", group.name);
            let refusal = match group.name.as_str() {
                "refused at step 0" => Some(Refusal::new(10, &[0, 2])),
                "the same, 204 deep" => Some(Refusal::new(12, &[1_048_008])),
                _ => None,
            };
            for case in &group.cases {
                assert_eq!(refused(case), refusal, "{}", case.name);
            }
        }
    }

    /// What is timed is compared first; here for the anchor, which needs no library.
    #[test]
    fn the_anchor_answers_the_same() {
        let grown = growth().into_iter().chain(keys::growth()).map(|(_, group)| group);
        for case in worst().into_iter().chain(grown).flat_map(|group| group.cases) {
            let (mut own, mut other) = (vec![7; LENT], vec![7; LENT]);
            let answers = (
                translate::translate(&case.words, &mut own),
                lean::translate(&case.words, &mut other),
            );
            assert_eq!(answers.0, answers.1, "{}", case.name);
            assert!(own == other, "{}", case.name);
        }
    }

    #[test]
    fn groups_of_a_folder() {
        let groups = groups(Path::new("../books")).expect("the folder is there");
        let names: Vec<&str> = groups.iter().map(|group| group.name.as_str()).collect();
        assert_eq!(names.len(), 6, "{names:?}");
        assert!(groups.iter().all(|group| !group.cases.is_empty()));
        assert!(groups[0].cases.iter().all(|case| case.name.starts_with("example-")));
    }
}

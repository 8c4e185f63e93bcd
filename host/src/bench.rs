//! The bench: the proved code against this implementation and against the anchor, in one process, on the same books.
//! Answers are compared first, and only equal ones are timed; the outcome is told in tables.

mod cases;
mod checking;
mod judging;
mod keys;
mod plot;
mod tables;
mod timing;

use crate::book::{Refusal, COUNTS, MOST_PARTIES};
use crate::files;
use crate::lean;
use crate::library::Library;
use crate::rehearse::{self, MOST_MOVES};
use crate::translate::{self, LENT};
use cases::{Case, Group};
use plot::Point;
use std::hint::black_box;
use std::io::Write;
use std::path::Path;
use tables::Line;

/// How often all sides are timed on each book.
const ROUNDS: usize = 41;
/// What stands in a lent buffer before an answer, so that every word that is written shows.
const MARK: u32 = 0xdead_beef;
/// The groups of which bytes are told.
const FULL: [&str; 2] = ["corpus, full size", "random, full size"];

type Answer = Result<usize, Refusal>;
/// One side's answer to a case, into lent words.
type Side<'a> = &'a dyn Fn(&Case, &mut [u32]) -> Answer;

/// Times the functions that a library has on the books of a folder, on random ones and on the worst ones, and
/// draws the growth where a file for the picture is given.
pub fn run(library: &Path, books: &Path, picture: Option<&Path>, out: &mut dyn Write) -> Result<(), String> {
    let library = Library::open(library)?;
    let groups = cases::groups(books)?;
    let mut say = |text: &str| {
        let written = writeln!(out, "{text}").and_then(|()| out.flush());
        written.map_err(|error| format!("standard output: {error}"))
    };
    say(&format!(
        "{}, {ROUNDS} rounds; times of one book in µs.\n",
        std::env::consts::ARCH
    ))?;
    if library.has_translate() {
        translations(&library, &groups, picture, &mut say)?;
    } else {
        say("The library has no `translate`.\n")?;
    }
    if library.has_rehearse() {
        rehearsals(&library, &groups, &mut say)?;
    } else {
        say("The library has no `rehearse`.\n")?;
    }
    if library.has_judge_bytes() {
        judging::tables(&library, &mut say)?;
    } else {
        say("The library has no `nghiralum_judge`.\n")?;
    }
    if library.has_check_bytes() {
        checking::tables(&library, &mut say)
    } else {
        say("The library has no `nghiralum_check`.")
    }
}

/// The check of derivations alone.
pub fn run_types(library: &Path, out: &mut dyn Write) -> Result<(), String> {
    let library = Library::open(library)?;
    if !library.has_check_bytes() {
        return Err(String::from("the library has no `nghiralum_check`"));
    }
    checking::tables(&library, &mut |text: &str| {
        let written = writeln!(out, "{text}").and_then(|()| out.flush());
        written.map_err(|error| format!("standard output: {error}"))
    })
}

type Say<'a> = &'a mut dyn FnMut(&str) -> Result<(), String>;

fn translations(library: &Library, groups: &[Group], picture: Option<&Path>, say: Say) -> Result<(), String> {
    let sides: [Side; 3] = [
        &|case, out| library.translate(&case.words, out),
        &|case, out| translate::translate(&case.words, out),
        &|case, out| lean::translate(&case.words, out),
    ];
    let timed = lines(groups, LENT, sides)?;
    say(&tables::times("translate", &timed))?;
    let full: Vec<&Line> = timed.iter().filter(|line| FULL.contains(&line.name.as_str())).collect();
    say(&tables::bytes("translate, megabytes a second", &full))?;
    let worst = lines(&cases::worst(), LENT, sides)?;
    say(&tables::times("translate, worst cases", &worst))?;

    let (sizes, grown): (Vec<usize>, Vec<Group>) = cases::growth().into_iter().unzip();
    let grown = lines(&grown, LENT, sides)?;
    say(&tables::times("translate, growth", &grown))?;
    let point = |(rows, line): (&usize, &Line)| Point {
        rows: *rows,
        times: line.outcome.times,
    };
    let points: Vec<Point> = sizes.iter().zip(&grown).map(point).collect();
    if let Some(file) = picture {
        files::write(file, plot::svg(&points).as_bytes())?;
    }

    let (sizes, hunted): (Vec<usize>, Vec<Group>) = keys::growth().into_iter().unzip();
    let hunted: Vec<(usize, Line)> = sizes.into_iter().zip(lines(&hunted, LENT, sides)?).collect();
    say(&tables::rows("the hunt of refusal 6, growth", &hunted))
}

fn rehearsals(library: &Library, groups: &[Group], say: Say) -> Result<(), String> {
    let schedules: Vec<Vec<u32>> = (1..=MOST_PARTIES).map(round_robin).collect();
    let schedule = |case: &Case| &schedules[parties(&case.words) as usize - 1];
    let sides: [Side; 3] = [
        &|case, out| library.rehearse(&case.words, schedule(case), out),
        &|case, out| rehearse::rehearse(&case.words, schedule(case), out),
        &|case, out| lean::rehearse(&case.words, schedule(case), out),
    ];
    let timed = lines(groups, MOST_PARTIES as usize, sides)?;
    say(&tables::times("rehearse, 4,096 moves in turn", &timed))
}

/// The parties of a book, within their bounds whatever its words are.
fn parties(book: &[u32]) -> u32 {
    book.get(COUNTS[1]).copied().unwrap_or(1).clamp(1, MOST_PARTIES)
}

/// As many moves as there may be, by one party after another.
fn round_robin(parties: u32) -> Vec<u32> {
    (0..MOST_MOVES as u32).map(|number| number % parties).collect()
}

/// Compares the sides' answers on every book of the groups, and then times them.
fn lines(groups: &[Group], lent: usize, sides: [Side; 3]) -> Result<Vec<Line>, String> {
    let mut lines = Vec::with_capacity(groups.len());
    for Group { name, cases } in groups {
        let (mut read, mut written) = (0, 0);
        for case in cases {
            read += 4 * case.words.len();
            written += 4 * same(case, lent, sides)?;
        }
        let [mut one, mut two, mut three] = [0, 1, 2].map(|_| vec![0; lent]);
        let run =
            |side: usize, book: usize, out: &mut [u32]| drop(black_box(sides[side](black_box(&cases[book]), out)));
        let times = timing::measure(
            cases.len(),
            ROUNDS,
            [
                &mut |book| run(0, book, &mut one),
                &mut |book| run(1, book, &mut two),
                &mut |book| run(2, book, &mut three),
            ],
        );
        let outcome = timing::outcome(&times);
        lines.push(Line {
            name: name.clone(),
            books: cases.len(),
            worst: cases[outcome.worst.1].name.clone(),
            outcome,
            read,
            written,
        });
    }
    Ok(lines)
}

/// A side that answers anything else than the host isn't timed. How many words the answer has.
fn same(case: &Case, lent: usize, sides: [Side; 3]) -> Result<usize, String> {
    let [library, own, lean] = sides.map(|side| {
        let mut out = vec![MARK; lent];
        (side(case, &mut out), out)
    });
    for (name, (answer, out)) in [("library", library), ("anchor", lean)] {
        if answer != own.0 {
            return Err(format!(
                "{}: the {name} answers {answer:?}, the host {:?}",
                case.name, own.0
            ));
        }
        if let Some(place) = out.iter().zip(&own.1).position(|(word, own)| word != own) {
            return Err(format!(
                "{}: word {place} of the {name}'s output differs from the host's",
                case.name
            ));
        }
    }
    Ok(own.0.unwrap_or(0))
}

#[cfg(test)]
mod tests {
    use super::*;
    use std::path::PathBuf;

    #[test]
    fn only_equal_answers_are_timed() {
        let case = Case {
            name: "a book".to_string(),
            words: Vec::new(),
        };
        let right = |_: &Case, out: &mut [u32]| {
            out[0] = 5;
            Ok(1)
        };
        let past = |_: &Case, out: &mut [u32]| {
            out.fill(5);
            Ok(1)
        };
        let refuses = |_: &Case, _: &mut [u32]| Err(Refusal::new(1, &[0]));
        assert_eq!(same(&case, 2, [&right, &right, &right]), Ok(1));
        assert_eq!(same(&case, 2, [&refuses, &refuses, &refuses]), Ok(0));
        let differs = |proved: Side, lean: Side| same(&case, 2, [proved, &right, lean]).expect_err("they differ");
        assert!(differs(&past, &right).contains("word 1 of the library's"));
        assert!(differs(&right, &past).contains("word 1 of the anchor's"));
        assert!(differs(&refuses, &right).contains("the library answers"));
        assert!(differs(&right, &refuses).contains("the anchor answers"));
    }

    #[test]
    fn a_library_that_is_not_there() {
        let missing = PathBuf::from("no-such-library.so");
        let told = run(&missing, Path::new("../books"), None, &mut Vec::new());
        assert!(told.is_err_and(|why| why.starts_with("no-such-library.so: ")));
    }

    #[test]
    fn moves_in_turn() {
        assert_eq!(round_robin(3)[..5], [0, 1, 2, 0, 1]);
        assert_eq!(round_robin(1).len(), MOST_MOVES);
        assert_eq!([parties(&[]), parties(&[1, 8, 0]), parties(&[1, 8, 99])], [1, 1, 16]);
    }
}

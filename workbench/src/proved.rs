//! What the proved functions answer about a subject. Every verdict, program, count and piece of knowledge comes from here.

use crate::failure::Failure;
use crate::guard;
use crate::listing::{Event, Program};
use crate::subject::{to_bytes, to_words, Subject};
use narration::book::Book;
use nghiralum::Refusal;

/// More moves than this are refused (11).
pub const MOST_MOVES: usize = 4_096;

/// What is told of a book that can be played.
pub struct Answers {
    /// The listing's words.
    pub words: Vec<u32>,
    pub programs: Vec<Program>,
    summary: Summary,
    /// How each party holds each row.
    sources: Vec<Vec<Source>>,
}

/// How a party holds a row; what it has built and let go of, or never had, it does not hold.
#[derive(Clone, Copy, PartialEq, Eq, Debug)]
pub enum Source {
    Given,
    Made { step: u32 },
    Stored { step: u32, placeholder: u32 },
    Not,
}

impl Answers {
    /// The answers, or refusal 10 or 13.
    pub fn of(subject: &Subject) -> Result<Result<Answers, Refusal>, Failure> {
        let words = match nghiralum::listing(&subject.bytes) {
            Ok(listing) => to_words(&listing),
            Err(refusal) => return Ok(Err(refusal)),
        };
        let programs = guard::listing(&words)?;
        let summary = nghiralum::summary(&subject.bytes);
        let summary = summary.map_err(|refusal| Failure::guard(format!("a listing and no summary: {refusal}")))?;
        let summary = Summary(to_words(&summary));
        let sources = sources(&subject.book, &programs);
        let answers = Answers {
            words,
            programs,
            summary,
            sources,
        };
        answers.agree(&subject.book)?;
        Ok(Ok(answers))
    }

    pub fn source(&self, party: u32, row: u32) -> Source {
        self.sources[party as usize][row as usize]
    }

    /// Whether the party holds the row before the first step, or after this one.
    pub fn holds(&self, party: u32, row: u32, after: Option<u32>) -> bool {
        self.summary.since(party, row) <= after.map_or(0, |step| step + 1)
    }

    /// How a row is known, which is read off the programs, and since when, which the summary says, agree.
    fn agree(&self, book: &Book) -> Result<(), Failure> {
        for (party, row) in pairs(book) {
            let since = match self.source(party, row) {
                Source::Given => 0,
                Source::Made { step } | Source::Stored { step, .. } => step + 1,
                Source::Not => book.steps.len() as u32 + 1,
            };
            if self.summary.since(party, row) != since {
                return Err(Failure::guard("the programs and the summary differ in what is held"));
            }
        }
        Ok(())
    }
}

fn pairs(book: &Book) -> impl Iterator<Item = (u32, u32)> {
    let (parties, rows) = (book.parties.len() as u32, book.rows.len() as u32);
    (0..parties).flat_map(move |party| (0..rows).map(move |row| (party, row)))
}

/// A summary's words: who holds what since when.
struct Summary(Vec<u32>);

impl Summary {
    /// 0 from the start, s + 1 from step s on, the steps and 1 never.
    fn since(&self, party: u32, row: u32) -> u32 {
        self.0[3 + (party * self.0[1] + row) as usize]
    }
}

/// Given rows are the book's; made and stored ones are read off the programs: NEW before the SEND of its step, END.
fn sources(book: &Book, programs: &[Program]) -> Vec<Vec<Source>> {
    let of_party = |(party, program): (&narration::book::Party, &Program)| {
        let mut sources = vec![Source::Not; book.rows.len()];
        party
            .known
            .iter()
            .for_each(|row| sources[*row as usize] = Source::Given);
        let mut new = Vec::new();
        for event in program {
            match event {
                Event::New { row } => new.push(*row),
                Event::Send { step, .. } => {
                    for row in new.drain(..) {
                        sources[row as usize] = Source::Made { step: *step };
                    }
                }
                Event::End { stored } => {
                    for own in stored {
                        sources[own.row as usize] = Source::Stored {
                            step: own.step,
                            placeholder: own.placeholder,
                        };
                    }
                }
                _ => (),
            }
        }
        sources
    };
    book.parties.iter().zip(programs).map(of_party).collect()
}

/// The events that each party has done after these moves.
pub fn rehearse(subject: &Subject, moves: &[u32]) -> Result<Vec<u32>, Refusal> {
    let mut done = [0; 64];
    let length = nghiralum::rehearse(&subject.bytes, &to_bytes(moves), &mut done)?;
    Ok(to_words(&done[..length]))
}

/// A small book that can be played, for tests.
#[cfg(test)]
pub fn example() -> (Subject, Answers) {
    let input = crate::input::Input {
        name: "text".to_string(),
        path: None,
        bytes: b"party A knows K\nparty B knows K\nB -> A: N\nA -> B: {N}K\n".to_vec(),
    };
    let Ok(crate::subject::Opened::Subject(subject)) = crate::subject::open(&input) else {
        panic!("a narration");
    };
    let answers = Answers::of(&subject).expect("no guard").expect("it can be played");
    (*subject, answers)
}

#[cfg(test)]
mod tests {
    use super::*;

    /// One altered word of a summary, and one row that is held in another way, break the guard.
    #[test]
    fn what_is_held_is_told_twice() {
        let (subject, _) = example();
        let whole = || example().1;
        let status = |answers: &Answers| answers.agree(&subject.book).map_err(|failure| failure.status);
        assert_eq!(status(&whole()), Ok(()));
        for at in 3..whole().summary.0.len() {
            let mut altered = whole();
            altered.summary.0[at] += 1;
            assert_eq!(status(&altered), Err(70), "word {at}");
        }
        let mut altered = whole();
        altered.sources[0][0] = Source::Made { step: 1 };
        assert_eq!(status(&altered), Err(70));
    }
}

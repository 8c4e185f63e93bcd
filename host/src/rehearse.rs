//! The rehearsal: the programs of a book played under a schedule, and the events done by each party (refusals 11 and
//! 12). It plays the plain machine itself, terms and all.

use crate::book::{self, Refusal};
use crate::machine::Machine;
use crate::translate;
use crate::words;

/// Refusal 11: "more than 4,096 moves".
pub const MOST_MOVES: usize = 4_096;
/// As with a book, one word more than the longest schedule is read, and no further.
pub const READ: usize = MOST_MOVES + 1;

/// Plays a book's programs under a schedule of party numbers. The output is Q words: "events done
/// by each party, END not counted". A refusal leaves all of `out` as it was.
pub fn rehearse(words: &[u32], schedule: &[u32], out: &mut [u32]) -> Result<usize, Refusal> {
    let book = book::read(words)?;
    let programs = translate::programs(&book)?;
    test(schedule, book.parties.len())?;
    // The last refusal doesn't hang on the play, so a short buffer is told without playing.
    if out.len() < book.parties.len() {
        return Err(Refusal::new(12, &[book.parties.len() as u32]));
    }
    let mut machine = Machine::start(&book, &programs);
    for party in schedule {
        machine.move_party(*party);
    }
    let done: Vec<u32> = (machine.players.iter()).map(|player| player.done as u32).collect();
    translate::lend(&done, out)
}

/// Refusal 11: "more than 4,096 moves, or a move that names no party", in this order.
fn test(schedule: &[u32], parties: usize) -> Result<(), Refusal> {
    if schedule.len() > MOST_MOVES {
        return Err(Refusal::new(11, &[MOST_MOVES as u32]));
    }
    let bad = schedule.iter().position(|party| *party as usize >= parties);
    match bad {
        Some(number) => Err(Refusal::new(11, &[number as u32])),
        None => Ok(()),
    }
}

/// The line for a book's file and a schedule's, without the line's end.
pub fn print(book: &[u8], schedule: &[u8]) -> String {
    let book = words::of_bytes(words::first(book, book::READ));
    let schedule = words::of_bytes(words::first(schedule, READ));
    let mut out = [0; book::MOST_PARTIES as usize];
    let length = match (book, schedule) {
        (Ok(book), Ok(schedule)) => rehearse(&book, &schedule, &mut out),
        (Err(refusal), _) | (_, Err(refusal)) => Err(refusal),
    };
    match length {
        Ok(length) => words::line(&out[..length]),
        Err(refusal) => refusal.to_string(),
    }
}

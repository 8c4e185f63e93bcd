//! Translation, rehearsal, summaries, the judge and the check of derivations on bytes, as an editor calls them that
//! keeps its books so (document 02, requests 1, 4, 7 and 14): the same answers, four bytes a word, low byte first.

use crate::book::{self, Refusal, MOST_PARTIES};
use crate::judge::{self, Verdict};
use crate::rehearse;
use crate::summary;
use crate::translate::{self, Program};
use crate::types;
use crate::words;

/// Translates a book's bytes into lent ones: the listing's length in words, or the first refusal that applies.
pub fn translate(book: &[u8], out: &mut [u8]) -> Result<usize, Refusal> {
    lend(&listing(book)?, out)
}

/// Plays a book under a schedule, both of bytes; the output is the events done by each party.
pub fn rehearse(book: &[u8], schedule: &[u8], out: &mut [u8]) -> Result<usize, Refusal> {
    lend(&done(book, schedule)?, out)
}

/// Writes the summary of a book's bytes into lent ones.
pub fn write_summary(book: &[u8], out: &mut [u8]) -> Result<usize, Refusal> {
    lend(&summary(book)?, out)
}

/// Whether the party held the row after the step, by the bytes of a summary. If they make no words that is refusal 1,
/// as of a book, before all else.
pub fn ask(summary: &[u8], party: u32, row: u32, step: u32) -> Result<bool, Refusal> {
    summary::ask(&words::of_bytes(summary)?, party, row, step)
}

/// Judges the bytes of one party's listing against a book's. If either make no words that is refusal 1, before all else.
pub fn judge(book: &[u8], party: u32, listing: &[u8]) -> Result<Verdict, Refusal> {
    judge::judge(&words::of_bytes(book)?, party, &words::of_bytes(listing)?)
}

/// The verdict on a derivation of what is asked, of the bytes of both. If either make no words that is refusal 1; then
/// comes 24, which is one of the verdicts; and if the room has fewer words than both together, refusal 12 with these.
/// Else the derivation's words are laid into the room, and behind them those of what is asked.
pub fn check(asked: &[u8], derivation: &[u8], room: &mut [u32]) -> Result<types::Verdict, Refusal> {
    let (asked, derivation) = (words::of_bytes(asked)?, words::of_bytes(derivation)?);
    let verdict = types::verdict(&asked, &derivation);
    if !matches!(verdict, types::Verdict::Refused(_)) {
        lay(&[&derivation[..], &asked].concat(), room)?;
    }
    Ok(verdict)
}

/// Whether what is asked keeps its bound names apart, likewise.
pub fn keeps_apart(asked: &[u8], room: &mut [u32]) -> Result<bool, Refusal> {
    let asked = words::of_bytes(asked)?;
    lay(&asked, room)?;
    Ok(types::keeps_apart(&asked))
}

/// Lays words into the front of a room, if there is room for them all.
fn lay(words: &[u32], room: &mut [u32]) -> Result<(), Refusal> {
    match room.get_mut(..words.len()) {
        Some(front) => front.copy_from_slice(words),
        None => return Err(Refusal::new(12, &[words.len() as u32])),
    }
    Ok(())
}

/// The summary of a book, or its refusal, where room is no matter.
pub fn summary(book: &[u8]) -> Result<Vec<u32>, Refusal> {
    summary::of(&book::read(&words::of_bytes(book)?)?)
}

/// The listing of a book, or its refusal, where room is no matter.
pub fn listing(book: &[u8]) -> Result<Vec<u32>, Refusal> {
    Ok(translate::listing(&programs(book)?))
}

/// The programs of a book, or its refusal.
pub fn programs(book: &[u8]) -> Result<Vec<Program>, Refusal> {
    translate::programs(&book::read(&words::of_bytes(book)?)?)
}

/// The events done by each party, or the refusal, where room is no matter. "A book or schedule whose byte length isn't
/// a multiple of four is refusal 1, before all else."
pub fn done(book: &[u8], schedule: &[u8]) -> Result<Vec<u32>, Refusal> {
    let (book, schedule) = (words::of_bytes(book)?, words::of_bytes(schedule)?);
    let mut out = vec![0; MOST_PARTIES as usize];
    let length = rehearse::rehearse(&book, &schedule, &mut out)?;
    out.truncate(length);
    Ok(out)
}

/// Writes an output into lent bytes: "refusal 12 still counts words; up to three spare output bytes are untouched".
pub fn lend(output: &[u32], out: &mut [u8]) -> Result<usize, Refusal> {
    if output.len() > out.len() / 4 {
        return Err(Refusal::new(12, &[output.len() as u32]));
    }
    for (word, four) in output.iter().zip(out.chunks_exact_mut(4)) {
        four.copy_from_slice(&word.to_le_bytes());
    }
    Ok(output.len())
}

#[cfg(test)]
mod tests {
    use super::*;

    /// One row, one party, no step.
    const SMALLEST: [u32; 16] = [1, 8, 1, 12, 0, 16, 0, 16, 0, 0, 0, 0, 0, 0, 0, 1];

    #[test]
    fn the_same_answers_as_on_words() {
        let book = words::to_bytes(&SMALLEST);
        let mut lent = [0; 16_384];
        let length = translate::translate(&SMALLEST, &mut lent).expect("a listing");
        for spare in 0..4 {
            let mut out = vec![7; 4 * length + spare];
            assert_eq!(translate(&book, &mut out), Ok(length));
            assert_eq!(out[..4 * length], words::to_bytes(&lent[..length]));
            assert_eq!(out[4 * length..], [7, 7, 7][..spare]);
            let mut out = vec![7; 4 * length - 4 + spare];
            assert_eq!(translate(&book, &mut out), Err(Refusal::new(12, &[length as u32])));
            assert!(out.iter().all(|byte| *byte == 7));
        }
        let mut out = [7; 5];
        assert_eq!(rehearse(&book, &[0; 8], &mut out), Ok(1));
        assert_eq!(out, [0, 0, 0, 0, 7]);
        let mut out = [7; 19];
        assert_eq!(write_summary(&book, &mut out[..15]), Err(Refusal::new(12, &[4])));
        assert_eq!(out, [7; 19]);
        // One party, one row, no step: it never holds its own name.
        assert_eq!(write_summary(&book, &mut out), Ok(4));
        assert_eq!(out[..16], words::to_bytes(&[1, 1, 0, 1]));
        assert_eq!(out[16..], [7; 3]);
        assert_eq!(ask(&out[..16], 0, 0, 0), Err(Refusal::new(21, &[0])));
        assert_eq!(ask(&words::to_bytes(&[1, 1, 1, 1]), 0, 0, 0), Ok(true));
        assert_eq!(ask(&words::to_bytes(&[1, 1, 1, 2]), 0, 0, 0), Ok(false));
        assert_eq!(ask(&words::to_bytes(&[1, 1, 1]), 0, 0, 0), Err(Refusal::new(20, &[3])));
        // Its one program is END alone.
        assert_eq!(judge(&book, 0, &words::to_bytes(&[6, 0])), Ok(Verdict::Same));
        assert_eq!(judge(&book, 0, &words::to_bytes(&[6, 1])), Ok(Verdict::Differs(1)));
        assert_eq!(judge(&book, 1, &[]), Err(Refusal::new(22, &[1])));
    }

    /// `begin a; STOP` in the empty environment, and its three lines.
    #[test]
    fn a_derivation_in_a_room() {
        let asked = [1, 9, 1, 0, 5];
        let lines = [
            [1, 0, 0, 0, 29, 0, 0, 0, 0],
            [16, 0, 0, 0, 29, 31, 0, 0, 0],
            [17, 1, 0, 0, 29, 28, 0, 0, 0],
        ];
        let derivation = [&[3], lines.concat().as_slice(), &[9, 1, 0, 5]].concat();
        let (asked, derivation) = (words::to_bytes(&asked), words::to_bytes(&derivation));
        let one = Err(Refusal::new(1, &[0]));
        let mut room = [7; 40];
        assert_eq!(check(&asked[1..], &derivation, &mut []), one);
        assert_eq!(check(&asked, &derivation[1..], &mut []), one);
        let short = check(&asked, &derivation, &mut room[..36]);
        assert_eq!(short, Err(Refusal::new(12, &[37])));
        assert_eq!(room, [7; 40]);
        assert_eq!(check(&asked, &derivation, &mut room), Ok(types::Verdict::Safe));
        assert_eq!((room[0], &room[32..]), (3, &[1, 9, 1, 0, 5, 7, 7, 7][..]));
        let many = words::to_bytes(&[1_025]);
        assert_eq!(check(&asked, &many, &mut []), Ok(types::Verdict::Refused(1_025)));
        assert_eq!(check(&asked, &many, &mut room), Ok(types::Verdict::Refused(1_025)));
        assert_eq!((room[0], &room[32..]), (3, &[1, 9, 1, 0, 5, 7, 7, 7][..]));
        assert_eq!(keeps_apart(&asked, &mut room[..4]), Err(Refusal::new(12, &[5])));
        assert_eq!(keeps_apart(&asked[2..], &mut []), Err(Refusal::new(1, &[0])));
        assert_eq!(room[0], 3);
        assert_eq!(keeps_apart(&asked, &mut room), Ok(true));
        assert_eq!(room[..6], [1, 9, 1, 0, 5, 29]);
    }

    #[test]
    fn odd_lengths_come_first() {
        let book = words::to_bytes(&SMALLEST);
        let one = Err(Refusal::new(1, &[0]));
        assert_eq!(translate(&book[..63], &mut []), one);
        assert_eq!(rehearse(&book, &[9], &mut []), one);
        assert_eq!(rehearse(&[1; 40], &[9, 9, 9], &mut []), one);
        assert_eq!(rehearse(&book[..62], &[0; 6], &mut []), one);
        assert_eq!(rehearse(&book, &[9, 0, 0, 0], &mut []), Err(Refusal::new(11, &[0])));
        assert_eq!(write_summary(&book[..63], &mut []), one);
        for odd in [1, 2, 3, 13, 17] {
            assert_eq!(ask(&[1; 17][..odd], 9, 9, 9), Err(Refusal::new(1, &[0])));
            assert_eq!(judge(&book, 9, &[6; 17][..odd]), Err(Refusal::new(1, &[0])));
            assert_eq!(judge(&book[odd..], 0, &[6, 0, 0, 0]), Err(Refusal::new(1, &[0])));
            // Before the book's own refusal too: these are no rows at all.
            assert_eq!(judge(&[0; 32], 0, &[6; 17][..odd]), Err(Refusal::new(1, &[0])));
        }
        assert_eq!(judge(&[0; 32], 9, &[]), Err(Refusal::new(2, &[0])));
    }
}

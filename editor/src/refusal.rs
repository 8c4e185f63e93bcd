//! A refusal: unpacked from an answer's number, and told to people.

use std::error::Error;
use std::fmt;

/// More moves than this are refusal 11, with this as its place.
const MOST_MOVES: u32 = 4_096;

/// Why there is no output: the first refusal of the README's table that applies, with its place.
///
/// It is shown as a sentence:
///
/// ```
/// let refusal = nghiralum::listing(&[]).expect_err("nothing is no book");
/// assert_eq!(
///     refusal.to_string(),
///     "refusal 1: there are fewer than 8 words, or a count of bytes that is no multiple of four"
/// );
/// ```
///
/// Later versions may have refusals with other numbers, so a `match` on a number needs a line for those as well.
#[derive(Clone, Copy, PartialEq, Eq, Hash, Debug)]
pub struct Refusal {
    number: u8,
    place: u32,
    second: u32,
}

impl Refusal {
    /// Its number in the table.
    pub const fn number(self) -> u8 {
        self.number
    }

    /// Where it is: a word of the header (refusals 2 and 3), a row (4 to 6), a party (7), a step (8, 10 and 13) or a move
    /// (11), counted from 0; the *words* needed for the output (12); the *words* of a summary that has another length
    /// (20), at most 4,294,967,295; the number in a question that is out of range (21); the number that no party has
    /// whose listing is to be judged (22); the count of a derivation's lines, or of a line's effects, that is too large
    /// (24); 0 where there is no place (1 and 9).
    pub const fn place(self) -> u32 {
        self.place
    }

    /// The row of the atom that can't be made; refusals 10 and 13 alone have it, besides the step.
    pub const fn row(self) -> Option<u32> {
        match self.number {
            10 | 13 => Some(self.second),
            _ => None,
        }
    }

    /// How many *bytes* the output needs, where too few were lent; refusal 12 alone has it.
    pub const fn bytes_needed(self) -> Option<usize> {
        match self.number {
            12 => Some(bytes(self.place)),
            _ => None,
        }
    }

    fn sentence(self, out: &mut fmt::Formatter<'_>) -> fmt::Result {
        let Refusal { number, place, second } = self;
        match number {
            1 => out.write_str("there are fewer than 8 words, or a count of bytes that is no multiple of four"),
            2 => write!(out, "header word {place}, {}, is out of bounds", count(place)),
            3 => write!(out, "{} is not what the counts come to", offset(place)),
            4 => write!(
                out,
                "row {place} breaks its rule: kind, tag, parts or its list in the pool"
            ),
            5 => write!(out, "row {place} is larger than 1,024"),
            6 => write!(out, "row {place} repeats an earlier row"),
            7 => write!(
                out,
                "party {place} breaks its rule: name, known rows, their list in the pool or its mark"
            ),
            8 => write!(
                out,
                "step {place} breaks its rule: sender, receiver, messages or their list in the pool"
            ),
            9 => out.write_str("the counts of the lists don't add up to the pool's length"),
            10 => write!(
                out,
                "step {place} can't be played: the atom of row {second} would have to be made, and is taken"
            ),
            11 if place == MOST_MOVES => out.write_str("the schedule has more than 4,096 moves"),
            11 => write!(out, "move {place} of the schedule names no party"),
            12 => write!(out, "the output has {place} words, and there is room for fewer"),
            13 => write!(
                out,
                "step {place} can't be played: its sender would have to make the atom of row {second}, and makes nothing"
            ),
            20 => write!(
                out,
                "the summary has {place} words, and not 3 and one for each party and row that it says there are"
            ),
            21 => write!(
                out,
                "the question is out of range: the summary has no party, no row or no step {place}"
            ),
            22 => write!(out, "the listing to be judged is of party {place}, and the book has none of that number"),
            24 => write!(
                out,
                "the derivation has {place} lines, of at most 1,024, or a line of it {place} effects, of at most 64"
            ),
            _ => write!(out, "one that this version has no sentence for, at {place}"),
        }
    }
}

impl fmt::Display for Refusal {
    fn fmt(&self, out: &mut fmt::Formatter<'_>) -> fmt::Result {
        write!(out, "refusal {}: ", self.number)?;
        self.sentence(out)
    }
}

impl Error for Refusal {}

/// What a word of the header counts.
fn count(word: u32) -> &'static str {
    match word {
        0 => "the count of rows (1 to 1,024)",
        2 => "the count of parties (1 to 16)",
        4 => "the count of steps (0 to 64)",
        _ => "the count of the pool's words (0 to 8,192)",
    }
}

/// What a word of the header, or the place behind it, says is where.
fn offset(word: u32) -> &'static str {
    match word {
        1 => "header word 1, the offset of the rows,",
        3 => "header word 3, the offset of the parties,",
        5 => "header word 5, the offset of the steps,",
        7 => "header word 7, the offset of the pool,",
        _ => "the book's length",
    }
}

/// The bytes of so many words.
const fn bytes(words: u32) -> usize {
    (words as usize).saturating_mul(4)
}

/// What an answer says: the refusal's number in its lowest byte, or 0; then four bytes for a length in words or for the
/// place, and three for a second place. No number at all makes it panic.
pub(crate) fn unpack(answer: u64) -> Result<usize, Refusal> {
    let (number, place, second) = (answer as u8, (answer >> 8) as u32, (answer >> 40) as u32);
    match number {
        0 => Ok(bytes(place)),
        _ => Err(Refusal { number, place, second }),
    }
}

/// What an answer to a question says: where it is no refusal, the four bytes above the lowest are 1 for yes and 0 for no.
pub(crate) fn unpack_reply(answer: u64) -> Result<bool, Refusal> {
    unpack(answer).map(|value| value != 0)
}

#[cfg(test)]
mod tests {
    use super::*;

    fn refusal(number: u64, place: u64, second: u64) -> Refusal {
        unpack(second << 40 | place << 8 | number).expect_err("a refusal")
    }

    #[test]
    fn answers() {
        assert_eq!(unpack(0), Ok(0));
        assert_eq!(unpack(51 << 8), Ok(204));
        assert_eq!(unpack(33_558_593 << 8), Ok(134_234_372));
        let taken = refusal(10, 63, 1_023);
        assert_eq!((taken.number(), taken.place(), taken.row()), (10, 63, Some(1_023)));
        assert_eq!(taken.bytes_needed(), None);
        let maker = refusal(13, 0, 700);
        assert_eq!((maker.number(), maker.place(), maker.row()), (13, 0, Some(700)));
        assert_eq!(maker.bytes_needed(), None);
        let room = refusal(12, 33_558_593, 0);
        assert_eq!(
            (room.place(), room.bytes_needed(), room.row()),
            (33_558_593, Some(134_234_372), None)
        );
        assert_eq!(unpack_reply(0), Ok(false));
        assert_eq!(unpack_reply(1 << 8), Ok(true));
        let length = unpack_reply(u64::from(u32::MAX) << 8 | 20).expect_err("a refusal");
        assert_eq!((length.number(), length.place()), (20, u32::MAX));
        assert_eq!((length.row(), length.bytes_needed()), (None, None));
    }

    /// Every number has a sentence, those too that no version has so far.
    #[test]
    fn sentences() {
        let mut all: Vec<String> = (1..=255).map(|number| refusal(number, 5, 6).to_string()).collect();
        assert!(all
            .iter()
            .zip(1..)
            .all(|(told, number)| told.starts_with(&format!("refusal {number}: "))));
        all.sort();
        all.dedup();
        assert_eq!(all.len(), 255);
        assert!(all.contains(&"refusal 77: one that this version has no sentence for, at 5".to_string()));
        assert!(refusal(10, 1, 3).to_string().contains("step 1 ") && refusal(10, 1, 3).to_string().contains("row 3 "));
        let maker = refusal(13, 2, 7).to_string();
        assert!(maker.contains("step 2 ") && maker.contains("row 7,") && maker.ends_with("makes nothing"));
        assert!(refusal(7, 3, 0).to_string().contains("party 3 ") && refusal(7, 3, 0).to_string().contains("mark"));
        assert!(refusal(11, 4_096, 0).to_string().ends_with("more than 4,096 moves"));
        assert!(refusal(11, 4_095, 0).to_string().contains("move 4095 "));
        assert!(refusal(2, 6, 0).to_string().contains("pool"));
        assert!(refusal(3, 8, 0).to_string().contains("the book's length"));
        assert!(refusal(20, 12, 0).to_string().contains("has 12 words"));
        assert!(refusal(21, 65, 0).to_string().ends_with(" 65"));
        assert!(refusal(22, 2, 0).to_string().contains("party 2,"));
        assert!(refusal(24, 65, 0).to_string().contains("65 effects"));
        for answer in [u64::MAX, u64::MAX - 255, 1 << 63, 0x80] {
            let _ = unpack(answer).map_err(|refusal| refusal.to_string());
        }
    }

    /// It goes wherever errors go.
    #[test]
    fn an_error() {
        fn goes<T: Error + Send + Sync + 'static>(_: T) {}
        goes(refusal(1, 0, 0));
    }
}

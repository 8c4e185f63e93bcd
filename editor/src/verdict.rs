//! A verdict on another translator's listing: unpacked from an answer's number, and told to people.

use crate::refusal::{self, Refusal};
use std::fmt;

/// What is said of a listing: see [`judge`](crate::judge).
///
/// It is shown as a sentence:
///
/// ```
/// use nghiralum::Verdict;
///
/// assert_eq!(Verdict::Same.to_string(), "the same but for the names of placeholders");
/// assert_eq!(Verdict::Differs(12).to_string(), "differs from word 12 on");
/// ```
#[derive(Clone, Copy, PartialEq, Eq, Hash, Debug)]
pub enum Verdict {
    /// A one-to-one renaming of its placeholders turns it into ours.
    Same,
    /// No renaming does. This is the smallest *word*, counted from 0, up to which and with which none can make the two
    /// agree; or the length of the shorter one in words, if they agree as far as that goes.
    Differs(usize),
}

impl fmt::Display for Verdict {
    fn fmt(&self, out: &mut fmt::Formatter<'_>) -> fmt::Result {
        match self {
            Verdict::Same => out.write_str("the same but for the names of placeholders"),
            Verdict::Differs(place) => write!(out, "differs from word {place} on"),
        }
    }
}

/// What an answer says: where it is no refusal, the four bytes above the lowest are 1 for the same and 0 for another, and
/// the three above these are the place then. No number at all makes it panic.
pub(crate) fn unpack(answer: u64) -> Result<Verdict, Refusal> {
    let same = refusal::unpack(answer)? != 0;
    Ok(match same {
        true => Verdict::Same,
        false => Verdict::Differs((answer >> 40) as usize),
    })
}

#[cfg(test)]
mod tests {
    use super::*;

    #[test]
    fn answers() {
        assert_eq!(unpack(256), Ok(Verdict::Same));
        assert_eq!(unpack(0), Ok(Verdict::Differs(0)));
        assert_eq!(unpack(1 << 40), Ok(Verdict::Differs(1)));
        assert_eq!(unpack(1_051_906 << 40), Ok(Verdict::Differs(1_051_906)));
        assert_eq!(unpack(0xff_ffff << 40), Ok(Verdict::Differs(0xff_ffff)));
        let party = unpack(0xffff_ffff << 8 | 22).expect_err("a refusal");
        assert_eq!((party.number(), party.place(), party.row()), (22, u32::MAX, None));
        let taken = unpack(7 << 40 | 3 << 8 | 10).expect_err("a refusal");
        assert_eq!((taken.number(), taken.place(), taken.row()), (10, 3, Some(7)));
        for answer in [u64::MAX, u64::MAX - 255, 1 << 63, 0x80] {
            let _ = unpack(answer);
        }
    }
}

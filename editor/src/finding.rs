//! What is found in a derivation: unpacked from an answer's number, and told to people.

use crate::refusal::{self, Refusal};
use std::fmt;

/// What is said of a derivation: see [`check`](crate::check).
///
/// It is shown as a sentence:
///
/// ```
/// use nghiralum::Finding;
///
/// assert_eq!(Finding::Safe.to_string(), "safe: the process has the empty effect");
/// assert_eq!(Finding::Bad(3).to_string(), "line 3 is no instance of its rule");
/// ```
#[derive(Clone, Copy, PartialEq, Eq, Hash, Debug)]
pub enum Finding {
    /// All lines are instances of their rules, and the last gives the asked process, in the asked environment, the empty
    /// effect.
    Safe,
    /// The smallest line, counted from 0, that is no instance of its rule.
    Bad(u32),
    /// All lines are instances of their rules, and the last gives something else than is asked.
    Another,
}

impl fmt::Display for Finding {
    fn fmt(&self, out: &mut fmt::Formatter<'_>) -> fmt::Result {
        match self {
            Finding::Safe => out.write_str("safe: the process has the empty effect"),
            Finding::Bad(line) => write!(out, "line {line} is no instance of its rule"),
            Finding::Another => out.write_str("the last line gives something else than is asked"),
        }
    }
}

/// What an answer says: where it is no refusal, the four bytes above the lowest are 1 for safe, 2 for another and 0 for a
/// bad line, which the three above these are. No number at all makes it panic.
pub(crate) fn unpack(answer: u64) -> Result<Finding, Refusal> {
    refusal::unpack(answer)?;
    Ok(match (answer >> 8) as u32 {
        0 => Finding::Bad((answer >> 40) as u32),
        1 => Finding::Safe,
        _ => Finding::Another,
    })
}

#[cfg(test)]
mod tests {
    use super::*;

    #[test]
    fn answers() {
        assert_eq!(unpack(256), Ok(Finding::Safe));
        assert_eq!(unpack(512), Ok(Finding::Another));
        assert_eq!(unpack(0), Ok(Finding::Bad(0)));
        assert_eq!(unpack(1_023 << 40), Ok(Finding::Bad(1_023)));
        let many = unpack(0xffff_ffff << 8 | 24).expect_err("a refusal");
        assert_eq!((many.number(), many.place(), many.row()), (24, u32::MAX, None));
        let odd = unpack(1).expect_err("a refusal");
        assert_eq!((odd.number(), odd.place()), (1, 0));
        for answer in [u64::MAX, u64::MAX - 255, 1 << 63, 0x80] {
            let _ = unpack(answer);
        }
    }
}

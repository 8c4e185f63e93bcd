//! A mistake in a text: where it stands, what was expected there and what was found.

use std::fmt;

#[derive(Clone, PartialEq, Eq, Debug)]
pub struct Mistake {
    pub spot: Spot,
    pub expected: String,
    pub found: String,
    pub kind: Kind,
}

/// What a mistake is, as far as more can be said of it than what was expected.
#[derive(Clone, Copy, PartialEq, Eq, Debug)]
pub enum Kind {
    /// There is no party in the whole text.
    Empty,
    /// A step names a party that no party line declares.
    Undeclared,
    /// A limit of the whole book is passed, which every later term passes too.
    Limit,
    Other,
}

/// Where something stands in a text: its line and column, counted from 1, and how many characters it goes over.
#[derive(Clone, Copy, PartialEq, Eq, PartialOrd, Ord, Debug)]
pub struct Spot {
    pub line: usize,
    pub column: usize,
    pub length: usize,
}

impl Mistake {
    /// What is wrong, without its place.
    pub fn message(&self) -> String {
        format!("expected {}, found {}", self.expected, self.found)
    }

    pub(crate) fn of(self, kind: Kind) -> Mistake {
        Mistake { kind, ..self }
    }
}

impl fmt::Display for Mistake {
    fn fmt(&self, f: &mut fmt::Formatter<'_>) -> fmt::Result {
        let Spot { line, column, .. } = self.spot;
        write!(f, "line {line}, column {column}: {}", self.message())
    }
}

/// A mistake that goes over a character at least.
pub fn mistake(spot: Spot, expected: &str, found: &str) -> Mistake {
    Mistake {
        spot: Spot {
            length: spot.length.max(1),
            ..spot
        },
        expected: expected.to_string(),
        found: found.to_string(),
        kind: Kind::Other,
    }
}

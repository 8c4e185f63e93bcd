//! One line of a text, cut into tokens, each with its spot.
//! A line is the largest unit: nothing goes on over its end.

use super::mistake::Spot;
use std::fmt;

#[derive(Clone, Copy, PartialEq, Eq, Debug)]
pub enum Token<'a> {
    Name(&'a str),
    /// `->`. A half's sign is never followed by `>`, so the two characters always belong together.
    Arrow,
    /// One of `( ) { } , : + -`, or a character that no line may hold.
    Sign(char),
    End,
}

impl fmt::Display for Token<'_> {
    fn fmt(&self, f: &mut fmt::Formatter<'_>) -> fmt::Result {
        match self {
            Token::Name(name) => write!(f, "`{name}`"),
            Token::Arrow => write!(f, "`->`"),
            Token::Sign(sign) => write!(f, "`{}`", sign.escape_debug()),
            Token::End => write!(f, "the end of the line"),
        }
    }
}

pub struct Tokens<'a> {
    list: Vec<(Token<'a>, Spot)>,
    end: Spot,
    next: usize,
}

impl<'a> Tokens<'a> {
    /// `line` is the line's number. A comment and the blanks before it are no tokens.
    pub fn of(text: &'a str, line: usize) -> Tokens<'a> {
        let mut list = Vec::new();
        let mut end = Spot {
            line,
            column: 1,
            length: 1,
        };
        let mut column = 1;
        let mut rest = text;
        while let Some(first) = rest.chars().next() {
            let (token, bytes) = match first {
                '#' => break,
                ' ' | '\t' => (None, 1),
                '-' if rest[1..].starts_with('>') => (Some(Token::Arrow), 2),
                _ if of_a_name(first) => {
                    let bytes = rest.find(|c| !of_a_name(c)).unwrap_or(rest.len());
                    (Some(Token::Name(&rest[..bytes])), bytes)
                }
                _ => (Some(Token::Sign(first)), first.len_utf8()),
            };
            let length = rest[..bytes].chars().count();
            let spot = Spot { line, column, length };
            column += length;
            rest = &rest[bytes..];
            if let Some(token) = token {
                list.push((token, spot));
                end = Spot {
                    line,
                    column,
                    length: 1,
                };
            }
        }
        Tokens { list, end, next: 0 }
    }

    pub fn peek(&self) -> Token<'a> {
        self.ahead(0)
    }

    /// Every name of the line, and where it stands.
    pub fn names(&self) -> impl Iterator<Item = (&'a str, Spot)> + '_ {
        self.list.iter().filter_map(|(token, spot)| match token {
            Token::Name(name) => Some((*name, *spot)),
            _ => None,
        })
    }

    /// The token `n` places after the next one.
    pub fn ahead(&self, n: usize) -> Token<'a> {
        self.list.get(self.next + n).map_or(Token::End, |(token, _)| *token)
    }

    /// Where the next token stands; at the line's end, just after the last one.
    pub fn spot(&self) -> Spot {
        self.list.get(self.next).map_or(self.end, |(_, spot)| *spot)
    }

    /// From a spot to where the last token that was passed ends.
    pub fn since(&self, from: Spot) -> Spot {
        let last = self.next.checked_sub(1).and_then(|last| self.list.get(last));
        let end = last.map_or(from.column, |(_, spot)| spot.column + spot.length);
        Spot {
            length: end.saturating_sub(from.column).max(1),
            ..from
        }
    }

    pub fn skip(&mut self) {
        self.next += 1;
    }

    /// Skips the next token if it is `token`.
    pub fn take(&mut self, token: Token<'_>) -> bool {
        let found = self.peek() == token;
        if found {
            self.skip();
        }
        found
    }
}

/// Letters and digits of any script.
pub fn of_a_name(c: char) -> bool {
    c.is_alphanumeric() || c == '_' || c == '\''
}

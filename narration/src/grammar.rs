//! The lines of a text: `rows` lines, then party lines, then steps. This is the first pass: how the text is written,
//! with the spot of everything that the second pass may find at fault.

use super::limits;
use super::mistake::{mistake, Mistake, Spot};
use super::token::{Token, Tokens};
use super::written::{list, unexpected, Form, Written};
use std::collections::HashSet;

pub struct Lines<'a> {
    pub terms: Vec<Written<'a>>,
    /// The operations' names, in the order they stand in the text; with repetitions.
    pub operations: Vec<&'a str>,
    pub rows: Vec<usize>,
    pub parties: Vec<PartyLine<'a>>,
    pub steps: Vec<StepLine<'a>>,
    pub end: Spot,
    /// Of each line that can't be read, its first.
    pub mistakes: Vec<Mistake>,
    /// The names in these lines.
    pub unread: HashSet<&'a str>,
}

pub struct PartyLine<'a> {
    pub name: &'a str,
    pub spot: Spot,
    pub makes: bool,
    pub known: Vec<usize>,
}

pub struct StepLine<'a> {
    pub sender: (&'a str, Spot),
    pub receiver: (&'a str, Spot),
    pub messages: Vec<usize>,
}

pub fn read(text: &str) -> Lines<'_> {
    let mut lines = Lines {
        terms: Vec::new(),
        operations: Vec::new(),
        rows: Vec::new(),
        parties: Vec::new(),
        steps: Vec::new(),
        end: Spot {
            line: 1,
            column: 1,
            length: 1,
        },
        mistakes: Vec::new(),
        unread: HashSet::new(),
    };
    for (number, line) in crate::lines(text).into_iter().enumerate() {
        lines.end = Spot {
            line: number + 1,
            column: line.chars().count() + 1,
            length: 1,
        };
        let mut tokens = Tokens::of(line, number + 1);
        if let Err(mistake) = read_line(&mut tokens, &mut lines) {
            lines.mistakes.push(mistake);
            lines.unread.extend(tokens.names().map(|(name, _)| name));
        }
    }
    lines.operations = operations(&lines.terms);
    lines
}

/// No word is reserved: a line whose second token is `->` is a step, whatever its first one is.
fn read_line<'a>(tokens: &mut Tokens<'a>, lines: &mut Lines<'a>) -> Result<(), Mistake> {
    if let Some((_, spot)) = tokens.names().find(|(_, spot)| spot.length > limits::NAME) {
        let expected = format!("a name of at most {} letters", limits::NAME);
        return Err(mistake(spot, &expected, &format!("one of {}", spot.length)));
    }
    let step = tokens.ahead(1) == Token::Arrow;
    match tokens.peek() {
        Token::End => Ok(()),
        Token::Name(_) if step => read_step(tokens, lines),
        Token::Name("party") => read_party(tokens, lines),
        Token::Name("rows") => read_rows(tokens, lines),
        Token::Name(_) => {
            tokens.skip();
            Err(unexpected(tokens, "`->` (if this is no `party` and no `rows` line)"))
        }
        _ => Err(unexpected(tokens, "`rows`, `party` or a step")),
    }
}

fn read_rows<'a>(tokens: &mut Tokens<'a>, lines: &mut Lines<'a>) -> Result<(), Mistake> {
    if !lines.parties.is_empty() || !lines.steps.is_empty() {
        let expected = "a party or a step (`rows` lines come first)";
        return Err(mistake(tokens.spot(), expected, "`rows`"));
    }
    tokens.skip();
    let rows = list(tokens, &mut lines.terms, usize::MAX, "rows")?;
    lines.rows.extend(rows);
    Ok(())
}

fn read_party<'a>(tokens: &mut Tokens<'a>, lines: &mut Lines<'a>) -> Result<(), Mistake> {
    if !lines.steps.is_empty() {
        let expected = "a step (parties come before the steps)";
        return Err(mistake(tokens.spot(), expected, "`party`"));
    }
    tokens.skip();
    let (name, spot) = name(tokens, "the party's name")?;
    let makes = !makes_nothing(tokens)?;
    let known = if tokens.peek() == Token::End {
        Vec::new()
    } else if tokens.take(Token::Name("knows")) {
        list(tokens, &mut lines.terms, limits::KNOWN, "known terms")?
    } else if makes {
        return Err(unexpected(tokens, "`makes nothing`, `knows` or the end of the line"));
    } else {
        return Err(unexpected(tokens, "`knows` or the end of the line"));
    };
    lines.parties.push(PartyLine {
        name,
        spot,
        makes,
        known,
    });
    Ok(())
}

/// Whether `makes nothing` stands there: what a party makes follows from the steps, so nothing else can be said of it.
fn makes_nothing(tokens: &mut Tokens<'_>) -> Result<bool, Mistake> {
    if !tokens.take(Token::Name("makes")) {
        return Ok(false);
    }
    if !tokens.take(Token::Name("nothing")) {
        return Err(unexpected(tokens, "`nothing` (what a party makes is not listed)"));
    }
    Ok(true)
}

fn read_step<'a>(tokens: &mut Tokens<'a>, lines: &mut Lines<'a>) -> Result<(), Mistake> {
    let sender = name(tokens, "the sender's name")?;
    tokens.skip();
    let receiver = name(tokens, "the receiver's name")?;
    if !tokens.take(Token::Sign(':')) {
        return Err(unexpected(tokens, "`:`"));
    }
    let messages = if tokens.peek() == Token::End {
        Vec::new()
    } else {
        list(tokens, &mut lines.terms, limits::LIST, "messages")?
    };
    lines.steps.push(StepLine {
        sender,
        receiver,
        messages,
    });
    Ok(())
}

fn name<'a>(tokens: &mut Tokens<'a>, expected: &str) -> Result<(&'a str, Spot), Mistake> {
    let spot = tokens.spot();
    match tokens.peek() {
        Token::Name(name) => {
            tokens.skip();
            Ok((name, spot))
        }
        _ => Err(unexpected(tokens, expected)),
    }
}

/// A written operation stands after its arguments in `terms`, so its spot gives the order in the text.
fn operations<'a>(terms: &[Written<'a>]) -> Vec<&'a str> {
    let mut found: Vec<(usize, usize, &str)> = terms
        .iter()
        .filter_map(|term| match term.form {
            Form::Operation(name, _) => Some((term.spot.line, term.spot.column, name)),
            _ => None,
        })
        .collect();
    found.sort_unstable();
    found.into_iter().map(|(_, _, name)| name).collect()
}

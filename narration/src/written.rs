//! Terms as they are written, before they have rows.
//!
//! They stand in one list and name their parts by place in it, so that neither reading nor dropping a
//! deep term recurses: a text may nest as deep as it likes before a limit is found broken.

use super::limits;
use super::mistake::{mistake, Mistake, Spot};
use super::token::{Token, Tokens};

pub struct Written<'a> {
    pub form: Form<'a>,
    pub spot: Spot,
}

pub enum Form<'a> {
    Atom(&'a str),
    Operation(&'a str, Vec<usize>),
    Cipher { key: usize, contents: Vec<usize> },
    Public(usize),
    Private(usize),
}

impl Form<'_> {
    /// The part entered as number `n`: a cipher's key comes before its contents.
    pub fn part(&self, n: usize) -> Option<usize> {
        match self {
            Form::Atom(_) => None,
            Form::Operation(_, arguments) => arguments.get(n).copied(),
            Form::Cipher { key, .. } if n == 0 => Some(*key),
            Form::Cipher { contents, .. } => contents.get(n - 1).copied(),
            Form::Public(part) | Form::Private(part) => (n == 0).then_some(*part),
        }
    }
}

/// What is open around the term being read.
enum Around<'a> {
    Operation(&'a str, Spot, Vec<usize>),
    Contents(Spot, Vec<usize>),
    /// The contents are closed, the key is awaited.
    Key(Spot, Vec<usize>),
    Parentheses(Spot),
}

/// Terms separated by commas up to the line's end, at least one.
pub fn list<'a>(
    tokens: &mut Tokens<'a>,
    terms: &mut Vec<Written<'a>>,
    most: usize,
    what: &str,
) -> Result<Vec<usize>, Mistake> {
    let mut list = Vec::new();
    loop {
        list.push(term(tokens, terms)?);
        if tokens.peek() == Token::End {
            return Ok(list);
        }
        if !tokens.take(Token::Sign(',')) {
            return Err(unexpected(tokens, "`,` or the end of the line"));
        }
        no_more_than(most, what, &list, tokens)?;
    }
}

pub fn term<'a>(tokens: &mut Tokens<'a>, terms: &mut Vec<Written<'a>>) -> Result<usize, Mistake> {
    let mut around = Vec::new();
    loop {
        // A term begins here, or a bracket with nothing in it closes at once.
        let spot = tokens.spot();
        // With where it begins, parentheses included.
        let mut ready: Option<(usize, Spot)> = None;
        match tokens.peek() {
            Token::Name(name) => {
                tokens.skip();
                if !tokens.take(Token::Sign('(')) {
                    ready = Some((add(terms, Form::Atom(name), tokens.since(spot)), spot));
                } else if tokens.take(Token::Sign(')')) {
                    ready = Some((add(terms, Form::Operation(name, Vec::new()), tokens.since(spot)), spot));
                } else {
                    around.push(Around::Operation(name, spot, Vec::new()));
                }
            }
            Token::Sign('{') => {
                tokens.skip();
                if tokens.take(Token::Sign('}')) {
                    around.push(Around::Key(spot, Vec::new()));
                } else {
                    around.push(Around::Contents(spot, Vec::new()));
                }
            }
            Token::Sign('(') => {
                tokens.skip();
                around.push(Around::Parentheses(spot));
            }
            _ => return Err(unexpected(tokens, "a term")),
        }
        // A term has ended: its signs follow, then whatever it stands in goes on or ends too.
        while let Some((mut term, spot)) = ready.take() {
            loop {
                if tokens.take(Token::Sign('+')) {
                    term = add(terms, Form::Public(term), tokens.since(spot));
                } else if tokens.take(Token::Sign('-')) {
                    term = add(terms, Form::Private(term), tokens.since(spot));
                } else {
                    break;
                }
            }
            match around.pop() {
                None => return Ok(term),
                Some(Around::Operation(name, spot, mut arguments)) => {
                    arguments.push(term);
                    if tokens.take(Token::Sign(',')) {
                        no_more_than(limits::LIST, "arguments", &arguments, tokens)?;
                        around.push(Around::Operation(name, spot, arguments));
                    } else if tokens.take(Token::Sign(')')) {
                        ready = Some((add(terms, Form::Operation(name, arguments), tokens.since(spot)), spot));
                    } else {
                        return Err(unexpected(tokens, "`,` or `)`"));
                    }
                }
                Some(Around::Contents(spot, mut contents)) => {
                    contents.push(term);
                    if tokens.take(Token::Sign(',')) {
                        no_more_than(limits::LIST, "contents", &contents, tokens)?;
                        around.push(Around::Contents(spot, contents));
                    } else if tokens.take(Token::Sign('}')) {
                        around.push(Around::Key(spot, contents));
                    } else {
                        return Err(unexpected(tokens, "`,` or `}`"));
                    }
                }
                Some(Around::Key(spot, contents)) => {
                    let cipher = add(terms, Form::Cipher { key: term, contents }, tokens.since(spot));
                    ready = Some((cipher, spot));
                }
                Some(Around::Parentheses(spot)) => {
                    if !tokens.take(Token::Sign(')')) {
                        return Err(unexpected(tokens, "`)`"));
                    }
                    ready = Some((term, spot));
                }
            }
        }
    }
}

fn add<'a>(terms: &mut Vec<Written<'a>>, form: Form<'a>, spot: Spot) -> usize {
    terms.push(Written { form, spot });
    terms.len() - 1
}

/// After a comma: one more would follow.
fn no_more_than(most: usize, what: &str, list: &[usize], tokens: &Tokens<'_>) -> Result<(), Mistake> {
    if list.len() < most {
        return Ok(());
    }
    Err(mistake(tokens.spot(), &format!("at most {most} {what}"), "one more"))
}

pub fn unexpected(tokens: &Tokens<'_>, expected: &str) -> Mistake {
    mistake(tokens.spot(), expected, &tokens.peek().to_string())
}

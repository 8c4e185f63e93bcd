//! The text read once more, by itself and in another way than `narration` reads it: what each line says, and which terms stand
//! in it, as they are printed.

use narration::of_a_name;
use std::collections::BTreeSet;

/// What a text says, in the words in which a book is printed back.
#[derive(Default)]
pub struct Source {
    /// Of each party and each step, in their order.
    pub lines: Vec<String>,
    /// Every term, and every part of one.
    pub terms: BTreeSet<String>,
}

/// What the lines of a text say; nothing if one of them can't be read.
pub fn read(text: &str) -> Option<Source> {
    let mut source = Source::default();
    for line in text.trim_start_matches('\u{feff}').split(['\n', '\r']) {
        let line = line.split('#').next().unwrap_or(line);
        source.line(line.trim_matches([' ', '\t']))?;
    }
    Some(source)
}

impl Source {
    fn line(&mut self, line: &str) -> Option<()> {
        if line.is_empty() {
            return Some(());
        }
        if let Some((sender, rest)) = line.split_once("->") {
            let (receiver, messages) = rest.split_once(':')?;
            let messages = self.list(messages)?;
            self.lines.push(step(whole(sender)?, whole(receiver)?, &messages));
            return Some(());
        }
        match word(line) {
            ("party", rest) => {
                let (name, rest) = word(rest);
                let (makes, rest) = match word(rest) {
                    ("makes", rest) => (false, word(rest).1),
                    _ => (true, rest),
                };
                let known = match word(rest) {
                    ("knows", rest) => self.list(rest)?,
                    _ => Vec::new(),
                };
                self.terms.insert(name.to_string());
                self.lines.push(party(name, makes, known));
            }
            (_, rows) => {
                self.list(rows)?;
            }
        }
        Some(())
    }

    /// The terms of a list, to the end of a line; there may be none.
    fn list(&mut self, text: &str) -> Option<Vec<String>> {
        let mut signs = Signs::of(text);
        let mut terms = Vec::new();
        while !signs.rest.is_empty() {
            terms.push(signs.term(&mut self.terms)?);
            if !signs.rest.is_empty() && !signs.take(',') {
                return None;
            }
        }
        Some(terms)
    }
}

/// A party's line as it is printed. The order in which it knows things is nobody's.
pub fn party(name: &str, makes: bool, mut known: Vec<String>) -> String {
    known.sort_unstable();
    let makes = if makes { "" } else { " makes nothing" };
    format!("party {name}{makes} knows {}", known.join(", "))
}

/// A step's line as it is printed.
pub fn step(sender: &str, receiver: &str, messages: &[String]) -> String {
    format!("{sender} -> {receiver}: {}", messages.join(", "))
}

/// A term as it is printed: its blanks and the parentheses that it doesn't need left out.
pub fn plain(written: &str) -> Option<String> {
    let mut signs = Signs::of(written);
    let term = signs.term(&mut BTreeSet::new())?;
    signs.rest.is_empty().then_some(term)
}

/// The first name of a text, and what follows it.
fn word(text: &str) -> (&str, &str) {
    let text = text.trim_start_matches([' ', '\t']);
    text.split_at(text.find(|sign| !of_a_name(sign)).unwrap_or(text.len()))
}

/// A text that is one name.
fn whole(text: &str) -> Option<&str> {
    let (name, rest) = word(text);
    rest.trim_matches([' ', '\t']).is_empty().then_some(name)
}

/// What of a term has begun and not ended, with what is printed of it so far.
enum Open {
    Group,
    /// Arguments or contents, and the sign that ends them.
    List(String, char),
    /// A cipher that lacks its key.
    Key(String),
}

struct Signs<'t> {
    rest: &'t str,
}

impl<'t> Signs<'t> {
    fn of(text: &'t str) -> Signs<'t> {
        let mut signs = Signs { rest: text };
        signs.skip(0);
        signs
    }

    /// So many bytes are read, and the blanks behind them.
    fn skip(&mut self, bytes: usize) {
        self.rest = self.rest[bytes..].trim_start_matches([' ', '\t']);
    }

    fn take(&mut self, sign: char) -> bool {
        let next = self.rest.starts_with(sign);
        if next {
            self.skip(sign.len_utf8());
        }
        next
    }

    /// The next term, which is added to these with its parts. Parentheses may nest deeper than a stack, so nothing recurses.
    fn term(&mut self, terms: &mut BTreeSet<String>) -> Option<String> {
        let mut open = Vec::new();
        loop {
            let Some(mut term) = self.begin(&mut open)? else {
                continue;
            };
            let mut cipher = false;
            loop {
                terms.insert(term.clone());
                while let Some(sign) = ['+', '-'].into_iter().find(|sign| self.take(*sign)) {
                    // It would go to a cipher's key.
                    term = if cipher {
                        format!("({term}){sign}")
                    } else {
                        format!("{term}{sign}")
                    };
                    cipher = false;
                    terms.insert(term.clone());
                }
                match open.pop() {
                    None => return Some(term),
                    Some(Open::Group) if self.take(')') => (),
                    Some(Open::Key(front)) => (term, cipher) = (front + &term, true),
                    Some(Open::List(front, close)) if self.take(',') => {
                        open.push(Open::List(front + &term + ", ", close));
                        break;
                    }
                    Some(Open::List(front, ')')) if self.take(')') => (term, cipher) = (front + &term + ")", false),
                    Some(Open::List(front, '}')) if self.take('}') => {
                        open.push(Open::Key(front + &term + "}"));
                        break;
                    }
                    _ => return None,
                }
            }
        }
    }

    /// What begins here: a term that has no other inside; or something that stays open, and a term has to follow.
    fn begin(&mut self, open: &mut Vec<Open>) -> Option<Option<String>> {
        if self.take('(') {
            open.push(Open::Group);
            return Some(None);
        }
        if self.take('{') {
            open.push(match self.take('}') {
                true => Open::Key("{}".to_string()),
                false => Open::List("{".to_string(), '}'),
            });
            return Some(None);
        }
        let (name, _) = word(self.rest);
        if name.is_empty() {
            return None;
        }
        self.skip(name.len());
        if !self.take('(') {
            return Some(Some(name.to_string()));
        }
        if self.take(')') {
            return Some(Some(format!("{name}()")));
        }
        open.push(Open::List(format!("{name}("), ')'));
        Some(None)
    }
}

#[cfg(test)]
mod tests {
    use super::*;

    #[test]
    fn plain_terms() {
        let plain = |text: &str| plain(text).unwrap_or_default();
        assert_eq!(plain("K"), "K");
        assert_eq!(plain("{ N , f( M,g() ) } (K +)"), "{N, f(M, g())}K+");
        assert_eq!(plain("(({N}(K)))+"), "({N}K)+");
        assert_eq!(plain("{}K+-"), "{}K+-");
        assert_eq!(plain("{N}{M}K"), "{N}{M}K");
        for wrong in ["", "{N", "{N}", "(N", "f(N", "f(N}", "{N)K", "N M", "N)", "f(,)", "+"] {
            assert_eq!(plain(wrong), "", "{wrong}");
        }
        let (nested, deep) = ("(".repeat(1_000_000), ")".repeat(1_000_000));
        assert_eq!(plain(&format!("{nested}N{deep}")), "N");
    }

    #[test]
    fn lines() {
        let text = "\u{feff}rows {M}L # first\r\nparty A knows K,A\rparty knows makes nothing\n\n\tA->knows:{ N }K , (A)\nknows -> A:";
        let source = read(text).expect("it is well written");
        let lines = [
            "party A knows A, K",
            "party knows makes nothing knows ",
            "A -> knows: {N}K, A",
            "knows -> A: ",
        ];
        assert_eq!(source.lines, lines);
        let terms = ["A", "K", "L", "M", "N", "knows", "{M}L", "{N}K"];
        assert!(source.terms.iter().eq(terms), "{:?}", source.terms);
    }
}

//! Questions to the proved translator that the book at hand doesn't ask: what a party could build from what it holds, and what
//! it would do with a term that arrived. Each is asked with a small book, of the rows that it is about and no others, so that
//! it keeps all bounds.

use crate::failure::Failure;
use crate::guard;
use crate::listing::Event;
use crate::subject::{to_bytes, to_words};
use narration::book::{Book, Party, Row, Step, ATOM, MOST_KNOWN, PRIVATE, PUBLIC};
use std::collections::{BTreeMap, BTreeSet};

/// What a party does with a term that arrives.
#[derive(Clone, Copy, PartialEq, Eq, Debug)]
pub enum Arrival {
    Opened,
    Compared,
    Stored,
}

/// Whether a party that holds these rows can build this one: a party that knows what is held of the row, and makes nothing, can
/// send it. Nothing if that would be more than a party can know.
pub fn can_build(book: &Book, row: u32, held: impl Fn(u32) -> bool) -> Result<Option<bool>, Failure> {
    let outermost = parts(book, row, |own| !held(own));
    let known: Vec<u32> = outermost.into_iter().filter(|own| held(*own)).collect();
    if known.len() > MOST_KNOWN as usize {
        return Ok(None);
    }
    let asked = small(book, &parts(book, row, |_| true), [&known, &[]], row);
    // With no room lent any book is refused, one that can be played by 12.
    match nghiralum::translate(&asked, &mut []) {
        Err(refusal) if refusal.number() == 12 => Ok(Some(true)),
        Err(refusal) if matches!(refusal.number(), 10 | 13) => Ok(Some(false)),
        told => Err(Failure::guard(format!("a question about what can be built: {told:?}"))),
    }
}

/// What a party that holds these rows, but not this one, does with it when it arrives. If that would be more than a party can
/// know, some of it is left out.
pub fn on_arrival(book: &Book, row: u32, held: impl Fn(u32) -> bool) -> Result<Arrival, Failure> {
    // A cipher is opened by the partner of its key, which may be the other half.
    let mut near = parts(book, row, |_| true);
    let half = |own: &Row| matches!(own.kind, PUBLIC | PRIVATE) && near.contains(&own.parts[0]);
    let halves: Vec<u32> = (0..)
        .zip(&book.rows)
        .filter(|(_, own)| half(own))
        .map(|(half, _)| half)
        .collect();
    near.extend(halves);
    let known = near.iter().copied().filter(|own| *own != row && held(*own));
    let known: Vec<u32> = known.take(MOST_KNOWN as usize).collect();
    let asked = small(book, &near, [&[row], &known], row);
    let listing = nghiralum::listing(&asked)
        .map_err(|refusal| Failure::guard(format!("a question about what arrives: {refusal}")))?;
    let programs = guard::listing(&to_words(&listing))?;
    let answer = programs.iter().skip(1).flatten().find_map(|event| match event {
        Event::Open { placeholder: 0, .. } => Some(Arrival::Opened),
        Event::Check { placeholder: 0, .. } => Some(Arrival::Compared),
        _ => None,
    });
    Ok(answer.unwrap_or(Arrival::Stored))
}

/// The bytes of a book with these rows, which have their parts with them, and two parties that know these and make nothing: the
/// first sends the second one row.
fn small(book: &Book, rows: &BTreeSet<u32>, knows: [&[u32]; 2], sent: u32) -> Vec<u8> {
    let numbers: BTreeMap<u32, u32> = rows.iter().copied().zip(0..).collect();
    let renumbered = |rows: &[u32]| -> Vec<u32> { rows.iter().map(|row| numbers[row]).collect() };
    let row = |own: &u32| {
        let Row { kind, tag, parts } = &book.rows[*own as usize];
        Row {
            kind: *kind,
            tag: *tag,
            parts: renumbered(parts),
        }
    };
    let mut rows: Vec<Row> = rows.iter().map(row).collect();
    // The parties' names are atoms among these, or new ones behind them.
    let atoms = (0..).zip(&rows).filter(|(_, row)| row.kind == ATOM);
    let names = atoms.map(|(number, _)| number).chain(rows.len() as u32..);
    let names: Vec<u32> = names.take(2).collect();
    let atom = Row {
        kind: ATOM,
        tag: 0,
        parts: Vec::new(),
    };
    rows.resize(rows.len().max(names[1] as usize + 1), atom);
    let party = |(name, known): (&u32, &[u32])| Party {
        name: *name,
        known: renumbered(known),
        makes: false,
    };
    let asked = Book {
        rows,
        parties: names.iter().zip(knows).map(party).collect(),
        steps: vec![Step {
            sender: 0,
            receiver: 1,
            messages: vec![numbers[&sent]],
        }],
    };
    to_bytes(&asked.words())
}

/// A row and its parts, and theirs, as far as they are opened.
fn parts(book: &Book, row: u32, opened: impl Fn(u32) -> bool) -> BTreeSet<u32> {
    let mut parts = BTreeSet::new();
    let mut left = vec![row];
    while let Some(own) = left.pop() {
        if parts.insert(own) && opened(own) {
            left.extend(&book.rows[own as usize].parts);
        }
    }
    parts
}

#[cfg(test)]
mod tests {
    use super::*;

    /// The book of a text, and its rows by their terms.
    fn narrated(text: &str) -> (Book, impl Fn(&str) -> u32) {
        let narration = narration::narrate(text).expect("a narration");
        let terms = narration.names.texts(&narration.book);
        let row = move |term: &str| terms.iter().position(|own| own == term).expect(term) as u32;
        (narration.book, row)
    }

    #[test]
    fn built_and_arrived() {
        let (book, row) = narrated("rows {N, f(M)}K-, {N, f(M)}K+, K+, {N}L, h()\nparty A");
        let held = |terms: &[&str]| {
            let rows: Vec<u32> = terms.iter().map(|term| row(term)).collect();
            move |row: u32| rows.contains(&row)
        };
        let builds = |term: &str, terms: &[&str]| can_build(&book, row(term), held(terms)).expect("no guard");
        assert_eq!(builds("{N, f(M)}K-", &["N", "M", "K"]), Some(true));
        assert_eq!(builds("{N, f(M)}K-", &["N", "f(M)", "K-"]), Some(true));
        assert_eq!(builds("{N, f(M)}K-", &["N", "f(M)", "K+"]), Some(false));
        assert_eq!(builds("h()", &[]), Some(true));
        assert_eq!(builds("N", &["N"]), Some(true));
        assert_eq!(builds("N", &["{N}L", "L"]), Some(false));
        let arrives = |term: &str, terms: &[&str]| on_arrival(&book, row(term), held(terms)).expect("no guard");
        assert_eq!(arrives("{N, f(M)}K-", &["K+"]), Arrival::Opened);
        assert_eq!(arrives("{N, f(M)}K-", &["K-"]), Arrival::Stored);
        assert_eq!(arrives("{N, f(M)}K+", &["K-"]), Arrival::Opened);
        assert_eq!(arrives("{N}L", &["N", "{N}L"]), Arrival::Stored);
        assert_eq!(arrives("f(M)", &["M"]), Arrival::Compared);
        assert_eq!(arrives("M", &["M"]), Arrival::Stored);
    }

    /// At the bounds of a book every question can be asked: 1,024 rows, a row of size 1,024, a full pool.
    #[test]
    fn at_the_bounds() {
        let deep = |sign: &str| format!("party A\nparty B\nA -> B: A{}", sign.repeat(1_022));
        let wide: Vec<String> = (0..1_013)
            .map(|tag| format!("op{tag}(1, 2, 3, 4, 5, 6, 7, 8)"))
            .collect();
        let full = format!(
            "rows {}\nparty A\nparty B\nA -> B: {{op0(1, 2, 3, 4, 5, 6, 7, 8)}}1",
            wide.join(", ")
        );
        for text in [deep("+"), deep("-"), full] {
            let (book, _) = narrated(&text);
            assert_eq!(book.rows.len(), 1_024);
            for row in (0..book.rows.len() as u32).rev().take(3) {
                for held in [true, false] {
                    let kind = book.rows[row as usize].kind;
                    assert_eq!(can_build(&book, row, |_| held), Ok(Some(held)), "{kind}");
                    assert!(on_arrival(&book, row, |_| held).is_ok());
                }
            }
        }
    }
}

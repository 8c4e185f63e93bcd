//! The rules of "What a party holds" once more, with document 02's order of receiving and its marks, as plainly as they
//! can be put: a list of terms with their images, searched from one end to the other. The translation must say the same.

mod common;

use common::making_nothing;
use host::book::{Book, Refusal, Terms};
use host::random;
use host::term::Term;
use host::translate::{programs, Event, Image, Program, Translation};
use std::collections::HashSet;

/// One party: its dictionary, the next placeholder, its events and what it stored.
#[derive(Default)]
struct Side {
    held: Vec<(Term, Image)>,
    next: u32,
    events: Program,
    stored: Vec<[u32; 3]>,
}

fn row_of(book: &Book, term: &Term) -> u32 {
    let rows = 0..book.rows.len() as u32;
    let mut equal = rows.filter(|row| book.term(*row) == *term);
    equal.next().expect("a part of a row is a row")
}

impl Side {
    fn entry(&self, term: &Term) -> Option<Image> {
        let held = self.held.iter().find(|(held, _)| held == term);
        held.map(|(_, image)| image.clone())
    }

    fn buildable(&self, term: &Term) -> bool {
        let atom = matches!(term, Term::Atom(_));
        let built = || !atom && term.parts().into_iter().all(|part| self.buildable(part));
        self.entry(term).is_some() || built()
    }

    /// The entry, else the same form over the parts' images; only asked where all are there.
    fn image(&self, term: &Term) -> Image {
        if let Some(image) = self.entry(term) {
            return image;
        }
        let all = |terms: &[Term]| terms.iter().map(|term| self.image(term)).collect();
        match term {
            Term::Atom(row) => panic!("row {row} has no image"),
            Term::Operation(tag, arguments) => Image::Operation(*tag, all(arguments)),
            Term::Cipher(key, contents) => Image::Cipher(Box::new(self.image(key)), all(contents)),
            Term::Public(part) => Image::Public(Box::new(self.image(part))),
            Term::Private(part) => Image::Private(Box::new(self.image(part))),
        }
    }

    /// Makes what is missing, in building order; or gives the first atom that can't be made, and the refusal's number.
    fn make(&mut self, term: &Term, may_make: bool, taken: &dyn Fn(u32) -> bool) -> Result<(), (u32, u32)> {
        match term {
            _ if self.entry(term).is_some() => Ok(()),
            Term::Atom(row) if taken(*row) => Err((10, *row)),
            Term::Atom(row) if !may_make => Err((13, *row)),
            Term::Atom(row) => {
                self.events.push(Event::New { row: *row });
                self.held.push((term.clone(), Image::Itself(*row)));
                Ok(())
            }
            _ => (term.parts().into_iter()).try_for_each(|part| self.make(part, may_make, taken)),
        }
    }

    fn receive(&mut self, book: &Book, step: u32, placeholder: u32, term: &Term) {
        if let Term::Cipher(key, contents) = term {
            if self.buildable(&key.partner()) {
                let (first, n) = (self.next, contents.len() as u32);
                self.next += n;
                let key = self.image(&key.partner());
                self.events.push(Event::Open {
                    placeholder,
                    first,
                    n,
                    key,
                });
                for (content, placeholder) in contents.iter().zip(first..) {
                    self.receive(book, step, placeholder, content);
                }
                return;
            }
        }
        if self.buildable(term) {
            let image = self.image(term);
            self.events.push(Event::Check { placeholder, image });
            return;
        }
        self.stored.push([row_of(book, term), placeholder, step]);
        self.held.push((term.clone(), Image::Placeholder(placeholder)));
    }
}

fn plainly(book: &Book) -> Result<Vec<Program>, Refusal> {
    let mut sides: Vec<Side> = Vec::new();
    for party in &book.parties {
        let known = party.known.iter().map(|row| (book.term(*row), Image::Itself(*row)));
        sides.push(Side {
            held: known.collect(),
            ..Side::default()
        });
    }
    for (number, step) in book.steps.iter().enumerate() {
        let earlier = book.steps[..number].iter().flat_map(|step| &step.messages);
        let known = book.parties.iter().flat_map(|party| &party.known);
        let present: Vec<Term> = earlier.chain(known).map(|row| book.term(*row)).collect();
        let taken = |atom: u32| {
            let names = book.parties.iter().any(|party| party.name == atom);
            names || present.iter().any(|term| term.has_atom(atom))
        };
        let messages: Vec<Term> = step.messages.iter().map(|row| book.term(*row)).collect();
        let number = number as u32;

        let may_make = book.parties[step.sender as usize].makes;
        let sender = &mut sides[step.sender as usize];
        let mut images = Vec::new();
        for message in &messages {
            let made = sender.make(message, may_make, &taken);
            made.map_err(|(refusal, atom)| Refusal::new(refusal, &[number, atom]))?;
            images.push(sender.image(message));
        }
        let step_sent = Event::Send { step: number, images };
        sender.events.push(step_sent);

        let receiver = &mut sides[step.receiver as usize];
        let (first, n) = (receiver.next, messages.len() as u32);
        receiver.next += n;
        receiver.events.push(Event::Receive { step: number, first, n });
        for (message, placeholder) in messages.iter().zip(first..) {
            receiver.receive(book, number, placeholder, message);
        }
    }
    let ended = |mut side: Side| {
        let stored = side.stored;
        side.events.push(Event::End { stored });
        side.events
    };
    Ok(sides.into_iter().map(ended).collect())
}

#[test]
fn the_same_programs() {
    let (mut accepted, mut makers) = (0, 0);
    for (size, count) in [(0, 2_000), (1, 800), (2, 40)] {
        for book in random::well_formed(71, count, size) {
            let same = programs(&book);
            assert_eq!(same, plainly(&book), "{book:?}");
            accepted += usize::from(same.is_ok());
            makers += usize::from(same.is_err_and(|refusal| refusal.number == 13));
        }
    }
    assert!(accepted > 1_000, "only {accepted} are accepted");
    assert!(makers > 50, "only {makers} are refused by 13");
}

/// "A sender marked 0 builds from what it holds": its step can be played exactly if it can build each message as it
/// stands before the step.
#[test]
fn a_sender_marked_0_builds_from_what_it_holds() {
    let (mut built, mut refused) = (0, 0);
    for book in random::well_formed(73, 2_000, 1) {
        let mut walk = Translation::start(&book);
        for step in &book.steps {
            let sender = walk.dictionary(step.sender);
            let buildable = |row: &u32| sender.image(&walk.terms[*row as usize]).is_some();
            let all = step.messages.iter().all(buildable);
            let played = walk.step(step).is_ok();
            if !book.parties[step.sender as usize].makes {
                assert_eq!(played, all, "{book:?}");
                built += usize::from(played && !step.messages.is_empty());
                refused += usize::from(!played);
            }
            if !played {
                break;
            }
        }
    }
    assert!(built > 200 && refused > 100, "{built} built, {refused} refused");
}

/// The steps in which a party makes, each with the first row that it makes there.
fn makings(program: &Program) -> Vec<(u32, u32)> {
    let mut made = None;
    let mut all = Vec::new();
    for event in program {
        match event {
            Event::New { row } => made = made.or(Some(*row)),
            Event::Send { step, .. } => all.extend(made.take().map(|row| (*step, row))),
            _ => (),
        }
    }
    all
}

/// A mark only refuses, and refuses whom it should: where all may make and a book is accepted, marking a party changes
/// nothing if the party makes nothing, and is else 13 where it makes first.
#[test]
fn marks_only_refuse() {
    let (mut same, mut refused) = (0, 0);
    for (size, count) in [(0, 1_500), (1, 800), (2, 60)] {
        for mut book in random::well_formed(74, count, size) {
            book.parties.iter_mut().for_each(|party| party.makes = true);
            let Ok(all) = programs(&book) else {
                continue;
            };
            for (party, program) in all.iter().enumerate() {
                let marked = programs(&making_nothing(book.clone(), &[party]));
                match makings(program).first() {
                    Some((step, row)) => {
                        assert_eq!(marked, Err(Refusal::new(13, &[*step, *row])), "{book:?}");
                        refused += 1;
                    }
                    None => {
                        assert_eq!(marked.as_ref(), Ok(&all), "{book:?}");
                        same += 1;
                    }
                }
            }
            // All at once: the smallest step in which anybody makes.
            let everyone: Vec<usize> = (0..all.len()).collect();
            let first = all.iter().flat_map(makings).min();
            let refusal = first.map(|(step, row)| Refusal::new(13, &[step, row]));
            assert_eq!(programs(&making_nothing(book, &everyone)).err(), refusal);
        }
    }
    assert!(same > 500 && refused > 200, "{same} the same, {refused} refused");
}

/// "So equal terms have equal row numbers."
#[test]
fn equal_terms_have_equal_rows() {
    for (size, count) in [(0, 200), (1, 200), (2, 50), (3, 2)] {
        for book in random::well_formed(72, count, size) {
            let rows = 0..book.rows.len() as u32;
            let terms: HashSet<Term> = rows.map(|row| book.term(row)).collect();
            assert_eq!(terms.len(), book.rows.len());
            let shared: HashSet<_> = book.shared().into_iter().collect();
            assert_eq!(shared.len(), book.rows.len());
        }
    }
}

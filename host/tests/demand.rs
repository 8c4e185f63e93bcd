//! Demand 3 on the plain machine: whatever the carrier loses, repeats or delays, the programs keep
//! to the narration; and wrong programs don't, so these tests can fail.

mod common;

use common::{book, parties, row, step};
use host::book::{Book, Row, Step, Terms};
use host::machine::Machine;
use host::random::{self, Random};
use host::term::Term;
use host::translate::{self, Event, Image, Program};
use host::words;
use std::collections::{BTreeMap, BTreeSet};

/// Random moves before the fair end; in full-sized books every state takes its time.
const MOST_MOVES: usize = 600;

/// The narration's own terms, worked out without the machine.
struct Narration {
    /// For each party, the term that belongs at each placeholder.
    there: Vec<BTreeMap<u32, Term>>,
    /// The terms of each step.
    steps: Vec<Vec<Term>>,
    /// The parties' names, and the atoms in any party's starting knowledge.
    present: BTreeSet<u32>,
}

impl Narration {
    fn of(book: &Book, programs: &[Program]) -> Result<Narration, String> {
        let terms = |rows: &[u32]| rows.iter().map(|row| book.term(*row)).collect();
        let steps: Vec<Vec<Term>> = book.steps.iter().map(|step| terms(&step.messages)).collect();
        let mut present = BTreeSet::new();
        for party in &book.parties {
            present.insert(party.name);
            for row in &party.known {
                atoms(&book.term(*row), &mut present);
            }
        }
        let there = programs.iter().map(|program| there(program, &steps));
        Ok(Narration {
            there: there.collect::<Result<_, String>>()?,
            steps,
            present,
        })
    }
}

fn atoms(term: &Term, present: &mut BTreeSet<u32>) {
    if let Term::Atom(atom) = term {
        present.insert(*atom);
    }
    for part in term.parts() {
        atoms(part, present);
    }
}

/// By following the numbers of RECEIVE and OPEN: a step's messages, and an opened cipher's contents.
fn there(program: &Program, steps: &[Vec<Term>]) -> Result<BTreeMap<u32, Term>, String> {
    let mut there = BTreeMap::new();
    for event in program {
        let (first, n, terms) = match event {
            Event::Receive { step, first, n } => (*first, *n, steps[*step as usize].clone()),
            Event::Open {
                placeholder, first, n, ..
            } => match there.get(placeholder) {
                Some(Term::Cipher(_, contents)) => (*first, *n, contents.clone()),
                other => return Err(format!("{other:?} is opened")),
            },
            _ => continue,
        };
        if terms.len() != n as usize {
            return Err(format!("{n} placeholders for {} terms", terms.len()));
        }
        there.extend((first..).zip(terms));
    }
    Ok(there)
}

/// The clauses of demand 3 that hold in every state.
fn clauses(narration: &Narration, machine: &Machine) -> Result<(), String> {
    let parties = machine.players.len() as u32;
    for (party, player) in machine.players.iter().enumerate() {
        // (a) Every bound placeholder has the narration's own term.
        for (placeholder, term) in &player.bound {
            if narration.there[party].get(placeholder) != Some(term) {
                return Err(format!("a: party {party} has {term:?} at {placeholder}"));
            }
        }
        // (b) No party halts.
        if player.halted {
            return Err(format!("b: party {party} has halted"));
        }
    }
    // (b) Every message sent is the narration's.
    for (step, terms) in &machine.sent {
        if narration.steps[*step as usize] != *terms {
            return Err(format!("b: step {step} is sent as {terms:?}"));
        }
    }
    // (c) No atom is made twice, nor one that is a name or in what a party knows at the start.
    let mut present = narration.present.clone();
    for (party, row) in &machine.made {
        if !present.insert(*row) {
            return Err(format!("c: party {party} has made row {row}"));
        }
    }
    // (d) While a party is unfinished, some party can move.
    let finished = (0..parties).all(|party| machine.at_end(party));
    if !finished && !(0..parties).any(|party| machine.can_move(party)) {
        return Err("d: no party can move".to_string());
    }
    Ok(())
}

/// Plays random moves with the clauses tested at every state, then fairly on until all finish.
fn play(book: &Book, programs: &[Program], random: &mut Random) -> Result<usize, String> {
    let narration = Narration::of(book, programs)?;
    let mut machine = Machine::start(book, programs);
    let parties = book.parties.len();
    clauses(&narration, &machine)?;
    let events: usize = programs.iter().map(|program| program.len() - 1).sum();
    // Some carriers lose much, some hand over often.
    let carried = random.between(10, 70);
    let mut done = 0;
    for _ in 0..random.below(4 * events + 1).min(MOST_MOVES) {
        let moved = if random.percent(carried) && !book.steps.is_empty() {
            // Sent or not, waited for or not, handed over before or not.
            machine.hand_over(random.below(book.steps.len()) as u32)
        } else {
            machine.own_move(random.below(parties) as u32)
        };
        done += usize::from(moved);
        clauses(&narration, &machine)?;
    }
    // A fair schedule: every party moves and every step is handed over, again and again.
    loop {
        let before = done;
        for party in 0..parties as u32 {
            done += usize::from(machine.own_move(party));
        }
        for step in 0..book.steps.len() as u32 {
            done += usize::from(machine.hand_over(step));
        }
        clauses(&narration, &machine)?;
        if done == before {
            break;
        }
    }
    let finished = (0..parties as u32).all(|party| machine.at_end(party));
    if !finished || done != events {
        return Err(format!("{done} of {events} events are done in the end"));
    }
    // END names what is held: each stored row's own term at its placeholder.
    for (program, player) in programs.iter().zip(&machine.players) {
        if let Some(Event::End { stored }) = program.last() {
            for [row, placeholder, _] in stored {
                if player.bound.get(placeholder) != Some(&book.term(*row)) {
                    return Err(format!("row {row} isn't at {placeholder}"));
                }
            }
        }
    }
    Ok(events)
}

fn accepted(seed: u64, count: usize, size: usize) -> Vec<(Book, Vec<Program>)> {
    let books = random::well_formed(seed, count, size);
    let with_programs = |book: Book| {
        let programs = translate::programs(&book).ok()?;
        Some((book, programs))
    };
    books.filter_map(with_programs).collect()
}

#[test]
fn the_clauses_hold() {
    for (size, count, least) in [(0, 4_000, 1_500), (1, 2_000, 800), (2, 80, 20)] {
        hold(size, &accepted(31 + size as u64, count, size), least);
    }
}

/// Full-sized, deep and long ones among them.
#[test]
fn the_clauses_hold_in_all_shapes() {
    let book = |bytes: Vec<u8>| {
        let book = host::book::read(&words::of_bytes(&bytes).ok()?).ok()?;
        let programs = translate::programs(&book).ok()?;
        Some((book, programs))
    };
    let books: Vec<_> = random::books(51, 800).filter_map(book).collect();
    hold(9, &books, 250);
}

fn hold(seed: usize, books: &[(Book, Vec<Program>)], least: usize) {
    let mut random = Random::new(seed as u64);
    assert!(books.len() >= least, "only {} are accepted", books.len());
    let mut events = 0;
    for (number, (book, programs)) in books.iter().enumerate() {
        match play(book, programs, &mut random) {
            Ok(own) => events += own,
            Err(clause) => panic!("seed {seed}, book {number}: {clause}"),
        }
    }
    assert!(events > 3_000, "only {events} events");
}

/// Rehearsal and demand 3 agree: a rehearsal's move is the own move, or else the handing over.
#[test]
fn a_move_of_the_rehearsal() {
    let mut random = Random::new(4);
    for (book, programs) in accepted(41, 300, 1) {
        let mut one = Machine::start(&book, &programs);
        let mut other = one.clone();
        for _ in 0..200 {
            let party = random.below(book.parties.len()) as u32;
            let moved = one.move_party(party);
            let same = match other.waits_for(party) {
                Some(step) => !other.own_move(party) && other.hand_over(step),
                None => other.own_move(party),
            };
            assert_eq!(moved, same);
        }
        let done = |machine: &Machine| -> Vec<usize> { machine.players.iter().map(|player| player.done).collect() };
        assert_eq!(done(&one), done(&other));
        assert_eq!(one.sent, other.sent);
    }
}

/// A copy for which nobody waits is dropped, and a party's own move at a RECEIVE does nothing.
#[test]
fn dropped_copies() {
    let book = small(&[], &[&[0], &[1]], &[step(0, 1, &[0]), step(1, 0, &[1])]);
    let programs = translate::programs(&book).expect("all is known");
    let mut machine = Machine::start(&book, &programs);
    assert!(!machine.hand_over(0), "not sent yet");
    assert!(!machine.own_move(1), "waits");
    assert!(!machine.can_move(1));
    assert!(machine.own_move(0));
    assert!(!machine.own_move(1), "the carrier hasn't come");
    assert!(machine.can_move(1));
    assert!(machine.hand_over(0));
    assert!(!machine.hand_over(0), "repeated");
    assert!(!machine.hand_over(7), "no such step");
    assert!(machine.own_move(1));
    assert!(machine.hand_over(1));
    assert!(machine.at_end(0) && machine.at_end(1));
    assert!(!machine.own_move(0) && !machine.can_move(0));
}

/// Atoms 0 to 4, then these rows; the parties have the names 0, 1 and on.
fn small(rows: &[Row], known: &[&[u32]], steps: &[Step]) -> Book {
    book([common::atoms(5), rows.to_vec()].concat(), &parties(known), steps)
}

fn receive(step: u32, first: u32, n: u32) -> Event {
    Event::Receive { step, first, n }
}

fn send(step: u32, image: Image) -> Event {
    Event::Send {
        step,
        images: vec![image],
    }
}

fn check(placeholder: u32, image: Image) -> Event {
    Event::Check { placeholder, image }
}

fn end(stored: &[[u32; 3]]) -> Event {
    Event::End {
        stored: stored.to_vec(),
    }
}

fn itself(row: u32) -> Image {
    Image::Itself(row)
}

/// The clause that the programs break, however they are played.
fn broken(book: &Book, programs: &[Program]) -> String {
    let mut random = Random::new(5);
    let mut told: Vec<String> = (0..20)
        .map(|_| play(book, programs, &mut random).expect_err("a wrong program has passed"))
        .collect();
    told.sort();
    told.swap_remove(0)
}

/// "Making a fresh atom whenever one is missing: the receiver's comparison then fails."
#[test]
fn wrong_by_making_what_is_missing() {
    // Row 5 is {3}2, which B stores; then B would have to make row 3 to send it.
    let cipher = row(2, 0, &[2, 3]);
    let book = small(&[cipher], &[&[0, 1, 2], &[0, 1]], &[step(0, 1, &[5]), step(1, 0, &[3])]);
    let refusal = translate::programs(&book).expect_err("row 3 is taken");
    assert_eq!((refusal.number, refusal.place), (10, vec![1, 3]));

    let image = Image::Cipher(Box::new(itself(2)), vec![itself(3)]);
    let a = vec![
        Event::New { row: 3 },
        send(0, image),
        receive(1, 0, 1),
        check(0, itself(3)),
        end(&[]),
    ];
    let b = vec![
        receive(0, 0, 1),
        Event::New { row: 3 },
        send(1, itself(3)),
        end(&[[5, 0, 0]]),
    ];
    let programs = [a, b];
    assert_eq!(&broken(&book, &programs)[..2], "c:");
    // And A's comparison fails indeed.
    let mut machine = Machine::start(&book, &programs);
    for party in [0, 0, 1, 1, 1, 0, 0] {
        machine.move_party(party);
    }
    assert!(machine.players[0].halted);
    assert!(!machine.players[1].halted && machine.at_end(1));
}

/// "Comparing row against row where duplicates are let in."
#[test]
fn wrong_by_comparing_rows() {
    // Rows 5 and 6 are both {3}2; B knows row 5 and gets row 6.
    let rows = [row(2, 0, &[2, 3]), row(2, 0, &[2, 3])];
    let book = small(&rows, &[&[2, 3], &[5]], &[step(0, 1, &[6])]);
    let refusal = host::book::read(&book.words()).expect_err("row 6 repeats row 5");
    assert_eq!((refusal.number, refusal.place), (6, vec![6]));
    // Were it let in, the terms would be equal, so B compares; row against row, B would store.
    let programs = translate::programs(&book).expect("all is known");
    let right = vec![receive(0, 0, 1), check(0, itself(5)), end(&[])];
    let wrong = vec![receive(0, 0, 1), end(&[[6, 0, 0]])];
    assert_eq!(programs[1], right);
    assert_ne!(translate::listing(&[right]), translate::listing(&[wrong]));
    assert!(play(&book, &programs, &mut Random::new(6)).is_ok());
}

/// "Opening with the cipher's own key where its partner is asked."
#[test]
fn wrong_by_opening_with_the_own_key() {
    // Row 5 is the public half of row 2, row 6 is {3}5; A holds row 2.
    let rows = [row(3, 0, &[2]), row(2, 0, &[5, 3])];
    let book = small(&rows, &[&[0, 2], &[1, 5]], &[step(1, 0, &[6])]);
    let mut programs = translate::programs(&book).expect("row 3 is free");
    assert!(play(&book, &programs, &mut Random::new(7)).is_ok());
    let Event::Open { key, .. } = &mut programs[0][1] else {
        panic!("A opens");
    };
    assert_eq!(*key, Image::Private(Box::new(itself(2))));
    *key = Image::Public(Box::new(itself(2)));
    let told = broken(&book, &programs);
    assert!(["b:", "d:"].contains(&&told[..2]), "{told}");
    let mut machine = Machine::start(&book, &programs);
    for party in [1, 1, 0, 0] {
        machine.move_party(party);
    }
    assert!(machine.players[0].halted && machine.at_end(1));
}

/// "Testing "taken" per party instead of over the whole book."
#[test]
fn wrong_by_testing_taken_per_party() {
    // A makes row 3 for B; C, who never saw it, would send it to A.
    let steps = [step(0, 1, &[3]), step(2, 0, &[3])];
    let book = small(&[], &[&[], &[], &[]], &steps);
    let refusal = translate::programs(&book).expect_err("row 3 is taken");
    assert_eq!((refusal.number, refusal.place), (10, vec![1, 3]));
    let new = Event::New { row: 3 };
    let a = vec![
        new.clone(),
        send(0, itself(3)),
        receive(1, 0, 1),
        check(0, itself(3)),
        end(&[]),
    ];
    let b = vec![receive(0, 0, 1), end(&[[3, 0, 0]])];
    let c = vec![new, send(1, itself(3)), end(&[])];
    let told = broken(&book, &[a, b, c]);
    assert!(["b:", "c:"].contains(&&told[..2]), "{told}");

    // Known to C at the start, and never sent before.
    let book = small(&[], &[&[], &[], &[3]], &[step(0, 1, &[3])]);
    let refusal = translate::programs(&book).expect_err("row 3 is taken");
    assert_eq!((refusal.number, refusal.place), (10, vec![0, 3]));
    let a = vec![Event::New { row: 3 }, send(0, itself(3)), end(&[])];
    let b = vec![receive(0, 0, 1), end(&[[3, 0, 0]])];
    let told = broken(&book, &[a, b, vec![end(&[])]]);
    assert!(["b:", "c:"].contains(&&told[..2]), "{told}");
}

/// A translator that asks for no marks keeps demand 3, as the machine has none: it is demand 2 that it breaks. The book is
/// unplayable, and its programs, which work, are nobody's to give out.
#[test]
fn wrong_by_ignoring_marks() {
    // A makes row 3 and sends it under row 2, which both know; B sends it back.
    let cipher = row(2, 0, &[2, 3]);
    let may_make = small(&[cipher], &[&[2], &[2]], &[step(0, 1, &[5]), step(1, 0, &[3])]);
    let programs = translate::programs(&may_make).expect("row 3 is nobody's");
    let marked = common::making_nothing(may_make.clone(), &[0]);
    let refusal = translate::programs(&marked).expect_err("A makes nothing");
    assert_eq!((refusal.number, refusal.place), (13, vec![0, 3]));
    assert!(play(&marked, &programs, &mut Random::new(9)).is_ok());
    // B makes nothing in either, so its mark changes nothing.
    let other = common::making_nothing(may_make, &[1]);
    assert_eq!(translate::programs(&other), Ok(programs));
}

/// The other half, where the image is one.
fn turned(image: &Image) -> Option<Image> {
    match image {
        Image::Public(part) => Some(Image::Private(part.clone())),
        Image::Private(part) => Some(Image::Public(part.clone())),
        _ => None,
    }
}

/// In random books too: whatever event is spoiled, some clause breaks.
#[test]
fn spoiled_programs_are_found() {
    let mut spoiled = [0; 5];
    let mut random = Random::new(8);
    for (book, programs) in accepted(81, 700, 1) {
        for (party, at) in places(&programs) {
            let mut wrong = programs.clone();
            let program = &mut wrong[party];
            let kind = match &mut program[at] {
                Event::Open { key, .. } => match turned(key) {
                    Some(other) => {
                        *key = other;
                        0
                    }
                    None => continue,
                },
                Event::Check { image, .. } => {
                    *image = Image::Public(Box::new(image.clone()));
                    1
                }
                Event::New { .. } => {
                    program.remove(at);
                    2
                }
                Event::Send { images, .. } if !images.is_empty() => {
                    images[0] = Image::Operation(9_999, vec![]);
                    3
                }
                // Without messages its absence shows in the listing alone.
                Event::Receive { n, .. } if *n > 0 => {
                    program.remove(at);
                    4
                }
                _ => continue,
            };
            // Not too many of each.
            if spoiled[kind] < 150 {
                spoiled[kind] += 1;
                let told = play(&book, &wrong, &mut random);
                assert!(told.is_err(), "kind {kind}, party {party}, event {at}");
            }
        }
    }
    assert!(spoiled.iter().all(|count| *count >= 30), "{spoiled:?}");
}

fn places(programs: &[Program]) -> Vec<(usize, usize)> {
    let of = |(party, program): (usize, &Program)| (0..program.len()).map(move |at| (party, at));
    programs.iter().enumerate().flat_map(of).collect()
}

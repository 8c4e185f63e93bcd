//! How a row is known (document 02, request 6): sources that were worked out by hand, all of them against the listing and
//! against the machine, and that the first source stays.

mod common;

use common::{atoms, book, party, step, top, EXAMPLE_1};
use host::book::{read, Book, Refusal, Terms};
use host::machine::Machine;
use host::random;
use host::summary;
use host::translate::{self, translate, Event, Program, Source, Translation};
use host::words::of_bytes;
use std::collections::BTreeMap;

const NOT: Option<Source> = None;
const GIVEN: Option<Source> = Some(Source::Given);

fn made(step: u32) -> Option<Source> {
    Some(Source::Made { step })
}

fn stored(step: u32, placeholder: u32) -> Option<Source> {
    Some(Source::Stored { step, placeholder })
}

/// How a party knows each row at the end.
fn sources(book: &Book, party: u32) -> Vec<Option<Source>> {
    let walk = Translation::whole(book).expect("it can be played");
    let rows = 0..book.rows.len() as u32;
    rows.map(|row| walk.source(party, row)).collect()
}

/// The triples of a program's END.
fn end(program: &Program) -> &[[u32; 3]] {
    match program.last() {
        Some(Event::End { stored }) => stored,
        other => panic!("{other:?} is no END"),
    }
}

fn ends(book: &Book) -> Vec<Vec<[u32; 3]>> {
    let programs = translate::programs(book).expect("it can be played");
    programs.iter().map(|program| end(program).to_vec()).collect()
}

fn words_in_files(name: &str) -> Vec<u32> {
    let bytes = std::fs::read(top().join(format!("books/{name}.book"))).expect(name);
    of_bytes(&bytes).expect("words")
}

fn in_files(name: &str) -> Book {
    read(&words_in_files(name)).expect(name)
}

/// The whole trial: B makes N in step 0, where A stores it; the cipher is built by A and opened by B, and neither holds it.
#[test]
fn the_whole_trial() {
    let book = read(&EXAMPLE_1).expect("a book");
    assert_eq!(sources(&book, 0), [GIVEN, GIVEN, GIVEN, stored(0, 0), NOT]);
    assert_eq!(sources(&book, 1), [GIVEN, GIVEN, GIVEN, made(0), NOT]);
    assert_eq!(ends(&book), [vec![[3, 0, 0]], vec![]]);
}

/// Rows A, K, B, L, f(L), M, N, {N}K, O, {{N}K, O}K, P, Q. B stores f(L) before L, and N before O before P, which has the
/// smallest placeholder of the three.
#[test]
fn the_order_of_storing() {
    let book = in_files("trial-end-steps");
    let a = [
        [NOT, GIVEN, NOT, made(0), NOT, stored(1, 0)],
        [made(2), NOT, made(2), NOT, made(2), made(3)],
    ];
    let b = [
        [NOT, GIVEN, NOT, stored(0, 1), stored(0, 0), made(1)],
        [stored(2, 6), NOT, stored(2, 5), NOT, stored(2, 3), stored(3, 8)],
    ];
    assert_eq!(sources(&book, 0), a.concat());
    assert_eq!(sources(&book, 1), b.concat());
    let triples = [[4, 0, 0], [3, 1, 0], [6, 6, 2], [8, 5, 2], [10, 3, 2], [11, 8, 3]];
    assert_eq!(ends(&book), [vec![[5, 0, 1]], triples.to_vec()]);
}

/// Rows A, N, L, f(L), K, M, {M}K, B: compared or opened, what was given stays given.
#[test]
fn given_and_received() {
    let book = in_files("trial-given-and-received");
    let a = [NOT, GIVEN, NOT, GIVEN, NOT, stored(1, 0), GIVEN, NOT];
    let b = [NOT, GIVEN, NOT, GIVEN, GIVEN, stored(0, 3), GIVEN, NOT];
    assert_eq!(sources(&book, 0), a);
    assert_eq!(sources(&book, 1), b);
    assert_eq!(ends(&book), [vec![[5, 0, 1]], vec![[5, 3, 0]]]);
}

/// Rows A, K, B, N, {N}K, f(N), M, {N, M}K: what was made stays made, and what was stored is stored once.
#[test]
fn made_and_received() {
    let book = in_files("trial-made-and-received");
    let a = [NOT, GIVEN, NOT, made(0), NOT, NOT, stored(3, 4), NOT];
    let b = [NOT, GIVEN, NOT, stored(0, 1), NOT, NOT, made(3), NOT];
    assert_eq!(sources(&book, 0), a);
    assert_eq!(sources(&book, 1), b);
    assert_eq!(ends(&book), [vec![[6, 4, 3]], vec![[3, 1, 0]]]);
}

/// What is made is its maker's alone: C stores at step 1 what B stored at step 0 and A made there.
#[test]
fn each_party_for_itself() {
    let steps = [step(0, 1, &[3]), step(1, 2, &[3]), step(2, 0, &[3])];
    let book = book(atoms(4), &[party(0, &[]), party(1, &[]), party(2, &[])], &steps);
    let own = [0, 1, 2].map(|party| sources(&book, party)[3]);
    assert_eq!(own, [made(0), stored(0, 0), stored(1, 0)]);
}

/// Rows A, B, M, N, of which N is made and stored in the last of 64 steps.
#[test]
fn step_63() {
    let book = in_files("trial-step-63");
    assert_eq!(book.steps.len(), 64);
    assert_eq!(sources(&book, 0), [NOT, NOT, made(62), made(63)]);
    assert_eq!(sources(&book, 1), [NOT, NOT, stored(62, 0), stored(63, 2)]);
    assert_eq!(ends(&book), [vec![], vec![[2, 0, 62], [3, 2, 63]]]);
    assert_eq!(summary::of(&book), Ok(vec![2, 4, 64, 65, 65, 63, 64, 65, 65, 63, 64]));
}

/// The most placeholders that a term of this size has if all of it can be opened: of so many ciphers, each under an atom
/// and with eight contents at most, and so many atoms.
fn most_placeholders(size: u32) -> u32 {
    let ciphers = 1..=size / 4;
    let with = |ciphers: u32| ciphers + ((size - 4 * ciphers) / 2).min(7 * ciphers + 1);
    ciphers.map(with).max().unwrap_or(0)
}

/// No placeholder is larger than the one that is stored last there: 64 steps, eight messages of the largest size.
#[test]
fn the_largest_placeholder() {
    assert_eq!(most_placeholders(1_024), 455);
    let words = words_in_files("full-placeholders");
    let book = read(&words).expect("a book");
    assert!([7, 9].iter().all(|row| book.term(*row).size() == 1_024));
    let largest = 64 * 8 * 455 - 1;
    assert_eq!(largest, 232_959);
    assert_eq!(sources(&book, 0)[3], made(63));
    assert_eq!(sources(&book, 1)[3], stored(63, largest));
    assert_eq!(ends(&book), [vec![], vec![[3, largest, 63]]]);

    // A knows what it sends but for the last, of 34 words. A term of B's is 57 OPENs and 398 CHECKs; M is not compared.
    let a = 63 * (3 + 8 * 2) + 2 + (3 + 7 * 2 + 34) + 2;
    let b = 64 * 4 + 512 * (57 * 6 + 398 * 4) - 4 + (2 + 3);
    let length = 5 + a + b;
    let mut out = vec![7; length + 1];
    let short = translate(&words, &mut out[..length - 1]);
    assert_eq!(short, Err(Refusal::new(12, &[length as u32])));
    assert!(out.iter().all(|word| *word == 7));
    assert_eq!(translate(&words, &mut out), Ok(length));
    assert_eq!(out[length - 5..], [6, 1, 3, largest, 63, 7]);
}

/// The sources by the listing alone: given is what is known at the start, made at a step what a NEW before its SEND
/// makes, stored what END has.
fn by_the_listing(known: &[u32], program: &Program) -> BTreeMap<u32, Source> {
    let mut sources: BTreeMap<u32, Source> = BTreeMap::new();
    // What tells of a row tells of it once: no two of these meet.
    let mut enter = |row: u32, source: Source| assert_eq!(sources.insert(row, source), None, "row {row}");
    known.iter().for_each(|row| enter(*row, Source::Given));
    let mut news = Vec::new();
    for event in program {
        match event {
            Event::New { row } => news.push(*row),
            Event::Send { step, .. } => news.drain(..).for_each(|row| enter(row, Source::Made { step: *step })),
            // NEWs stand right before their SEND.
            _ => assert!(news.is_empty()),
        }
    }
    for &[row, placeholder, step] in end(program) {
        enter(row, Source::Stored { step, placeholder });
    }
    sources
}

/// The word of a summary by the source.
fn word(source: Option<Source>, steps: u32) -> u32 {
    match source {
        Some(Source::Given) => 0,
        Some(Source::Made { step }) => step + 1,
        Some(Source::Stored { step, .. }) => step + 1,
        None => steps + 1,
    }
}

/// All of a book against its listing and its summary; how many rows are given, made, stored and not known.
fn agrees(book: &Book) -> [usize; 4] {
    let mut met = [0; 4];
    let Ok(programs) = translate::programs(book) else {
        assert!(Translation::whole(book).is_err());
        return met;
    };
    let summary = summary::of(book).expect("a summary");
    let rows = book.rows.len();
    for (number, (party, program)) in book.parties.iter().zip(&programs).enumerate() {
        let listed = by_the_listing(&party.known, program);
        let own = sources(book, number as u32);
        for (row, source) in own.iter().enumerate() {
            assert_eq!(listed.get(&(row as u32)), source.as_ref(), "party {number}, row {row}");
            let told = summary[3 + number * rows + row];
            assert_eq!(
                told,
                word(*source, book.steps.len() as u32),
                "party {number}, row {row}"
            );
            met[match source {
                Some(Source::Given) => 0,
                Some(Source::Made { .. }) => 1,
                Some(Source::Stored { .. }) => 2,
                None => 3,
            }] += 1;
        }
        let steps: Vec<u32> = end(program).iter().map(|[_, _, step]| *step).collect();
        assert!(steps.is_sorted(), "party {number}");
    }
    met
}

#[test]
fn the_listing_tells_the_same() {
    let mut met = [0; 4];
    let books = (random::well_formed(61, 1_500, 1).chain(random::well_formed(62, 150, 2)))
        .chain(random::playable(63, 6, 1_024, 16, 64));
    for book in books {
        let own = agrees(&book);
        (0..4).for_each(|kind| met[kind] += own[kind]);
    }
    assert!(met.iter().all(|count| *count > 1_000), "{met:?}");
}

#[test]
fn the_listing_tells_the_same_of_the_books_in_files() {
    let mut met = [0; 4];
    for file in host::files::ending(&top().join("books"), "book").expect("the books") {
        let words = of_bytes(&std::fs::read(&file).expect("a book")).expect("words");
        if let Ok(book) = read(&words) {
            let own = agrees(&book);
            (0..4).for_each(|kind| met[kind] += own[kind]);
        }
    }
    assert!(met.iter().all(|count| *count > 200), "{met:?}");
}

/// Step by step: no source changes once there is one, and what is new at a step is its sender's making or its receiver's
/// storing, of that step.
#[test]
fn the_first_source_stays() {
    let (mut news, mut again) = (0, 0);
    for book in random::well_formed(64, 800, 1) {
        let mut walk = Translation::start(&book);
        let all = |walk: &Translation| -> Vec<Vec<Option<Source>>> {
            let rows = 0..book.rows.len() as u32;
            let own = |party| rows.clone().map(|row| walk.source(party, row)).collect();
            (0..book.parties.len() as u32).map(own).collect()
        };
        let mut before = all(&walk);
        for (party, own) in book.parties.iter().zip(&before) {
            for (row, source) in (0..).zip(own) {
                let given = party.known.contains(&row);
                assert_eq!(*source, given.then_some(Source::Given));
            }
        }
        for (number, step) in (0..).zip(&book.steps) {
            if walk.step(step).is_err() {
                break;
            }
            let after = all(&walk);
            for (party, (before, after)) in (0..).zip(before.iter().zip(&after)) {
                for (old, new) in before.iter().zip(after) {
                    match new {
                        _ if old == new => (),
                        Some(Source::Made { step: own }) => assert_eq!((party, *own), (step.sender, number)),
                        Some(Source::Stored { step: own, .. }) => assert_eq!((party, *own), (step.receiver, number)),
                        _ => panic!("{old:?} has become {new:?}"),
                    }
                    assert!(old.is_none() || old == new);
                    news += usize::from(old != new);
                }
            }
            let held = |row: &&u32| before[step.receiver as usize][**row as usize].is_some();
            again += step.messages.iter().filter(held).count();
            before = after;
        }
    }
    assert!(news > 2_000 && again > 500, "{news} new ones, {again} received again");
}

/// What the machine comes to have, party by party: the rows it holds as themselves and the placeholders that are bound,
/// each since the step it came with; what is there at the start is since none.
type Since = BTreeMap<(bool, u32), Option<u32>>;

/// The programs played on the machine in the narration's order.
fn played(book: &Book, programs: &[Program]) -> Vec<Since> {
    let mut machine = Machine::start(book, programs);
    let mut since = vec![Since::new(); programs.len()];
    let look = |machine: &Machine, since: &mut Vec<Since>, step: Option<u32>| {
        for (player, since) in machine.players.iter().zip(since) {
            let itself = player.itself.keys().map(|row| (false, *row));
            let bound = player.bound.keys().map(|number| (true, *number));
            itself.chain(bound).for_each(|what| {
                since.entry(what).or_insert(step);
            });
        }
    };
    look(&machine, &mut since, None);
    for (number, step) in (0..).zip(&book.steps) {
        while !machine.sent.contains_key(&number) {
            assert!(machine.own_move(step.sender));
        }
        assert!(machine.hand_over(number));
        while matches!(
            machine.next(step.receiver),
            Some(Event::Check { .. } | Event::Open { .. })
        ) {
            assert!(machine.own_move(step.receiver));
        }
        look(&machine, &mut since, Some(number));
    }
    // END's placeholders have the rows' own terms.
    for (player, program) in machine.players.iter().zip(programs) {
        for [row, placeholder, _] in end(program) {
            assert_eq!(player.bound.get(placeholder), Some(&book.term(*row)));
        }
    }
    since
}

/// A row is held as itself since the start exactly if it is given, since a step exactly if it is made there; and the
/// placeholder of a stored row is bound since its step.
#[test]
fn the_machine_has_the_same() {
    let mut compared = 0;
    let books = random::well_formed(65, 1_500, 1).chain(random::well_formed(66, 30, 2));
    for book in books {
        let Ok(programs) = translate::programs(&book) else {
            continue;
        };
        for (party, since) in (0..).zip(played(&book, &programs)) {
            for (row, source) in (0..).zip(sources(&book, party)) {
                let itself = since.get(&(false, row)).copied();
                match source {
                    Some(Source::Given) => assert_eq!(itself, Some(None)),
                    Some(Source::Made { step }) => assert_eq!(itself, Some(Some(step))),
                    Some(Source::Stored { step, placeholder }) => {
                        assert_eq!(itself, None);
                        assert_eq!(since.get(&(true, placeholder)), Some(&Some(step)));
                    }
                    None => assert_eq!(itself, None),
                }
                compared += usize::from(source.is_some());
            }
        }
    }
    assert!(compared > 5_000, "{compared}");
}

/// An image tells of a source whether it was stored, and no more.
#[test]
fn images() {
    for step in [0, 63] {
        assert_eq!(Source::Made { step }.image(5), Source::Given.image(5));
        let image = Source::Stored { step, placeholder: 4 }.image(5);
        assert_eq!(image, translate::Image::Placeholder(4));
    }
    assert_eq!(Source::Given.image(5), translate::Image::Itself(5));
}

//! What the random books have in them: every refusal, long listings, and all kinds of events.

use host::book::{self, Book, Layout, Terms, COUNTS, HEADER, MARK, OFFSETS};
use host::compare;
use host::random;
use host::term::Form;
use host::translate::{self, Event, Image, Translation};
use host::words;
use std::collections::BTreeMap;

const SEED: u64 = 2_024;

#[test]
fn every_answer_occurs() {
    let mut counts: BTreeMap<u32, usize> = BTreeMap::new();
    let mut long = 0;
    let mut uneven = 0;
    for bytes in random::books(SEED, 2_000) {
        uneven += usize::from(bytes.len() % 4 != 0);
        let line = translate::print(&bytes);
        let number = compare::kind(&line);
        *counts.entry(number).or_default() += 1;
        long += usize::from(number == 0 && line.split(' ').count() > 10_000);
    }
    println!("{counts:?}, {long} long, {uneven} uneven");
    for number in (1..=10).chain([13]) {
        let count = counts.get(&number).copied().unwrap_or(0);
        assert!(count >= 20, "refusal {number} only {count} times");
    }
    assert!(counts.get(&12).copied().unwrap_or(0) >= 3);
    assert!(counts[&0] >= 500);
    assert!(long >= 3);
    assert!(uneven >= 5);
    // Of the well-formed ones about half are playable.
    let playable = counts[&0] + counts[&12];
    let share = 100 * playable / (playable + counts[&10] + counts[&13]);
    assert!((40..=75).contains(&share), "{share} of a hundred are playable");
}

/// Books with parties that make nothing: about half can be played, and there such parties have something to say while
/// others make. The other half are refused by 10 or by 13.
#[test]
fn parties_that_make_nothing() {
    let mut counts: BTreeMap<u32, usize> = BTreeMap::new();
    let (mut said, mut made) = (0, 0);
    for bytes in random::books(SEED, 2_000) {
        let Ok(book) = words::of_bytes(&bytes).and_then(|words| book::read(&words)) else {
            continue;
        };
        if book.parties.iter().all(|party| party.makes) {
            continue;
        }
        let programs = translate::programs(&book);
        let number = programs.as_ref().err().map_or(0, |refusal| refusal.number);
        *counts.entry(number).or_default() += 1;
        for (party, program) in book.parties.iter().zip(programs.iter().flatten()) {
            let news = program
                .iter()
                .filter(|event| matches!(event, Event::New { .. }))
                .count();
            let speaks = |event: &&Event| matches!(event, Event::Send { images, .. } if !images.is_empty());
            match party.makes {
                true => made += news,
                false => {
                    assert_eq!(news, 0, "{book:?}");
                    said += program.iter().filter(speaks).count();
                }
            }
        }
    }
    println!("{counts:?}, {said} steps of those who make nothing, {made} atoms made");
    let all: usize = counts.values().sum();
    let share = 100 * counts[&0] / all;
    assert!((40..=65).contains(&share), "{share} of a hundred are playable");
    assert!(counts[&10] >= 50 && counts[&13] >= 40, "{counts:?}");
    assert!(said > 500 && made > 200, "{said}, {made}");
}

/// Marks that are none, and books from before there were any, are among the damaged ones.
#[test]
fn damaged_marks() {
    let (mut wrong, mut missing) = (0, 0);
    for bytes in random::books(SEED, 4_000) {
        let Ok(words) = words::of_bytes(&bytes) else {
            continue;
        };
        let Err(refusal) = book::read(&words) else {
            continue;
        };
        if words.len() < HEADER {
            continue;
        }
        let at = refusal.place[0] as usize;
        match refusal.number {
            3 if at == OFFSETS[2] => {
                let old = Layout::counted(&words).steps as u32 - words[COUNTS[1]];
                missing += usize::from(words[at] == old);
            }
            7 => wrong += usize::from(words[Layout::counted(&words).party(at) + MARK] > 1),
            _ => (),
        }
    }
    assert!(wrong >= 10 && missing >= 10, "{wrong} wrong marks, {missing} without");
}

#[test]
fn the_same_seed_gives_the_same_books() {
    let some: Vec<Vec<u8>> = random::books(SEED, 40).collect();
    let again: Vec<Vec<u8>> = random::books(SEED, 40).collect();
    let more: Vec<Vec<u8>> = random::books(SEED, 60).take(40).collect();
    let other: Vec<Vec<u8>> = random::books(SEED + 1, 40).collect();
    assert_eq!(some, again);
    assert_eq!(some, more);
    assert_ne!(some, other);
}

/// A book read from its words is the book, and written again gives the words.
#[test]
fn words_and_back() {
    for size in 0..4 {
        for book in random::well_formed(SEED, if size == 3 { 5 } else { 150 }, size) {
            let words = book.words();
            assert_eq!(book::read(&words), Ok(book.clone()));
        }
    }
    for bytes in random::books(SEED, 500) {
        let Ok(words) = words::of_bytes(&bytes) else {
            continue;
        };
        if let Ok(book) = book::read(&words) {
            assert_eq!(book.words(), words);
        }
    }
}

/// How often each thing occurs in the programs.
#[derive(Default, Debug)]
struct Tally {
    news: usize,
    checks: usize,
    stored: usize,
    opened: usize,
    opened_with_public: usize,
    opened_with_private: usize,
    opened_with_built_half: usize,
    opened_without_contents: usize,
    empty_sends: usize,
    operations_without_arguments: usize,
    placeholders_sent: usize,
}

fn tally(book: &Book, program: &[Event], tally: &mut Tally) {
    for event in program {
        match event {
            Event::New { .. } => tally.news += 1,
            Event::Check { .. } => tally.checks += 1,
            Event::Receive { .. } => (),
            Event::End { stored } => tally.stored += stored.len(),
            Event::Send { images, .. } => {
                tally.empty_sends += usize::from(images.is_empty());
                for image in images {
                    match image {
                        Image::Placeholder(_) => tally.placeholders_sent += 1,
                        Image::Operation(_, arguments) if arguments.is_empty() => {
                            tally.operations_without_arguments += 1;
                        }
                        _ => (),
                    }
                }
            }
            Event::Open { n, key, .. } => {
                tally.opened += 1;
                tally.opened_without_contents += usize::from(*n == 0);
                let kind = match key {
                    Image::Itself(row) => book.rows[*row as usize].kind,
                    Image::Public(_) => 3,
                    Image::Private(_) => 4,
                    _ => 0,
                };
                tally.opened_with_public += usize::from(kind == 3);
                tally.opened_with_private += usize::from(kind == 4);
                let built = matches!(key, Image::Public(_) | Image::Private(_));
                tally.opened_with_built_half += usize::from(built);
            }
        }
    }
}

#[test]
fn every_kind_of_event_occurs() {
    let mut all = Tally::default();
    for bytes in random::books(SEED, 2_000) {
        let book = words::of_bytes(&bytes).and_then(|words| book::read(&words));
        let Ok(book) = book else {
            continue;
        };
        for program in translate::programs(&book).unwrap_or_default() {
            tally(&book, &program, &mut all);
        }
    }
    println!("{all:?}");
    let counts = [
        all.news,
        all.checks,
        all.stored,
        all.opened,
        all.opened_with_public,
        all.opened_with_private,
        all.opened_with_built_half,
        all.opened_without_contents,
        all.empty_sends,
        all.operations_without_arguments,
        all.placeholders_sent,
    ];
    assert!(counts.iter().all(|count| *count >= 20), "{all:?}");
}

/// Messages at which document 02's order of receiving shows: opened though the receiver could build them, opened though
/// they were stored before, and ciphers that are compared because they can't be opened. Beside them, opened ones that
/// the receiver couldn't build.
#[test]
fn the_order_of_receiving_shows() {
    let (mut built, mut stored, mut compared, mut unknown) = (0, 0, 0, 0);
    for book in random::well_formed(SEED, 1_500, 1) {
        let mut translation = Translation::start(&book);
        for step in &book.steps {
            let receiver = translation.dictionary(step.receiver);
            for row in &step.messages {
                let term = &translation.terms[*row as usize];
                let cipher = matches!(term.form(), Form::Cipher(..));
                match (receiver.opening(term).is_some(), receiver.image(term)) {
                    (true, Some(Image::Placeholder(_))) => stored += 1,
                    (true, Some(_)) => built += 1,
                    (true, None) => unknown += 1,
                    (false, Some(_)) if cipher => compared += 1,
                    _ => (),
                }
            }
            if translation.step(step).is_err() {
                break;
            }
        }
    }
    println!("{built} opened though buildable, {stored} though stored, {unknown} else, {compared} compared");
    for (count, least) in [(built, 500), (unknown, 500), (stored, 50), (compared, 100)] {
        assert!(count >= least, "{built}, {unknown}, {stored}, {compared}");
    }
}

/// "An image is never longer than its row's size."
#[test]
fn no_image_is_longer_than_its_size() {
    for book in random::well_formed(SEED, 300, 2) {
        let Ok(programs) = translate::programs(&book) else {
            continue;
        };
        for event in programs.iter().flatten() {
            let Event::Send { step, images } = event else {
                continue;
            };
            let rows = &book.steps[*step as usize].messages;
            assert_eq!(rows.len(), images.len());
            for (row, image) in rows.iter().zip(images) {
                let mut words = Vec::new();
                image.write(&mut words);
                assert!(words.len() as u64 <= book.term(*row).size());
            }
        }
    }
}

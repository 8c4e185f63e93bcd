//! Summaries: words that were worked out by hand, every question of small books against a walk, the whole of a summary
//! against the listing, and refusals 20 and 21 at each of their edges.

mod common;

use common::{atoms, book, making_nothing, parties, party, row, step, top, EXAMPLE_1, SMALLEST};
use host::book::{read, Book, Refusal};
use host::random;
use host::summary::{ask, held_after, of, write};
use host::translate::{self, Event};
use host::words::of_bytes;

/// What stands in a lent buffer beforehand.
const OLD: u32 = 0xfeed;

/// Example 1's summary, worked out by hand. A and B know rows 0 to 2. In step 0 B makes N, row 3, and A stores it. In
/// step 1 A builds the cipher, row 4, which enters nothing, and B opens it and holds its contents already.
const SUMMARY_1: [u32; 13] = [2, 5, 2, 0, 0, 0, 1, 3, 0, 0, 0, 1, 3];

/// Writes into a long buffer; the words past the summary must be the old ones, and a refusal must leave all of them.
fn written(words: &[u32]) -> Result<Vec<u32>, Refusal> {
    let mut out = vec![OLD; 20_000];
    let answer = write(words, &mut out);
    let length = *answer.as_ref().unwrap_or(&0);
    assert!(out[length..].iter().all(|word| *word == OLD));
    out.truncate(length);
    answer.map(|_| out)
}

fn refused<T>(number: u32, place: u32) -> Result<T, Refusal> {
    Err(Refusal::new(number, &[place]))
}

#[test]
fn example_1() {
    assert_eq!(written(&EXAMPLE_1), Ok(SUMMARY_1.to_vec()));
    let file = std::fs::read(top().join("books/example-1.book")).expect("the book");
    assert_eq!(written(&of_bytes(&file).expect("words")), Ok(SUMMARY_1.to_vec()));
    // N is held from step 0 on, the cipher never, what is known always.
    for party in 0..2 {
        for step in 0..2 {
            let answers = [0, 1, 2, 3, 4].map(|row| ask(&SUMMARY_1, party, row, step));
            assert_eq!(answers, [true, true, true, true, false].map(Ok));
        }
    }
}

/// Rows A, B, C, K, N, {N}K, f(N). A sends B the cipher, then K, then the cipher again; B sends C the operation over N.
/// A knows K and makes N in step 0. B stores the cipher in step 0 and K in step 1, and opens the cipher in step 2, where
/// it stores N. C, which doesn't know its own name, stores the operation in step 3; B builds it, and doesn't hold it.
#[test]
fn a_cipher_that_comes_again() {
    let rows = [atoms(5), vec![row(2, 0, &[3, 4]), row(1, 7, &[4])]].concat();
    let known = parties(&[&[0, 1, 3], &[1], &[]]);
    let steps = [step(0, 1, &[5]), step(0, 1, &[3]), step(0, 1, &[5]), step(1, 2, &[6])];
    let summary = [
        3, 7, 4, //
        0, 0, 5, 0, 1, 5, 5, //
        5, 0, 5, 2, 3, 1, 5, //
        5, 5, 5, 5, 5, 5, 4,
    ];
    let book = book(rows, &known, &steps);
    assert_eq!(written(&book.words()), Ok(summary.to_vec()));
    // B holds N after step 2, and not after step 1.
    assert_eq!(ask(&summary, 1, 4, 1), Ok(false));
    assert_eq!(ask(&summary, 1, 4, 2), Ok(true));
    assert_eq!(ask(&summary, 1, 4, 3), Ok(true));
}

/// Held, not buildable: a party that knows an atom, and the operation without arguments, holds neither half of the atom
/// nor that operation, though it could build them; and of a known half it doesn't hold the part.
#[test]
fn held_is_more_than_buildable() {
    let rows = [
        atoms(4),
        vec![row(3, 0, &[2]), row(1, 0, &[]), row(4, 0, &[3]), row(2, 0, &[2, 5])],
    ]
    .concat();
    let book = book(
        rows,
        &[party(0, &[2]), party(1, &[6])],
        &[step(0, 1, &[4, 5]), step(1, 0, &[4])],
    );
    // B can't build the public half that arrives, and stores it; the operation is compared, and not held.
    let summary = [
        2, 8, 2, //
        3, 3, 0, 3, 3, 3, 3, 3, //
        3, 3, 3, 3, 1, 3, 0, 3,
    ];
    assert_eq!(written(&book.words()), Ok(summary.to_vec()));
}

/// The mark is no matter of what is held: a tag that makes nothing holds the nonce that came, after the step it came in.
#[test]
fn a_party_that_makes_nothing() {
    let steps = [step(0, 1, &[3]), step(1, 0, &[4])];
    let book = book(
        [atoms(4), vec![row(2, 0, &[2, 3])]].concat(),
        &[party(0, &[2]), party(1, &[2])],
        &steps,
    );
    let summary = [2, 5, 2, 3, 3, 0, 1, 3, 3, 3, 0, 1, 3];
    assert_eq!(written(&book.words()), Ok(summary.to_vec()));
    let marked = making_nothing(book.clone(), &[1]);
    assert_eq!(written(&marked.words()), Ok(summary.to_vec()));
    every_question(&marked, &summary);
    // Where it would have to make, there is no summary and no answer.
    let maker = making_nothing(book, &[0]);
    assert_eq!(written(&maker.words()), Err(Refusal::new(13, &[0, 3])));
    assert_eq!(held_after(&maker, 0, 2, 0), Err(Refusal::new(13, &[0, 3])));
}

#[test]
fn no_steps() {
    assert_eq!(written(&SMALLEST), Ok(vec![1, 1, 0, 1]));
    let book = book(atoms(3), &parties(&[&[1, 2], &[]]), &[]);
    let summary = [2, 3, 0, 1, 0, 0, 1, 1, 1];
    assert_eq!(written(&book.words()), Ok(summary.to_vec()));
    // No step is below 0, so every question is out of range.
    for (party, row, step, number) in [
        (0, 0, 0, 0),
        (1, 2, 7, 7),
        (2, 9, 7, 2),
        (1, 3, 7, 3),
        (1, 2, u32::MAX, u32::MAX),
    ] {
        assert_eq!(ask(&summary, party, row, step), refused(21, number));
    }
}

/// All questions of a book, in range and one past it, against the full walk.
fn every_question(book: &Book, summary: &[u32]) -> [usize; 2] {
    let [parties, rows, steps] = [summary[0], summary[1], summary[2]];
    let mut answers = [0; 2];
    for party in 0..=parties {
        for row in 0..=rows {
            for step in 0..=steps {
                let answer = ask(summary, party, row, step);
                assert_eq!(
                    answer,
                    held_after(book, party, row, step),
                    "{party} {row} {step}: {book:?}"
                );
                let in_range = party < parties && row < rows && step < steps;
                assert_eq!(answer.is_ok(), in_range, "{party} {row} {step}");
                if let Ok(yes) = answer {
                    answers[usize::from(yes)] += 1;
                }
            }
        }
    }
    answers
}

#[test]
fn every_question_of_small_books() {
    let (mut books, mut noes, mut yeses) = (0, 0, 0);
    for size in [0, 1] {
        for book in random::well_formed(4 + size as u64, 150, size) {
            let words = book.words();
            let Ok(summary) = written(&words) else {
                continue;
            };
            if summary.len() * book.steps.len() > 2_000 {
                continue;
            }
            let [no, yes] = every_question(&book, &summary);
            (books, noes, yeses) = (books + 1, noes + no, yeses + yes);
        }
    }
    assert!(books > 50 && noes > 2_000 && yeses > 2_000, "{books}, {noes}, {yeses}");
}

#[test]
fn every_question_of_the_small_books_in_files() {
    let mut books = 0;
    for file in host::files::ending(&top().join("books"), "book").expect("the books") {
        let words = of_bytes(&std::fs::read(&file).expect("a book")).expect("words");
        let (Ok(book), Ok(summary)) = (read(&words), written(&words)) else {
            continue;
        };
        if words.len() <= 120 {
            every_question(&book, &summary);
            books += 1;
        }
    }
    assert!(books > 30, "{books}");
}

/// The summary by the programs alone: a row that isn't known is held from its NEW on, or from the step whose RECEIVE
/// is the last before the placeholder that END has for it.
fn by_the_programs(book: &Book) -> Result<Vec<u32>, Refusal> {
    let (rows, steps) = (book.rows.len(), book.steps.len() as u32);
    let mut words = vec![book.parties.len() as u32, rows as u32, steps];
    for (party, program) in book.parties.iter().zip(translate::programs(book)?) {
        let mut own = vec![steps + 1; rows];
        let (mut made, mut received) = (Vec::new(), Vec::new());
        for event in program {
            match event {
                Event::New { row } => made.push(row),
                Event::Send { step, .. } => made.drain(..).for_each(|row| own[row as usize] = step + 1),
                Event::Receive { step, first, .. } => received.push((first, step)),
                Event::End { stored } => {
                    for [row, placeholder, step] in stored {
                        let before = received.iter().rev().find(|(first, _)| *first <= placeholder);
                        assert_eq!(before.expect("a RECEIVE").1, step);
                        own[row as usize] = step + 1;
                    }
                }
                _ => (),
            }
        }
        party.known.iter().for_each(|row| own[*row as usize] = 0);
        words.extend(own);
    }
    Ok(words)
}

#[test]
fn the_programs_tell_the_same() {
    let (mut accepted, mut late) = (0, 0);
    let books = random::well_formed(21, 600, 2).chain(random::playable(22, 6, 1_024, 16, 64));
    for book in books {
        let summary = of(&book);
        assert_eq!(summary, by_the_programs(&book));
        assert_eq!(summary, written(&book.words()));
        if let Ok(summary) = summary {
            accepted += 1;
            late += summary[3..]
                .iter()
                .filter(|word| (1..=summary[2]).contains(word))
                .count();
        }
    }
    assert!(accepted > 200 && late > 1_000, "{accepted}, {late}");
}

/// The book's refusal comes first, whatever the room, and changes nothing.
#[test]
fn refused_books() {
    let mut met = Vec::new();
    for file in host::files::ending(&top().join("books"), "book").expect("the books") {
        let words = of_bytes(&std::fs::read(&file).expect("a book")).expect("words");
        let Err(refusal) = read(&words).and_then(|book| translate::programs(&book)) else {
            continue;
        };
        assert_eq!(written(&words), Err(refusal.clone()));
        assert_eq!(write(&words, &mut []), Err(refusal.clone()));
        if let Ok(book) = read(&words) {
            assert_eq!(held_after(&book, 0, 0, 0), Err(refusal.clone()));
        }
        met.push(refusal.number);
    }
    met.sort();
    met.dedup();
    assert_eq!(met, (1..=10).chain([13]).collect::<Vec<u32>>());
}

#[test]
fn room() {
    for room in 0..SUMMARY_1.len() {
        let mut out = vec![OLD; room];
        assert_eq!(write(&EXAMPLE_1, &mut out), refused(12, 13));
        assert!(out.iter().all(|word| *word == OLD));
    }
    let mut exact = [OLD; 13];
    assert_eq!(write(&EXAMPLE_1, &mut exact), Ok(13));
    assert_eq!(exact, SUMMARY_1);
    let mut more = [OLD; 15];
    assert_eq!(write(&EXAMPLE_1, &mut more), Ok(13));
    assert_eq!(more[..13], SUMMARY_1);
    assert_eq!(more[13..], [OLD; 2]);
}

/// The longest summary there is has 3+16*1,024 words, more than `./translate` lends.
#[test]
fn the_longest() {
    let book = random::playable(7, 1, 1_024, 16, 64).next().expect("a book");
    let words = book.words();
    let mut out = vec![OLD; translate::LENT];
    let parties = book.parties.len() as u32;
    assert_eq!(parties, 16);
    assert_eq!(write(&words, &mut out), refused(12, 16_387));
    assert!(out.iter().all(|word| *word == OLD));
    out.resize(16_387, OLD);
    assert_eq!(write(&words, &mut out), Ok(16_387));
    assert_eq!(out[..3], [16, 1_024, 64]);
}

/// A summary has 3+QT words by its own first two, whatever they are. The place is the length that was handed in.
#[test]
fn lengths() {
    for length in 0..SUMMARY_1.len() {
        assert_eq!(ask(&SUMMARY_1[..length], 0, 0, 0), refused(20, length as u32));
    }
    let longer = [&SUMMARY_1[..], &[0]].concat();
    assert_eq!(ask(&longer, 0, 0, 0), refused(20, 14));
    assert_eq!(ask(&SUMMARY_1, 0, 0, 0), Ok(true));
    let most = u32::MAX;
    for [parties, rows] in [
        [most, most],
        [most, 2],
        [2, most],
        [1 << 16, 1 << 16],
        [1 << 31, 2],
        [1 << 31, 1 << 31],
        [most, 1],
        [1, most],
        // Products that wrap around at 2^32 would be 2 and 10.
        [most, most - 1],
        [most, most - 9],
    ] {
        for rest in [0, 1, 2, 10] {
            let summary = [&[parties, rows, 3][..], &vec![0; rest]].concat();
            assert_eq!(ask(&summary, 0, 0, 0), refused(20, 3 + rest as u32), "{parties} {rows}");
        }
    }
    // Without parties or without rows there are three words, and no question is in range.
    for (parties, rows, number) in [(0, 0, 8), (0, most, 8), (most, 0, 9), (0, 1, 8)] {
        assert_eq!(ask(&[parties, rows, 64], 8, 9, 7), refused(21, number));
        assert_eq!(ask(&[parties, rows, 64, 0], 8, 9, 7), refused(20, 4));
    }
}

/// A wrong length comes before a number out of range; of these the first is told.
#[test]
fn their_order() {
    assert_eq!(ask(&SUMMARY_1[..12], 2, 5, 2), refused(20, 12));
    assert_eq!(ask(&[], 2, 5, 2), refused(20, 0));
    assert_eq!(ask(&SUMMARY_1, 2, 5, 3), refused(21, 2));
    assert_eq!(ask(&SUMMARY_1, 1, 5, 3), refused(21, 5));
    assert_eq!(ask(&SUMMARY_1, 1, 4, 3), refused(21, 3));
    assert_eq!(ask(&SUMMARY_1, 1, 4, 1), Ok(false));
}

#[test]
fn each_bound() {
    // Three parties, two rows, four steps; the word is the place's own number.
    let summary = [3, 2, 4, 0, 1, 2, 3, 4, 5];
    for number in [3, 4, u32::MAX] {
        assert_eq!(ask(&summary, number, 0, 0), refused(21, number));
    }
    for number in [2, 3, u32::MAX] {
        assert_eq!(ask(&summary, 2, number, 0), refused(21, number));
    }
    for number in [4, 5, u32::MAX] {
        assert_eq!(ask(&summary, 2, 1, number), refused(21, number));
    }
    for party in 0..3 {
        for row in 0..2 {
            for step in 0..4 {
                assert_eq!(ask(&summary, party, row, step), Ok(2 * party + row < step + 2));
            }
        }
    }
}

/// Words that no book gives are answered by the same rule, at the ends of 32 bits too.
#[test]
fn any_words() {
    let most = u32::MAX;
    let summary = [1, 4, most, most, most - 1, 0, 7];
    for (row, step, yes) in [
        (0, most - 1, true),
        (0, most - 2, false),
        (1, most - 2, true),
        (1, most - 3, false),
        (2, 0, true),
        (3, 5, false),
        (3, 6, true),
    ] {
        assert_eq!(ask(&summary, 0, row, step), Ok(yes), "{row} {step}");
    }
    assert_eq!(ask(&summary, 0, 0, most), refused(21, most));
}

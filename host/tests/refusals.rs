//! Every refusal of a book, document 01's and document 02's, at each of its places, their order, and that all lent
//! words stay as they were.

mod common;

use common::{atoms, book, making_nothing, parties, party, row, step};
use host::book::{read, Book, Layout, Refusal, Row, Step, Terms, HEADER, MARK};
use host::rehearse::rehearse;
use host::translate::translate;

const MAX: u32 = u32::MAX;

/// A book with a row of every kind, two parties and three steps that nothing refuses.
fn sound() -> Book {
    Book {
        rows: vec![
            row(0, 0, &[]),          // 0 A
            row(0, 0, &[]),          // 1 B
            row(0, 0, &[]),          // 2 K
            row(0, 0, &[]),          // 3 N
            row(1, 65_535, &[3, 0]), // 4 an operation
            row(2, 0, &[2, 4, 1]),   // 5 a cipher of it and B under K
            row(3, 0, &[2]),         // 6 K+
            row(4, 0, &[2]),         // 7 K-
            row(2, 0, &[6]),         // 8 a cipher of nothing under K+
            row(1, 0, &[]),          // 9 an operation without arguments
        ],
        parties: vec![party(0, &[0, 1, 2]), party(1, &[1, 2, 6])],
        steps: vec![step(0, 1, &[5, 9]), step(1, 0, &[]), step(1, 0, &[8, 5])],
    }
}

// Where the sound book's words stand.
const SOUND: Layout = Layout::of([10, 2, 3, 18]);
const fn row_at(row: usize) -> usize {
    SOUND.row(row)
}
const fn party_at(party: usize) -> usize {
    SOUND.party(party)
}
const fn step_at(step: usize) -> usize {
    SOUND.step(step)
}
const fn pool_at(word: usize) -> usize {
    SOUND.pool + word
}

/// The refusal, after a look at the lent words: none may have changed.
fn refused(words: &[u32]) -> Option<(u32, Vec<u32>)> {
    let old: Vec<u32> = (0..300).collect();
    let mut out = old.clone();
    let Refusal { number, place } = translate(words, &mut out).err()?;
    assert_eq!(out, old);
    let mut out = old.clone();
    let rehearsed = rehearse(words, &[], &mut out).err();
    assert_eq!(out, old);
    if number != 12 {
        let same = Refusal {
            number,
            place: place.clone(),
        };
        assert_eq!(rehearsed, Some(same));
    }
    Some((number, place))
}

#[test]
fn the_sound_book_is_accepted() {
    let words = sound().words();
    assert_eq!(read(&words), Ok(sound()));
    assert_eq!(refused(&words), None);
    assert_eq!(words.len(), pool_at(8 + 6 + 4));
}

#[test]
fn refusal_1() {
    let words = sound().words();
    for length in 0..HEADER {
        assert_eq!(refused(&words[..length]), Some((1, vec![0])));
        assert_eq!(refused(&[MAX; HEADER][..length]), Some((1, vec![0])));
    }
}

/// Words put into the sound book, and the refusal's number and place.
type Case<'a> = (&'a [(usize, u32)], u32, u32);

fn all(cases: &[Case]) {
    for (edits, number, place) in cases {
        let mut words = sound().words();
        for (at, word) in *edits {
            words[*at] = *word;
        }
        assert_eq!(refused(&words), Some((*number, vec![*place])), "{edits:?}");
    }
}

#[test]
fn refusal_2() {
    all(&[
        (&[(0, 0)], 2, 0),
        (&[(0, 1_025)], 2, 0),
        (&[(0, MAX)], 2, 0),
        (&[(2, 0)], 2, 2),
        (&[(2, 17)], 2, 2),
        (&[(2, MAX)], 2, 2),
        (&[(4, 65)], 2, 4),
        (&[(4, MAX)], 2, 4),
        (&[(6, 8_193)], 2, 6),
        (&[(6, MAX)], 2, 6),
        // The smallest header word, and before any offset.
        (&[(6, MAX), (4, MAX)], 2, 4),
        (&[(6, MAX), (4, MAX), (2, 0)], 2, 2),
        (&[(6, MAX), (0, 0)], 2, 0),
        (&[(6, 8_193), (1, 9)], 2, 6),
    ]);
}

#[test]
fn refusal_3() {
    let [_, parties, steps, pool] = SOUND.offsets().map(|offset| offset as u32);
    all(&[
        (&[(1, 7)], 3, 1),
        (&[(1, MAX)], 3, 1),
        (&[(3, parties - 1)], 3, 3),
        (&[(3, 0)], 3, 3),
        (&[(5, steps + 1)], 3, 5),
        (&[(5, MAX)], 3, 5),
        (&[(7, pool + 1)], 3, 7),
        (&[(7, MAX)], 3, 7),
        // A count within its bounds that the offsets don't fit.
        (&[(0, 11)], 3, 3),
        (&[(0, 1_024)], 3, 3),
        (&[(2, 1)], 3, 5),
        (&[(4, 4)], 3, 7),
        (&[(6, 17)], 3, 8),
        (&[(6, 19)], 3, 8),
        (&[(6, 8_192)], 3, 8),
        // The smallest, and before any row.
        (&[(7, 0), (5, 0), (3, 0)], 3, 3),
        (&[(6, 19), (7, 0)], 3, 7),
        (&[(6, 19), (row_at(0), 9)], 3, 8),
    ]);
    let mut words = sound().words();
    words.push(0);
    assert_eq!(refused(&words), Some((3, vec![8])));
    words.truncate(words.len() - 2);
    assert_eq!(refused(&words), Some((3, vec![8])));
    words.truncate(HEADER);
    assert_eq!(refused(&words), Some((3, vec![8])));
}

#[test]
fn refusal_4() {
    all(&[
        // The kind.
        (&[(row_at(0), 5)], 4, 0),
        (&[(row_at(9), MAX)], 4, 9),
        // The tag.
        (&[(row_at(4) + 1, 65_536)], 4, 4),
        (&[(row_at(0) + 1, 1)], 4, 0),
        (&[(row_at(5) + 1, 1)], 4, 5),
        (&[(row_at(6) + 1, 1)], 4, 6),
        (&[(row_at(7) + 1, MAX)], 4, 7),
        // The first, also where the count is 0.
        (&[(row_at(0) + 2, 1)], 4, 0),
        (&[(row_at(3) + 2, MAX)], 4, 3),
        (&[(row_at(5) + 2, 1)], 4, 5),
        (&[(row_at(5) + 2, 3)], 4, 5),
        (&[(row_at(9) + 2, 0)], 4, 9),
        (&[(row_at(9) + 2, 18)], 4, 9),
        // The count.
        (&[(row_at(0) + 3, 1)], 4, 0),
        (&[(row_at(4) + 3, 9)], 4, 4),
        (&[(row_at(4) + 3, MAX)], 4, 4),
        (&[(row_at(5) + 3, 0)], 4, 5),
        (&[(row_at(5) + 3, 10)], 4, 5),
        (&[(row_at(6) + 3, 0)], 4, 6),
        (&[(row_at(6) + 3, 2)], 4, 6),
        (&[(row_at(7) + 3, 0)], 4, 7),
        (&[(row_at(8) + 3, 0)], 4, 8),
        // A count within its bounds: then the next row's first is wrong.
        (&[(row_at(4) + 3, 1)], 4, 5),
        (&[(row_at(5) + 3, 4)], 4, 6),
        (&[(row_at(8) + 3, 2)], 4, 9),
        // The parts.
        (&[(pool_at(0), 4)], 4, 4),
        (&[(pool_at(1), 5)], 4, 4),
        (&[(pool_at(2), 5)], 4, 5),
        (&[(pool_at(4), MAX)], 4, 5),
        (&[(pool_at(5), 6)], 4, 6),
        (&[(pool_at(7), 9)], 4, 8),
        // The smallest, and before any size, repeat, party or step.
        (&[(row_at(7), 9), (row_at(4), 9)], 4, 4),
        (&[(row_at(9), 9), (party_at(0), MAX)], 4, 9),
        (&[(row_at(9), 9), (row_at(7), 3)], 4, 9),
    ]);
    // A list that leaves the pool: the pool ends in the rows' lists.
    for (kept, row) in [(0, 4), (1, 4), (2, 5), (4, 5), (5, 6), (6, 7), (7, 8)] {
        let mut words = sound().words();
        words[6] = kept as u32;
        words.truncate(pool_at(kept));
        assert_eq!(refused(&words), Some((4, vec![row])));
    }
}

#[test]
fn refusal_5() {
    // Sizes 2, then 1 and 9 times the one before, and so on.
    let nine = [0; 9];
    let mut book = Book {
        rows: vec![row(0, 0, &[]), row(2, 0, &nine), row(2, 0, &nine.map(|_| 1))],
        parties: vec![party(0, &[])],
        steps: vec![],
    };
    assert_eq!(book.term(1).size(), 20);
    assert_eq!(book.term(2).size(), 182);
    book.rows.push(row(1, 0, &[2, 2, 2, 2, 2, 0, 1])); // 3 + 910 + 2 + 20
    assert_eq!(book.term(3).size(), 935);
    book.rows.push(row(1, 0, &[3, 1, 1, 1, 1, 0, 0])); // 3 + 935 + 80 + 4 is 1,022
    assert_eq!(refused(&book.words()), None);
    book.rows.push(row(3, 0, &[4]));
    book.rows.push(row(4, 0, &[5])); // 1,024
    assert_eq!(refused(&book.words()), None);
    book.rows.push(row(4, 0, &[6])); // 1,025
    assert_eq!(refused(&book.words()), Some((5, vec![7])));
    // Far over, where sizes no longer fit a word: still the smallest row.
    for number in 7..30 {
        book.rows.push(row(2, 0, &nine.map(|_| number)));
    }
    assert_eq!(refused(&book.words()), Some((5, vec![7])));
    // Before a repeat, even of an earlier row.
    book.rows[5] = row(2, 0, &nine);
    book.rows[6] = row(1, 7, &[4]); // 1,025
    assert_eq!(refused(&book.words()), Some((5, vec![6])));
    // Nine parts of the largest size there is.
    book.rows.truncate(5);
    book.rows.push(row(2, 0, &[4; 9]));
    assert_eq!(refused(&book.words()), Some((5, vec![5])));
}

#[test]
fn refusal_6() {
    for (number, repeated) in [(4, 4), (5, 5), (6, 6), (7, 7), (8, 8), (9, 9)] {
        let mut book = sound();
        book.rows.push(book.rows[number].clone());
        book.rows.push(book.rows[4].clone());
        assert_eq!(refused(&book.words()), Some((6, vec![10])), "{repeated}");
        // Atoms between may be alike.
        book.rows.insert(10, row(0, 0, &[]));
        assert_eq!(refused(&book.words()), Some((6, vec![11])));
    }
    // What differs in kind, tag or parts is no repeat.
    let mut book = sound();
    for other in [
        row(1, 65_534, &[3, 0]),
        row(1, 65_535, &[0, 3]),
        row(1, 65_535, &[3]),
        row(1, 65_535, &[3, 0, 0]),
        row(2, 0, &[3, 0]),
        row(2, 0, &[2, 1, 4]),
        row(2, 0, &[7]),
        row(3, 0, &[3]),
        row(4, 0, &[3]),
        row(1, 1, &[]),
        row(1, 0, &[2]),
        row(2, 0, &[2]),
    ] {
        book.rows.push(other);
    }
    assert_eq!(refused(&book.words()), None);
    // Before a party's rule.
    book.rows.push(row(1, 1, &[]));
    book.parties[0].name = 9;
    assert_eq!(refused(&book.words()), Some((6, vec![22])));
}

#[test]
fn refusal_7() {
    all(&[
        // The name.
        (&[(party_at(0), 10)], 7, 0),
        (&[(party_at(0), MAX)], 7, 0),
        (&[(party_at(0), 4)], 7, 0),
        (&[(party_at(1), 9)], 7, 1),
        (&[(party_at(1), 0)], 7, 1),
        // The first.
        (&[(party_at(0) + 1, 7)], 7, 0),
        (&[(party_at(0) + 1, 0)], 7, 0),
        (&[(party_at(1) + 1, MAX)], 7, 1),
        // The count.
        (&[(party_at(0) + 2, 257)], 7, 0),
        (&[(party_at(1) + 2, MAX)], 7, 1),
        // A count within its bounds: then the next first is wrong, or the list leaves the pool.
        (&[(party_at(0) + 2, 2)], 7, 1),
        (&[(party_at(1) + 2, 11)], 7, 1),
        (&[(party_at(1) + 2, 2)], 8, 0),
        // The mark.
        (&[(party_at(0) + MARK, 2)], 7, 0),
        (&[(party_at(1) + MARK, 2)], 7, 1),
        (&[(party_at(0) + MARK, 256)], 7, 0),
        (&[(party_at(0) + MARK, 1 << 31)], 7, 0),
        (&[(party_at(1) + MARK, MAX)], 7, 1),
        // The known rows.
        (&[(pool_at(9), 0)], 7, 0),
        (&[(pool_at(9), 2)], 7, 0),
        (&[(pool_at(8), 5)], 7, 0),
        (&[(pool_at(10), 10)], 7, 0),
        (&[(pool_at(13), MAX)], 7, 1),
        (&[(pool_at(13), 2)], 7, 1),
        (&[(pool_at(12), 0)], 7, 1),
        // The smallest, and before any step.
        (&[(party_at(1), 9), (party_at(0), 9)], 7, 0),
        (&[(party_at(1), 9), (step_at(0), 9)], 7, 1),
        (&[(party_at(1) + MARK, 2), (party_at(0) + MARK, 3)], 7, 0),
        (&[(party_at(1) + MARK, 2), (party_at(0), 9)], 7, 0),
        (&[(party_at(1) + MARK, 2), (step_at(0), 9)], 7, 1),
    ]);
    // Marks 1 and 0 both keep the rule: B makes nothing in the sound book.
    let words = making_nothing(sound(), &[1]).words();
    assert_eq!((words[party_at(0) + MARK], words[party_at(1) + MARK]), (1, 0));
    assert_eq!(refused(&words), None);
    for (kept, party) in [(8, 0), (10, 0), (11, 1), (13, 1)] {
        let mut words = sound().words();
        words[6] = kept as u32;
        words.truncate(pool_at(kept));
        assert_eq!(refused(&words), Some((7, vec![party])));
    }
    // 256 known rows pass, 257 don't.
    let mut book = Book {
        rows: vec![row(0, 0, &[]); 300],
        parties: vec![party(0, &[]), party(1, &(0..256).collect::<Vec<u32>>())],
        steps: vec![],
    };
    assert_eq!(refused(&book.words()), None);
    book.parties[1].known.push(256);
    assert_eq!(refused(&book.words()), Some((7, vec![1])));
}

#[test]
fn refusal_8() {
    all(&[
        // Sender and receiver.
        (&[(step_at(0), 1)], 8, 0),
        (&[(step_at(0), 2)], 8, 0),
        (&[(step_at(1), MAX)], 8, 1),
        (&[(step_at(1) + 1, 2)], 8, 1),
        (&[(step_at(2) + 1, 1)], 8, 2),
        (&[(step_at(2) + 1, MAX)], 8, 2),
        (&[(step_at(2), MAX), (step_at(2) + 1, MAX)], 8, 2),
        // The first, also where the count is 0.
        (&[(step_at(0) + 2, 13)], 8, 0),
        (&[(step_at(1) + 2, 0)], 8, 1),
        (&[(step_at(1) + 2, MAX)], 8, 1),
        (&[(step_at(2) + 2, 17)], 8, 2),
        // The count.
        (&[(step_at(0) + 3, 9)], 8, 0),
        (&[(step_at(1) + 3, MAX)], 8, 1),
        (&[(step_at(0) + 3, 3)], 8, 1),
        (&[(step_at(2) + 3, 3)], 8, 2),
        // The messages.
        (&[(pool_at(14), 10)], 8, 0),
        (&[(pool_at(15), MAX)], 8, 0),
        (&[(pool_at(17), 10)], 8, 2),
        // The smallest.
        (&[(step_at(2), 7), (step_at(1), 7)], 8, 1),
    ]);
    for (kept, step) in [(14, 0), (15, 0), (16, 2), (17, 2)] {
        let mut words = sound().words();
        words[6] = kept as u32;
        words.truncate(pool_at(kept));
        assert_eq!(refused(&words), Some((8, vec![step])));
    }
    // 8 messages pass, 9 don't, even with the rest in order.
    let mut book = sound();
    book.steps[2].messages = vec![8; 8];
    assert_eq!(refused(&book.words()), None);
    book.steps[2].messages.push(8);
    assert_eq!(refused(&book.words()), Some((8, vec![2])));
}

#[test]
fn refusal_9() {
    let mut words = sound().words();
    words[6] += 1;
    words.push(MAX);
    assert_eq!(refused(&words), Some((9, vec![0])));
    // The last step's count may fall short of the pool.
    all(&[(&[(step_at(2) + 3, 1)], 9, 0), (&[(step_at(2) + 3, 0)], 9, 0)]);
    // Before refusal 10: step 2 would have B make K.
    let mut book = sound();
    book.parties[1].known = vec![1];
    book.steps.remove(0);
    assert_eq!(refused(&book.words()), Some((10, vec![1, 2])));
    let mut words = book.words();
    words[6] += 1;
    words.push(0);
    assert_eq!(refused(&words), Some((9, vec![0])));
}

/// Atoms A, B, C, K, N, M and over them whatever rows a test adds.
fn three(rows: &[Row], known: [&[u32]; 3], steps: &[Step]) -> Book {
    book([atoms(6), rows.to_vec()].concat(), &parties(&known), steps)
}

#[test]
fn refusal_10() {
    let taken = |book: &Book| refused(&book.words());
    // A name that the sender doesn't know, its own included.
    let nothing: [&[u32]; 3] = [&[], &[], &[]];
    let name = three(&[], nothing, &[step(0, 1, &[4]), step(1, 2, &[2])]);
    assert_eq!(taken(&name), Some((10, vec![1, 2])));
    let own = three(&[], nothing, &[step(0, 1, &[0])]);
    assert_eq!(taken(&own), Some((10, vec![0, 0])));
    // Known to another party, at any depth, even inside what nobody can open.
    let inside = [row(2, 0, &[3, 4]), row(1, 0, &[6]), row(3, 0, &[4])];
    let known = three(&inside, [&[], &[], &[7]], &[step(0, 1, &[8])]);
    assert_eq!(taken(&known), Some((10, vec![0, 4])));
    // Known to the sender only inside of what it knows.
    let known = three(&inside, [&[7], &[], &[]], &[step(0, 1, &[7, 3])]);
    assert_eq!(taken(&known), Some((10, vec![0, 3])));
    // In an earlier message of two others.
    let sent = three(
        &inside,
        nothing,
        &[step(0, 1, &[7]), step(2, 1, &[5]), step(2, 1, &[8])],
    );
    assert_eq!(taken(&sent), Some((10, vec![2, 4])));
    // Not in an earlier message of the same step, nor of its own making.
    let same = three(&inside, nothing, &[step(0, 1, &[8, 4, 7]), step(0, 2, &[4, 3])]);
    assert_eq!(taken(&same), None);
    // Received by itself, it is held.
    let held = three(&[], nothing, &[step(0, 1, &[4]), step(1, 2, &[4])]);
    assert_eq!(taken(&held), None);
    // The smallest step, whichever its sender; and the first row in building order: messages left
    // to right, parts first, a cipher's key before its contents. Making what isn't taken goes on.
    let rows = [row(2, 0, &[3, 4]), row(1, 0, &[5, 4, 3])];
    let both: [&[u32]; 3] = [&[], &[], &[3, 4]];
    let key = three(&rows, both, &[step(2, 1, &[]), step(0, 1, &[6]), step(1, 0, &[7])]);
    assert_eq!(taken(&key), Some((10, vec![1, 3])));
    let later = three(&rows, both, &[step(0, 1, &[5, 7, 6])]);
    assert_eq!(taken(&later), Some((10, vec![0, 4])));
    // A row in the dictionary is sent as it is, whatever is in it.
    let entry = three(&rows, [&[6], &[], &[3]], &[step(0, 1, &[6])]);
    assert_eq!(taken(&entry), None);
}

/// "A party marked 0 would have to make an atom": the first atom that can't be made, 10 if it is taken and else 13.
#[test]
fn refusal_13() {
    let unmade = |marked: &[usize], book: &Book| refused(&making_nothing(book.clone(), marked).words());
    let nothing: [&[u32]; 3] = [&[], &[], &[]];
    // An atom that is nobody's yet, alone and at any depth; the mark is the sender's.
    let inside = [row(2, 0, &[3, 4]), row(1, 0, &[6]), row(3, 0, &[4])];
    for (message, row) in [(4, 4), (6, 3), (7, 3), (8, 4)] {
        let fresh = three(&inside, nothing, &[step(2, 1, &[]), step(0, 1, &[message])]);
        assert_eq!(unmade(&[], &fresh), None);
        assert_eq!(unmade(&[1, 2], &fresh), None);
        assert_eq!(unmade(&[0], &fresh), Some((13, vec![1, row])));
        assert_eq!(unmade(&[0, 1, 2], &fresh), Some((13, vec![1, row])));
    }
    // A taken atom is 10 whoever would make it: a name, known to another, or sent among others.
    let name = three(&[], nothing, &[step(0, 1, &[2])]);
    assert_eq!(unmade(&[0], &name), Some((10, vec![0, 2])));
    let known = three(&inside, [&[], &[], &[7]], &[step(0, 1, &[8])]);
    assert_eq!(unmade(&[0], &known), Some((10, vec![0, 4])));
    let sent = three(&[], nothing, &[step(0, 1, &[4]), step(2, 1, &[4])]);
    assert_eq!(unmade(&[2], &sent), Some((10, vec![1, 4])));
    // Of one step the first in building order, where K is C's and N nobody's: messages left to right, a key before
    // its contents.
    let rows = [row(2, 0, &[3, 4]), row(2, 0, &[4, 3])];
    for (messages, refusal) in [
        (&[6][..], (10, vec![0, 3])),
        (&[7], (13, vec![0, 4])),
        (&[3, 4], (10, vec![0, 3])),
        (&[4, 3], (13, vec![0, 4])),
        (&[5, 6], (13, vec![0, 5])),
    ] {
        let both = three(&rows, [&[], &[], &[3]], &[step(0, 1, messages)]);
        assert_eq!(unmade(&[0], &both), Some(refusal), "{messages:?}");
        // Where the sender may make, N and M are no matter.
        assert_eq!(unmade(&[1], &both), Some((10, vec![0, 3])), "{messages:?}");
    }
    // Of several steps the smallest, whichever of the two it is.
    let (maker, taken) = (step(0, 1, &[4]), step(1, 0, &[2]));
    let first = three(&[], nothing, &[maker.clone(), taken.clone()]);
    assert_eq!(unmade(&[0], &first), Some((13, vec![0, 4])));
    assert_eq!(unmade(&[], &first), Some((10, vec![1, 2])));
    let second = three(&[], nothing, &[taken, maker]);
    assert_eq!(unmade(&[0], &second), Some((10, vec![0, 2])));
    // What is held is not made: known, stored, found in a cipher; nor is anything made below a row that is held.
    let cipher = [row(2, 0, &[3, 4]), row(1, 0, &[])];
    let held = three(
        &cipher,
        [&[3], &[3], &[]],
        &[step(0, 1, &[6, 5]), step(1, 2, &[6, 4, 5, 7]), step(2, 0, &[6, 4])],
    );
    assert_eq!(unmade(&[1, 2], &held), None);
    assert_eq!(unmade(&[0, 1, 2], &held), Some((13, vec![0, 4])));
    let entry = three(&cipher, [&[6], &[], &[]], &[step(0, 1, &[6])]);
    assert_eq!(unmade(&[0], &entry), None);
    // After refusal 9.
    let words = making_nothing(second, &[0]).words();
    let longer = |words: &[u32]| {
        let mut words = [words, &[0]].concat();
        words[6] += 1;
        words
    };
    assert_eq!(refused(&longer(&words)), Some((9, vec![0])));
    let words = making_nothing(first, &[0]).words();
    assert_eq!(refused(&longer(&words)), Some((9, vec![0])));
    // Before 11 and 12.
    let thirteen = Err(Refusal::new(13, &[0, 4]));
    assert_eq!(rehearse(&words, &[9], &mut [0; 3]), thirteen);
    assert_eq!(rehearse(&words, &[], &mut []), thirteen);
    assert_eq!(translate(&words, &mut []), thirteen);
}

#[test]
fn refusal_11() {
    let words = sound().words();
    let refused = |schedule: &[u32]| {
        let mut out = [77; 2];
        let answer = rehearse(&words, schedule, &mut out);
        assert!(answer.is_ok() || out == [77; 2]);
        answer.err().map(|refusal| (refusal.number, refusal.place))
    };
    assert_eq!(refused(&[1; 4_096]), None);
    assert_eq!(refused(&[1; 4_097]), Some((11, vec![4_096])));
    assert_eq!(refused(&[0, 1, 2, MAX]), Some((11, vec![2])));
    assert_eq!(refused(&[MAX]), Some((11, vec![0])));
    // Too many moves come before a bad one.
    assert_eq!(refused(&[9; 4_097]), Some((11, vec![4_096])));
    let mut schedule = [0; 4_096];
    schedule[4_095] = 2;
    assert_eq!(refused(&schedule), Some((11, vec![4_095])));
    // After all of the book's refusals, before 12.
    let answer = rehearse(&words[..7], &[9], &mut []);
    assert_eq!(answer.map_err(|refusal| refusal.number), Err(1));
    let mut unplayable = sound();
    unplayable.parties[0].known.clear();
    let answer = rehearse(&unplayable.words(), &[9], &mut []);
    assert_eq!(answer.map_err(|refusal| refusal.number), Err(10));
    let answer = rehearse(&words, &[9], &mut []);
    assert_eq!(answer.map_err(|refusal| refusal.number), Err(11));
}

#[test]
fn refusal_12() {
    let words = sound().words();
    let length = translate(&words, &mut [0; 300]).expect("the sound book is accepted");
    for short in 0..length {
        let mut out = vec![77; short];
        let answer = translate(&words, &mut out);
        assert_eq!(answer, Err(Refusal::new(12, &[length as u32])));
        assert!(out.iter().all(|word| *word == 77));
    }
    let mut out = vec![77; length];
    assert_eq!(translate(&words, &mut out), Ok(length));
    for short in 0..2 {
        let mut out = vec![77; short];
        let answer = rehearse(&words, &[0, 1], &mut out);
        assert_eq!(answer, Err(Refusal::new(12, &[2])));
        assert!(out.iter().all(|word| *word == 77));
    }
}

#[test]
fn any_word_may_be_wrong() {
    let sound = sound().words();
    let wrong = [
        0,
        1,
        2,
        3,
        4,
        5,
        7,
        9,
        10,
        17,
        65,
        257,
        1_025,
        65_536,
        1 << 30,
        1 << 31,
        MAX,
    ];
    for at in 0..sound.len() {
        for word in wrong {
            let mut words = sound.clone();
            words[at] = word;
            refused(&words);
            words.truncate(at);
            refused(&words);
        }
    }
    for length in 0..200 {
        refused(&vec![MAX; length]);
        refused(&vec![0; length]);
        refused(&vec![1; length]);
    }
}

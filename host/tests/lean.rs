//! The bench's anchor against this implementation: every answer, and every lent word, on the books of the folder, on
//! random and damaged ones, and where its tables change their size.

mod common;

use common::{complains, printed, top, Folder};
use host::book::Refusal;
use host::random::{self, Random};
use host::rehearse::{self, MOST_MOVES};
use host::routes::{self, Lean, Trials};
use host::{lean, translate};

/// What stands in a lent buffer before an answer.
const MARK: u32 = 0xdead_beef;

/// Every kind of room and schedule, on bytes and on words.
#[test]
fn books_and_random_ones() {
    let keep = Folder::new("lean");
    let trials = Trials::new(&[top().join("books")], 11, 20_000).expect("the books");
    let mut out = Vec::new();
    let same = routes::over(&Lean, &trials.with_long(), keep.at(), &mut out).expect("it ends");
    let text = String::from_utf8(out).expect("text");
    assert!(same && text.ends_with(" 0 differences\n"), "{text}");
    let told = |function: &str| text.lines().find(|line| line.starts_with(function)).expect("a line");
    for number in (1..=10).chain([12, 13]) {
        assert!(
            told("translate: ").contains(&format!("refused {number}: ")),
            "{number}: {text}"
        );
    }
    for number in 1..=13 {
        assert!(
            told("rehearse: ").contains(&format!("refused {number}: ")),
            "{number}: {text}"
        );
    }
}

/// An answer and the words that were lent for it.
type Outcome = (Result<usize, Refusal>, Vec<u32>);

fn lent(room: usize, answer: impl Fn(&mut [u32]) -> Result<usize, Refusal>) -> Outcome {
    let mut out = vec![MARK; room];
    (answer(&mut out), out)
}

/// Both answers to a book with room for so many words, and to a random schedule.
fn compare(book: &[u32], room: usize, name: &str) -> Result<usize, Refusal> {
    let own = lent(room, |out| translate::translate(book, out));
    assert!(
        lent(room, |out| lean::translate(book, out)) == own,
        "{name}, room {room}"
    );

    let mut random = Random::new(room as u64);
    let parties = book[2] as usize;
    let schedule: Vec<u32> = (0..MOST_MOVES).map(|_| random.below(parties) as u32).collect();
    let played = lent(parties, |out| rehearse::rehearse(book, &schedule, out));
    assert!(
        lent(parties, |out| lean::rehearse(book, &schedule, out)) == played,
        "{name}, rehearsed"
    );
    own.0
}

/// Tables are made for up to 32, 256 and 1,024 rows.
#[test]
fn where_tables_change_their_size() {
    for rows in [1_usize, 2, 31, 32, 33, 34, 255, 256, 257, 258, 1_023, 1_024] {
        let (parties, steps) = ((rows / 64).max(2), rows.div_ceil(16));
        for (number, book) in random::playable(5, 6, rows, parties, steps).enumerate() {
            let (name, words) = (format!("{rows} rows, {number}"), book.words());
            assert_eq!(words[0] as usize, rows);
            let length = compare(&words, 1 << 20, &name).expect("it can be played");
            assert_eq!(compare(&words, length, &name), Ok(length));
            let refusal = Refusal::new(12, &[length as u32]);
            assert_eq!(compare(&words, length - 1, &name), Err(refusal));
        }
    }
}

/// Full-sized books, playable or not.
#[test]
fn full_size() {
    let mut accepted = 0;
    for (number, book) in random::well_formed(6, 60, 3).enumerate() {
        let name = format!("full size, {number}");
        accepted += usize::from(compare(&book.words(), translate::LENT, &name).is_ok());
    }
    assert!((10..50).contains(&accepted), "{accepted} of 60 are accepted");
}

#[test]
fn the_command() {
    let folder = Folder::new("lean-books");
    let book = std::fs::read(top().join("books/example-1.book")).expect("a book");
    folder.file("example-1.book", book);
    let told = printed(&["routes", "--lean", "3", "40", &folder.path("")]);
    assert!(
        told.starts_with("seed 3, 40 random books and schedules, 18 fixed ones\n"),
        "{told}"
    );
    assert!(told.ends_with(" calls on each route, 0 differences\n"), "{told}");
    complains(&["routes", "--lean", "3"]);
    complains(&["routes", "--lean", "3", "many"]);
}

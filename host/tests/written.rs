//! Books written as narrations: random ones, tables of any order and the heaviest come back as they were.

mod common;

use common::{atoms, book, party, row, step};
use host::book::{read, Book, Party, Step};
use host::random::{self, Random};
use narration::{narrate, write, Names};

/// The book again from the narration that is written of it.
fn comes_back(book: &Book) -> String {
    let text = write(book, &Names::made_up(book));
    let again = narrate(&text).unwrap_or_else(|mistakes| panic!("{mistakes:?}\n{text}"));
    assert!(&again.book == book, "{text}");
    text
}

#[test]
fn random_books_come_back() {
    for size in 0..4 {
        let count = [4_000, 2_000, 400, 40][size];
        for book in random::well_formed(7, count, size) {
            comes_back(&book);
        }
    }
}

/// Books of any order and unused rows: rows drawn over the rows before them.
#[test]
fn tables_of_any_order_come_back() {
    let mut random = Random::new(3);
    for _ in 0..2_000 {
        let mut book = book(Vec::new(), &[], &[]);
        let mut sizes: Vec<usize> = Vec::new();
        let count = random.between(2, 40);
        while book.rows.len() < count {
            let kind = if book.rows.is_empty() { 0 } else { random.below(5) };
            let n = [0, random.below(4), random.between(1, 4), 1, 1][kind];
            let parts: Vec<u32> = (0..n).map(|_| random.below(book.rows.len()) as u32).collect();
            let tag = if kind == 1 { random.below(3) as u32 * 32767 } else { 0 };
            let row = row(kind as u32, tag, &parts);
            let size = [2, 3, 2, 1, 1][kind] + row.parts.iter().map(|part| sizes[*part as usize]).sum::<usize>();
            if size <= 1024 && (kind == 0 || !book.rows.contains(&row)) {
                book.rows.push(row);
                sizes.push(size);
            }
        }
        for name in (0..count).filter(|row| book.rows[*row].kind == 0).take(16) {
            if random.percent(70) || book.parties.is_empty() {
                let known: Vec<u32> = (0..count as u32).filter(|_| random.percent(20)).collect();
                book.parties.push(party(name as u32, &known));
                let last = book.parties.last_mut().expect("just pushed");
                last.makes = random.percent(70);
            }
        }
        let parties = book.parties.len();
        for _ in 0..if parties == 1 { 0 } else { random.below(5) } {
            let sender = random.below(parties);
            let receiver = (sender + random.between(1, parties - 1)) % parties;
            let messages: Vec<u32> = (0..random.below(9)).map(|_| random.below(count) as u32).collect();
            book.steps.push(step(sender as u32, receiver as u32, &messages));
        }
        assert_eq!(read(&book.words()).as_ref(), Ok(&book));
        comes_back(&book);
    }
}

/// One of the heaviest books: 1,024 rows, nearly all of a size close to 1,024, known to 16 parties as far as
/// may be, and in every message.
#[test]
fn the_heaviest_table_comes_back() {
    let mut rows = atoms(16);
    // Sizes 7, 17, 37, 77, 157, 317, 637, each by doubling the one before.
    for last in 15..22 {
        rows.push(row(1, last, &[last, last]));
    }
    // 637 and 317 and up to 37, or a half of that.
    while rows.len() < 1024 {
        let last = rows.len() as u32 - 1;
        rows.push(match last % 2 {
            0 => row(1, last, &[22, 21, 15 + last % 4]),
            _ => row(3 + last / 2 % 2, 0, &[last]),
        });
    }
    let (known, messages): (Vec<u32>, Vec<u32>) = ((768..1024).collect(), (1016..1024).collect());
    let parties: Vec<Party> = (0..16).map(|name| party(name, &known)).collect();
    let step = |number: u32| step(number % 16, (number + 1) % 16, &messages);
    let steps: Vec<Step> = (0..64).map(step).collect();
    let book = book(rows, &parties, &steps);
    assert!(read(&book.words()).as_ref() == Ok(&book));
    let length = comes_back(&book).len();
    assert!(length > 8_000_000, "{length}");
}

//! What the program `shelf` is run on, and what it must print.

mod common;

use common::{atoms, book, parties, top, Folder, EXAMPLE_1, LISTING_1};
use host::book::READ;
use host::shelf::Shelf;
use host::words::{self, to_bytes};

/// The lines of example 1: its listing, and its rehearsals.
fn lines_1() -> String {
    words::line(&LISTING_1) + "\n2 6\n2 6\n2 6\n2 6\nrefused 11 2\nrefused 11 4096\n"
}

fn text(shelf: &Shelf) -> &str {
    std::str::from_utf8(&shelf.stdout).unwrap()
}

#[test]
fn the_crate_is_current() {
    let shelf = Shelf::of(&top().join("books")).unwrap();
    assert_eq!(shelf.left_out, [""; 0]);
    assert_eq!(shelf.check(&top().join("crates/shelf")), Ok(()));
    // Seven lines a book, and each kind of answer.
    assert_eq!(text(&shelf).lines().count(), 7 * shelf.books);
    for number in 1..=13 {
        let refused = format!("refused {number} ");
        assert!(text(&shelf).contains(&refused), "{refused}");
    }
}

#[test]
fn a_stream_of_books() {
    let example = to_bytes(&EXAMPLE_1);
    let books: [(&str, &[u8]); 4] = [
        ("b.book", &example),
        ("a.book", &[]),
        ("c.book", &[1, 2, 3]),
        ("d.listing", b"1"),
    ];
    let folder = Folder::with("stream", &books);
    let shelf = Shelf::of(folder.at()).unwrap();
    assert_eq!(shelf.books, 2);
    let count = to_bytes(&[EXAMPLE_1.len() as u32]);
    assert_eq!(shelf.stdin, [&[0; 4], &count[..], &example].concat());
    let refused = "refused 1 0\n".repeat(7);
    assert_eq!(text(&shelf), refused + &lines_1());
    let left_out = folder.path("c.book");
    assert_eq!(shelf.told(), format!("2 books on the shelf, left out: {left_out}"));
}

/// A longer book comes as one word more than the longest, as the small program reads it.
#[test]
fn a_long_book() {
    let folder = Folder::with("long", &[("a.book", &[1; 4 * (READ + 1)])]);
    let shelf = Shelf::of(folder.at()).unwrap();
    assert_eq!(shelf.stdin.len(), 4 + 4 * READ);
    assert_eq!(shelf.stdin[..4], to_bytes(&[READ as u32]));
}

/// How many parties a round has is what word 2 says, if a book may have so many; else it has one.
#[test]
fn the_rounds() {
    // The smallest book, with two parties more.
    let words = book(atoms(3), &parties(&[&[], &[], &[]]), &[]).words();
    let mut other = words.clone();
    other[2] = 17;
    let folder = Folder::with(
        "rounds",
        &[("a.book", &to_bytes(&words)), ("b.book", &to_bytes(&other))],
    );
    let shelf = Shelf::of(folder.at()).unwrap();
    let lines: Vec<&str> = text(&shelf).lines().collect();
    assert_eq!(lines[1..5], ["0 0 0"; 4]);
    assert_eq!(lines[5..7], ["refused 11 3", "refused 11 4096"]);
    assert_eq!(lines[7..], ["refused 2 2"; 7]);
}

#[test]
fn stale_and_missing_files_are_named() {
    let books = Folder::with("stale-books", &[("a.book", &to_bytes(&EXAMPLE_1))]);
    let to = Folder::new("stale-crate");
    let shelf = Shelf::of(books.at()).unwrap();
    assert_eq!(shelf.write(to.at()), Ok(()));
    assert_eq!(shelf.check(to.at()), Ok(()));
    assert_eq!(to.text("stdout"), lines_1());
    to.file("stdout", "2 6\n");
    to.remove("stdin");
    let faults = shelf.check(to.at()).unwrap_err();
    let faults: Vec<&str> = faults.lines().collect();
    assert!(faults[0].starts_with(&to.path("stdin")), "{faults:?}");
    let stale = to.path("stdout") + ": stale, not what the books give";
    assert_eq!(faults[1..], [stale]);
    assert!(Shelf::of(&books.at().join("none")).is_err());
    assert!(shelf.write(&to.at().join("none")).is_err());
}

//! The commands: what they print, and that bad input gives a message and never a panic.

mod common;

use common::{complains, host, names, output, printed, Folder, EXAMPLE_1, LISTING_1};
use host::words;
use std::fs;
use std::io::Write;
use std::path::Path;
use std::process::Stdio;

/// Example 1 as a `.words` text.
fn text_1() -> String {
    let (header, rest) = EXAMPLE_1.split_at(8);
    format!("{}  # the header\n   {}", words::line(header), words::line(rest))
}

/// What is printed for it.
fn line_1() -> String {
    words::line(&LISTING_1) + "\n"
}

#[test]
fn words_translate_and_rehearse() {
    let folder = Folder::new("translate");
    let text = folder.file("1.words", text_1());
    let book = folder.path("1.book");
    assert_eq!(printed(&["words", &text, &book]), "");
    let bytes = folder.read("1.book");
    assert_eq!(bytes, words::to_bytes(&EXAMPLE_1));
    assert_eq!(output(&["words", &text]).stdout, bytes);
    assert_eq!(printed(&["translate", &book]), line_1());

    let mut child = host(&["translate"])
        .stdin(Stdio::piped())
        .stdout(Stdio::piped())
        .spawn()
        .expect("the command runs");
    let mut input = child.stdin.take().expect("a pipe");
    input.write_all(&bytes).expect("the book is taken");
    drop(input);
    let answer = child.wait_with_output().expect("an answer");
    assert_eq!(answer.stdout, line_1().as_bytes());
    assert_eq!(output(&["translate"]).stdout, b"refused 1 0\n");

    let uneven = folder.file("uneven.book", &bytes[..51]);
    assert_eq!(printed(&["translate", &uneven]), "refused 1 0\n");
    let schedule = folder.file("schedule", words::to_bytes(&[1, 1, 0]));
    assert_eq!(printed(&["rehearse", &book, &schedule]), "1 2\n");
    assert_eq!(printed(&["rehearse", &uneven, &schedule]), "refused 1 0\n");
    assert_eq!(printed(&["rehearse", &book, &uneven]), "refused 1 0\n");
    assert_eq!(printed(&["rehearse", &book, &book]), "refused 11 0\n");
}

#[test]
fn narrate() {
    let folder = Folder::new("narrate");
    let narration = folder.file(
        "1.narration",
        "party A knows A, B, K\nparty B knows A, B, K\nB -> A: N\nA -> B: {N, B}K\n",
    );
    let book = folder.path("1.book");
    assert_eq!(printed(&["narrate", &narration, &book]), "");
    assert_eq!(folder.read("1.book"), words::to_bytes(&EXAMPLE_1));
    assert_eq!(output(&["narrate", &narration]).stdout, words::to_bytes(&EXAMPLE_1));
    // Nothing is written over its source.
    let text = folder.file("1.words", text_1());
    for (command, source) in [("narrate", &narration), ("words", &text)] {
        let before = fs::read(source).expect("the source");
        assert!(complains(&[command, source, source]).contains("not written over"));
        assert_eq!(fs::read(source).expect("the source"), before);
    }
}

#[test]
fn random_books() {
    let folder = Folder::new("random");
    let books = folder.path("books");
    assert_eq!(printed(&["random", "7", "12", &books]), "");
    let books = Path::new(&books);
    let names = names(books);
    let expected: Vec<String> = (0..12).map(|number| format!("{number:05}.book")).collect();
    assert_eq!(names, expected);
    for (name, bytes) in names.iter().zip(host::random::books(7, 12)) {
        assert_eq!(fs::read(books.join(name)).expect("the book"), bytes);
    }
}

#[test]
fn help() {
    let text = printed(&[]);
    assert_eq!(printed(&["help"]), text);
    for command in [
        "translate",
        "rehearse",
        "narrate",
        "words",
        "books",
        "shelf",
        "requests",
        "edits",
        "random",
        "compare",
        "frames",
        "bench",
        "routes",
    ] {
        assert!(text.contains(&format!("host {command} ")), "{command}");
    }
}

#[test]
fn bad_input() {
    let folder = Folder::new("bad");
    let missing = folder.path("missing");
    let binary = folder.file("binary", [0xff, 0xfe, 0, 1]);
    let words = folder.file("words", "1 2 three");
    let directory = folder.path("");
    for command in ["translate", "narrate", "words"] {
        assert!(complains(&[command, &missing]).contains("missing"));
        complains(&[command, &directory]);
    }
    complains(&["narrate", &binary]);
    complains(&["words", &binary]);
    assert!(complains(&["words", &words]).contains("three"));
    complains(&["rehearse", &missing, &words]);
    complains(&["rehearse", &words, &missing]);
    complains(&["books", &missing]);
    complains(&["books", "--check", &missing]);
    complains(&["shelf", &missing, &directory]);
    complains(&["shelf", "--check", &missing, &directory]);
    complains(&["shelf", "--check", &directory]);
    complains(&["shelf", &directory]);
    complains(&["random", "x", "1", &missing]);
    complains(&["random", "1", "-1", &missing]);
    complains(&["random", "1", "1", &binary]);
    complains(&["random", "1"]);
    complains(&["compare", "program"]);
    complains(&["frames"]);
    complains(&["frames", &missing]);
    complains(&["frames", &binary, "some"]);
    complains(&["compare", &missing, &binary]);
    complains(&["compare", "program", "--random", "1"]);
    complains(&["compare", "program", &directory]);
    complains(&["translate", "one", "two"]);
    // What people read of a book, the workbench tells.
    for command in ["show", "summary", "sources", "judge"] {
        assert!(complains(&[command, &words]).contains("isn't clear"));
    }
    assert!(complains(&["nothing", "like", "it"]).contains("nothing"));
}

#[test]
fn shelf() {
    let folder = Folder::new("shelf");
    let text = folder.file("1.words", text_1());
    printed(&["words", &text, &folder.path("1.book")]);
    let at = folder.path("");
    let said = |done: &str| format!("1 books on the shelf, {done} {at}\n");
    assert_eq!(printed(&["shelf", &at, &at]), said("written to"));
    assert_eq!(printed(&["shelf", "--check", &at, &at]), said("current in"));
    assert_eq!(folder.text("stdout").lines().nth(1), Some("2 6"));
    folder.file("stdin", "");
    assert!(complains(&["shelf", "--check", &at, &at]).contains("stale"));
}

/// A reader that has gone away is an error like any other.
#[test]
fn closed_pipe() {
    let folder = Folder::new("pipe");
    let text = folder.file("1.words", text_1());
    let book = folder.path("1.book");
    printed(&["words", &text, &book]);
    for arguments in [&["translate", &book][..], &["words", &text], &["help"]] {
        let (reader, writer) = std::io::pipe().expect("a pipe");
        drop(reader);
        let child = host(arguments).stdout(writer).stderr(Stdio::piped()).spawn();
        let answer = child.and_then(|child| child.wait_with_output()).expect("it ends");
        let message = String::from_utf8_lossy(&answer.stderr).into_owned();
        assert_eq!(answer.status.code(), Some(2), "{message}");
        assert!(message.starts_with("host: standard output"), "{message}");
    }
}

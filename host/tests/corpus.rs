//! The folder of example books: current, and each book with the kind of answer it stands for.

mod common;

use common::{top, Folder};
use host::book::{read, LONGEST};
use host::corpus::{check, write};
use host::files;
use host::narration::narrate;
use host::translate::{print, programs, Event, Image};
use host::words;
use std::fs;
use std::path::PathBuf;

fn books() -> PathBuf {
    top().join("books")
}

/// The files of the folder with this extension, by the name of the book.
fn of_kind(extension: &str) -> Vec<(String, PathBuf)> {
    let files = files::ending(&books(), extension).unwrap().into_iter();
    let named = |path: PathBuf| (path.file_stem().unwrap().to_string_lossy().into_owned(), path);
    files.map(named).collect()
}

fn listing(name: &str) -> String {
    let line = fs::read_to_string(books().join(format!("{name}.listing"))).unwrap();
    line.strip_suffix('\n').expect(name).to_string()
}

#[test]
fn the_folder_is_current() {
    let sources = of_kind("narration").len() + of_kind("words").len();
    assert_eq!(check(&books()), Ok(sources));
}

/// Books that can't be played, or not by the small program, and don't say so in their names.
const REFUSED: &[(&str, &str)] = &[
    ("full-placeholders", "refused 12 991722"),
    ("listing-too-long", "refused 12 16385"),
    ("protocol-beta-other-form", "refused 10 2 7"),
    ("sts-one-form", "refused 10 2 16"),
    ("trial-sender-is-receiver", "refused 8 0"),
    ("trial-sending-n-itself", "refused 10 1 2"),
];

#[test]
fn every_book_has_its_kind_of_answer() {
    for (name, _) in of_kind("listing") {
        let answer = listing(&name);
        let refused = answer.strip_prefix("refused ");
        let number = refused.and_then(|refused| refused.split(' ').next());
        if let Some((_, expected)) = REFUSED.iter().find(|(refused, _)| *refused == name) {
            assert_eq!(answer, *expected, "{name}");
        } else if let Some(expected) = name.strip_prefix("refusal-") {
            assert_eq!(number, expected.split('-').next(), "{name}");
        } else if name.starts_with("unplayable-") {
            assert!(matches!(number, Some("10" | "13")), "{name}");
        } else {
            assert_eq!(refused, None, "{name}");
        }
    }
}

/// A source says what it is, and an unplayable one why.
#[test]
fn every_source_begins_with_a_comment() {
    for (name, path) in of_kind("narration").into_iter().chain(of_kind("words")) {
        let text = fs::read_to_string(path).unwrap();
        assert!(text.starts_with("# "), "{name}");
        let comments = text.lines().take_while(|line| line.starts_with('#'));
        let comments: String = comments.collect();
        let answer = listing(&name);
        for number in ["10", "13"] {
            if answer.starts_with(&format!("refused {number} ")) {
                let reason = format!("refusal {number}");
                assert!(comments.to_lowercase().contains(&reason), "{name}");
            }
        }
        // Refusal 13 is of parties that make nothing alone.
        if answer.starts_with("refused 13") {
            assert!(text.contains(" makes nothing"), "{name}");
        }
    }
}

/// Tags that make nothing: those that can be played, and in the two that can't the tag's own nonce.
#[test]
fn the_tags() {
    let (mut played, mut refused) = (0, Vec::new());
    for (name, path) in of_kind("narration") {
        let text = fs::read_to_string(path).unwrap();
        if text.contains("party Tag makes nothing") {
            let answer = listing(&name);
            match answer.strip_prefix("refused ") {
                Some(refusal) => refused.push((name, refusal.to_string())),
                None => played += 1,
            }
        }
    }
    assert_eq!(played, 7);
    let expected = [
        ("unplayable-tag-iso-three-pass", "13 1 4"),
        ("unplayable-tag-randomized-hash-lock", "13 1 5"),
    ];
    assert_eq!(
        refused,
        expected.map(|(name, refusal)| (name.to_string(), refusal.to_string()))
    );
}

/// A mark only refuses: books that are played with a party that makes nothing are played as if it might make.
#[test]
fn marks_are_in_no_program() {
    let mut marked = 0;
    for (name, path) in of_kind("narration") {
        let text = fs::read_to_string(path).unwrap();
        if text.contains(" makes nothing") && !listing(&name).starts_with("refused") {
            let book = narrate(&text.replace(" makes nothing", "")).expect(&name);
            assert_eq!(print(&words::to_bytes(&book.words())), listing(&name), "{name}");
            marked += 1;
        }
    }
    assert_eq!(marked, 8);
}

/// Document 01's trials, word for word, and document 02's: those of its order of receiving, of its marks, and of END's
/// steps.
const TRIALS: &[(&str, &str)] = &[
    ("trial-smallest", "1 3 2 6 0"),
    (
        "example-1",
        "2 5 20 25 27 3 0 0 1 2 1 1 3 2 0 2 1 0 0 1 6 1 3 0 0 \
         1 3 2 0 1 0 3 3 1 0 1 5 0 1 2 0 2 4 1 0 3 4 2 0 1 6 0",
    ),
    ("unplayable-unopened-nonce", "refused 10 1 3"),
    ("trial-public-half", "2 5 10 15 9 1 2 2 0 1 4 0 2 6 0 3 0 0 1 6 1 3 0 0"),
    (
        "trial-partner-no-row",
        "2 5 16 21 13 3 0 0 1 5 0 1 1 5 0 1 6 1 4 1 0 1 4 2 0 1 3 1 0 3 0 4 6 0",
    ),
    (
        "trial-stored-operation",
        "2 5 12 17 9 1 2 2 0 1 2 0 1 0 2 6 0 3 0 0 1 6 1 3 0 0",
    ),
    (
        "trial-sent-on",
        "3 7 12 19 14 33 9 1 3 2 0 1 2 0 1 0 3 6 0 3 0 0 1 2 1 1 1 0 6 1 4 0 0 3 1 0 1 6 1 4 0 1",
    ),
    ("trial-sending-n-itself", "refused 10 1 2"),
    ("trial-no-messages", "2 5 5 10 6 2 0 0 6 0 3 0 0 0 6 0"),
    ("trial-sender-is-receiver", "refused 8 0"),
    ("trial-row-1022", "1 3 2 6 0"),
    ("refusal-5", "refused 5 1023"),
    (
        "trial-taught-nonce",
        "2 5 37 42 34 1 2 1 3 2 0 1 3 1 0 2 0 3 2 1 1 0 2 2 2 1 3 1 0 2 0 3 3 3 0 1 4 0 0 3 6 0 \
         3 0 0 1 3 1 1 1 3 2 2 1 5 2 3 1 1 1 2 3 1 1 3 6 3 4 0 0 2 1 1 3 3 2",
    ),
    ("unplayable-taught-key", "refused 10 4 3"),
    (
        "trial-makes-nothing",
        "2 5 43 48 31 1 3 2 0 1 0 3 3 1 0 3 5 0 3 2 0 2 4 3 0 3 4 4 0 1 4 1 2 0 1 0 3 4 2 2 0 0 3 2 5 0 6 0 \
         3 0 0 1 2 1 3 3 2 0 2 1 0 0 1 2 0 1 1 0 2 0 0 2 2 0 6 1 3 0 0",
    ),
    (
        "trial-end-steps",
        "2 5 53 58 55 1 3 2 0 2 2 0 1 0 3 0 3 3 1 0 1 1 6 1 8 1 10 2 2 2 3 2 0 1 3 1 0 1 0 6 0 8 0 10 \
         1 11 2 3 2 0 3 0 11 6 1 5 0 1 \
         3 0 0 2 1 5 2 1 1 0 5 3 2 2 2 5 2 4 2 0 1 5 4 6 1 0 1 3 3 7 2 4 7 1 1 \
         6 6 4 0 0 3 1 0 6 6 2 8 5 2 10 3 2 11 8 3",
    ),
    (
        "trial-given-and-received",
        "2 5 22 27 30 2 0 3 0 1 0 3 0 6 3 1 0 2 4 1 0 6 6 1 5 0 1 \
         3 0 0 3 4 0 0 1 4 1 0 3 5 2 3 1 0 4 2 1 2 1 3 0 6 6 1 5 3 0",
    ),
    (
        "trial-made-and-received",
        "2 5 59 64 60 1 3 2 0 1 3 1 0 1 0 3 3 1 0 2 4 0 0 3 4 1 2 0 1 0 3 2 2 1 3 1 0 1 0 3 \
         3 3 2 1 5 2 3 2 0 1 4 3 0 3 2 4 1 1 4 6 1 6 4 3 \
         3 0 0 1 5 0 1 1 0 1 2 1 2 1 1 2 0 1 1 1 3 2 2 1 5 2 3 1 0 1 4 3 1 1 \
         1 6 2 3 1 3 2 0 1 1 1 0 6 3 4 4 1 4 4 0 6 6 1 3 1 0",
    ),
    ("unplayable-maker", "refused 13 0 3"),
    ("unplayable-maker-then-taken", "refused 13 0 3"),
    ("unplayable-taken-then-maker", "refused 10 0 1"),
    ("unplayable-maker-at-an-earlier-step", "refused 13 0 3"),
    ("unplayable-taken-at-an-earlier-step", "refused 10 0 2"),
    ("refusal-7-mark-2", "refused 7 1"),
    ("refusal-7-mark-largest", "refused 7 0"),
    ("refusal-3-three-word-parties", "refused 3 5"),
    ("refusal-3-longest-and-one", "refused 3 8"),
    (
        "trial-empty-cipher",
        "3 7 24 31 18 49 12 2 0 2 3 0 0 2 3 0 0 3 2 1 2 3 0 0 2 3 0 0 3 6 0 \
         3 0 0 2 5 0 2 0 0 5 5 1 2 0 0 3 6 0 3 1 0 2 6 2 7 0 1 8 1 1",
    ),
    (
        "trial-open-before-compare",
        "2 5 27 32 39 1 5 2 0 3 3 1 0 1 0 2 3 2 0 1 0 2 0 5 3 1 0 1 0 5 6 0 \
         3 0 0 3 5 0 3 1 0 1 4 3 0 2 5 1 4 2 0 1 4 4 0 2 5 2 6 1 0 1 4 6 1 5 6 1 5 5 0",
    ),
    (
        "trial-compared-cipher",
        "3 7 36 43 21 64 16 \
         1 8 1 9 2 0 3 3 1 0 2 0 3 3 1 0 8 0 9 3 1 0 8 0 9 2 1 1 3 1 0 2 0 3 6 0 \
         3 0 0 3 4 0 3 1 0 2 0 3 4 2 1 1 6 1 10 1 0 3 1 0 1 5 0 1 1 0 6 4 1 0 3 6 0",
    ),
];

#[test]
fn the_trials() {
    for (name, expected) in TRIALS {
        assert_eq!(listing(name), *expected, "{name}");
    }
}

/// The events that the edges of the folder are there for.
#[test]
fn the_edges_are_reached() {
    let length = |name: &str| listing(name).split(' ').count();
    assert_eq!(length("listing-longest"), 16_384);
    assert!((8_192..16_384).contains(&length("full-ring")));
    let bytes = fs::read(books().join("full-longest.book")).unwrap();
    assert_eq!(bytes.len(), 4 * LONGEST);
    let bytes = fs::read(books().join("refusal-3-longest-and-one.book")).unwrap();
    assert_eq!(bytes.len(), 4 * LONGEST + 4);

    let program = |name: &str| {
        let bytes = fs::read(books().join(format!("{name}.book"))).unwrap();
        let book = read(&words::of_bytes(&bytes).unwrap()).unwrap();
        programs(&book).unwrap().swap_remove(1)
    };
    let events = |name: &str| {
        let own = program(name);
        let opens = own.iter().filter(|event| matches!(event, Event::Open { .. }));
        let checks = own.iter().filter(|event| matches!(event, Event::Check { .. }));
        (opens.count(), checks.count())
    };
    for (name, opens, checks) in [
        ("deep-ciphers", 255, 0),
        ("deep-ciphers-halves", 204, 0),
        ("deep-ciphers-built", 255, 1),
        ("deep-ciphers-compared", 0, 1),
        ("deep-keys", 1, 0),
        ("deep-partner", 1, 0),
    ] {
        assert_eq!(events(name), (opens, checks), "{name}");
    }
    // What B compares is a half 1,022 times over.
    let halves = program("deep-halves").into_iter().find_map(|event| match event {
        Event::Check { image, .. } => Some(image),
        _ => None,
    });
    let mut image = &halves.expect("a CHECK");
    let mut depth = 0;
    while let Image::Public(part) = image {
        (image, depth) = (part, depth + 1);
    }
    assert_eq!((depth, image), (1022, &Image::Itself(0)));
}

#[test]
fn stale_and_stray_files_are_named() {
    let folder = Folder::with(
        "stale-and-stray",
        &[("one.narration", b"party A\n"), ("two.words", b"1 2 3\n")],
    );
    let dir = folder.at();
    assert_eq!(write(dir), Ok(2));
    assert_eq!(check(dir), Ok(2));
    assert_eq!(folder.text("one.listing"), "1 3 2 6 0\n");
    assert_eq!(folder.read("two.book"), words::to_bytes(&[1, 2, 3]));
    assert_eq!(folder.text("two.listing"), "refused 1 0\n");

    folder.file("one.listing", "1 3 2 6 0");
    folder.file("two.narration", "party A\n");
    folder.file("three.listing", "refused 1 0\n");
    folder.file("three.narration", "party A\nA -> B: N\n");
    folder.remove("one.book");
    let faults = check(dir).unwrap_err();
    let faults: Vec<&str> = faults.lines().collect();
    assert_eq!(faults[0], "two.words: a second source of one book");
    assert!(faults[1].starts_with("one.book: "), "{faults:?}");
    assert_eq!(faults[2], "one.listing: stale, not what one.narration gives");
    let unknown = "expected a party's name, found `B`, which no party line declares";
    assert_eq!(faults[3], format!("three.narration: line 2, column 6: {unknown}"));
    assert_eq!(faults[4], "two.book: stale, not what two.narration gives");
    assert_eq!(faults[5], "two.listing: stale, not what two.narration gives");
    assert_eq!(faults[6], "three.listing: stray, no source gives it");
    assert_eq!(faults.len(), 7);
    assert!(check(&dir.join("none")).is_err());
}

//! The workbench against the second implementation: over `books/` and 2,000 random books, what it tells of a book is what the
//! host finds by itself, on terms. The host is used in this test alone, and never by the program.

use host::translate::{self as theirs, Translation};
use host::{book, narration as narrations, random, words};
use std::ffi::OsStr;
use std::fs;
use std::path::{Path, PathBuf};
use workbench::input::Input;
use workbench::listing::{self, Event, Image};
use workbench::proved::{rehearse, Answers, Source};
use workbench::question::can_build;
use workbench::report;
use workbench::subject::{open, Opened, Subject};
use workbench::told::Names;

const SEED: u64 = 21;
const RANDOM: usize = 2_000;

fn books() -> PathBuf {
    Path::new(env!("CARGO_MANIFEST_DIR")).join("../books")
}

fn of_kind(kind: &str) -> Vec<PathBuf> {
    let mut files: Vec<PathBuf> = (fs::read_dir(books()).expect("the folder of books"))
        .map(|entry| entry.expect("a file").path())
        .filter(|path| path.extension() == Some(OsStr::new(kind)))
        .collect();
    files.sort();
    files
}

fn handed(name: &str, bytes: Vec<u8>) -> Input {
    Input {
        name: name.to_string(),
        path: None,
        bytes,
    }
}

/// Whether the workbench takes the bytes for a text. A book never is one, as its header has zeros.
fn is_text(bytes: &[u8]) -> bool {
    std::str::from_utf8(bytes).is_ok_and(|text| !text.contains('\0'))
}

/// What is told of a book that is handed in: its refusal's number and place, or nothing.
fn compared(name: &str, bytes: &[u8]) -> Option<(u32, Vec<u32>)> {
    let own = words::of_bytes(bytes).and_then(|words| book::read(&words));
    match open(&handed(name, bytes.to_vec())).unwrap_or_else(|failure| panic!("{name}: {failure}")) {
        Opened::Mistaken { .. } => panic!("{name}: a book that is taken for a text"),
        Opened::Refused(refusal) => {
            let told = (u32::from(refusal.number()), vec![refusal.place()]);
            let own = own.expect_err(name);
            assert_eq!(told, (own.number, own.place.clone()), "{name}");
            Some(told)
        }
        Opened::Subject(subject) => {
            let own = own.unwrap_or_else(|refusal| panic!("{name}: {refusal}"));
            assert_eq!(subject.book, own, "{name}");
            answered(name, &subject, &own)
        }
    }
}

fn answered(name: &str, subject: &Subject, own: &book::Book) -> Option<(u32, Vec<u32>)> {
    let answers = Answers::of(subject).unwrap_or_else(|failure| panic!("{name}: {failure}"));
    match (answers, theirs::programs(own)) {
        (Err(refusal), Err(own)) => {
            let told = (
                u32::from(refusal.number()),
                vec![refusal.place(), refusal.row().unwrap_or(0)],
            );
            assert_eq!(told, (own.number, own.place), "{name}");
            Some(told)
        }
        (Ok(answers), Ok(programs)) => {
            assert_eq!(answers.words, theirs::listing(&programs), "{name}");
            assert!(answers.programs.len() == programs.len());
            for (ours, theirs) in answers.programs.iter().zip(&programs) {
                assert!(
                    ours.len() == theirs.len() && ours.iter().zip(theirs).all(same_event),
                    "{name}"
                );
            }
            known(name, &answers, own);
            told(name, subject, &answers);
            played(name, subject, &answers);
            None
        }
        (ours, theirs) => panic!("{name}: playable here {}, there {}", ours.is_ok(), theirs.is_ok()),
    }
}

fn same_event((ours, theirs): (&Event, &theirs::Event)) -> bool {
    use theirs::Event as Their;
    match (ours, theirs) {
        (Event::New { row }, Their::New { row: own }) => row == own,
        (Event::Send { step, images }, Their::Send { step: own, images: all }) => {
            step == own && images.len() == all.len() && images.iter().zip(all).all(same_image)
        }
        (
            Event::Receive { step, first, n },
            Their::Receive {
                step: s,
                first: f,
                n: m,
            },
        ) => (step, first, n) == (s, f, m),
        (
            Event::Check { placeholder, image },
            Their::Check {
                placeholder: own,
                image: other,
            },
        ) => placeholder == own && same_image((image, other)),
        (
            Event::Open {
                placeholder,
                first,
                n,
                key,
            },
            Their::Open {
                placeholder: own,
                first: f,
                n: m,
                key: other,
            },
        ) => (placeholder, first, n) == (own, f, m) && same_image((key, other)),
        (Event::End { stored }, Their::End { stored: own }) => {
            let triples = stored.iter().map(|own| [own.row, own.placeholder, own.step]);
            triples.eq(own.iter().copied())
        }
        _ => false,
    }
}

fn same_image((ours, theirs): (&Image, &theirs::Image)) -> bool {
    use theirs::Image as Their;
    let all = |ours: &[Image], theirs: &[Their]| ours.len() == theirs.len() && ours.iter().zip(theirs).all(same_image);
    match (ours, theirs) {
        (Image::Itself(row), Their::Itself(own)) => row == own,
        (Image::Placeholder(number), Their::Placeholder(own)) => number == own,
        (Image::Operation(tag, arguments), Their::Operation(own, other)) => tag == own && all(arguments, other),
        (Image::Cipher(key, contents), Their::Cipher(own, other)) => same_image((key, own)) && all(contents, other),
        (Image::Public(part), Their::Public(own)) | (Image::Private(part), Their::Private(own)) => {
            same_image((part, own))
        }
        _ => false,
    }
}

/// How each party holds each row, and whether it can build it.
fn known(name: &str, answers: &Answers, own: &book::Book) {
    let walk = Translation::whole(own).expect("it was played");
    for party in 0..own.parties.len() as u32 {
        for row in 0..own.rows.len() as u32 {
            let theirs = match walk.source(party, row) {
                Some(theirs::Source::Given) => Source::Given,
                Some(theirs::Source::Made { step }) => Source::Made { step },
                Some(theirs::Source::Stored { step, placeholder }) => Source::Stored { step, placeholder },
                None => Source::Not,
            };
            assert_eq!(answers.source(party, row), theirs, "{name}, party {party}, row {row}");
            let held = |row: u32| answers.source(party, row) != Source::Not;
            let ours = can_build(own, row, held).unwrap_or_else(|failure| panic!("{name}: {failure}"));
            let theirs = walk.dictionary(party).image(&walk.terms[row as usize]);
            // What a party can know from the start is enough for every one of these.
            assert_eq!(ours, Some(theirs.is_some()), "{name}, party {party}, row {row}");
        }
    }
}

/// Every event is told.
fn told(name: &str, subject: &Subject, answers: &Answers) {
    let names = Names::of(subject);
    for program in &answers.programs {
        let told = names
            .program(program)
            .unwrap_or_else(|failure| panic!("{name}: {failure}"));
        assert_eq!(told.len(), program.len(), "{name}");
    }
}

/// A round of every party, five times.
fn played(name: &str, subject: &Subject, answers: &Answers) {
    let parties = answers.programs.len() as u32;
    let moves: Vec<u32> = (0..5).flat_map(|_| 0..parties).collect();
    let ours = rehearse(subject, &moves).unwrap_or_else(|refusal| panic!("{name}: {refusal}"));
    let theirs = host::bytes::done(&subject.bytes, &words::to_bytes(&moves));
    assert_eq!(Ok(ours), theirs, "{name}");
}

#[test]
fn the_books() {
    let files = of_kind("book");
    assert!(files.len() > 100);
    for file in files {
        let bytes = fs::read(&file).expect("a book");
        if !is_text(&bytes) {
            compared(&file.display().to_string(), &bytes);
        }
    }
}

#[test]
fn random_books() {
    let (mut playable, mut stopped, mut refused) = (0, 0, 0);
    for (number, bytes) in random::books(SEED, RANDOM).enumerate() {
        if is_text(&bytes) {
            continue;
        }
        match compared(&format!("random book {number}"), &bytes) {
            None => playable += 1,
            Some((10 | 13, _)) => stopped += 1,
            Some(_) => refused += 1,
        }
    }
    println!("{playable} playable, {stopped} refused as unplayable, {refused} refused as no books");
    assert!(playable > 400 && stopped > 100 && refused > 200);
}

/// A narration gives the book that the host makes of it, and is printed with its own names.
#[test]
fn the_narrations() {
    for file in of_kind("narration") {
        let name = file.display().to_string();
        let text = fs::read_to_string(&file).expect("a text");
        let own = narrations::narrate(&text).expect(&name);
        let Ok(Opened::Subject(subject)) = open(&handed(&name, text.clone().into_bytes())) else {
            panic!("{name}: no narration");
        };
        assert_eq!(
            subject.bytes,
            fs::read(file.with_extension("book")).expect("its book"),
            "{name}"
        );
        answered(&name, &subject, &own);
        for party in 0..own.parties.len() as u32 {
            assert!(text.contains(&format!("party {}", subject.party(party))), "{name}");
            assert_eq!(subject.number(subject.party(party)), Some(party), "{name}");
        }
    }
}

/// Whatever the reader refuses by 1 to 9, the report says which rule is broken.
#[test]
fn every_refusal_has_its_reason() {
    let mut refused = [0; 10];
    let mut see = |bytes: &[u8]| {
        let Some(refusal) = nghiralum::listing(bytes).err().filter(|own| own.number() < 10) else {
            return;
        };
        let report = report::no_book("random", bytes, refusal);
        assert_eq!(report.diagnostics[0].notes.len(), 1, "{refusal}");
        refused[usize::from(refusal.number())] += 1;
    };
    for bytes in random::books(5, 1_000) {
        see(&bytes);
    }
    // Small books with words changed to telling values.
    let mut random = random::Random::new(9);
    for book in random::well_formed(11, 1_000, 1) {
        let mut words = book.words();
        for _ in 0..random.between(1, 3) {
            let at = random.below(words.len());
            let near = words[at].wrapping_add(1);
            let far = random.below(20) as u32;
            words[at] = *random.pick(&[0, near, near.wrapping_sub(2), far, u32::MAX, 1 << 31]);
        }
        see(&words::to_bytes(&words));
        words.truncate(random.below(words.len() + 1));
        see(&words::to_bytes(&words));
    }
    for (number, met) in refused.iter().enumerate().skip(1) {
        assert!(*met > 0, "refusal {number} was not met: {refused:?}");
    }
}

/// The reason that is noted of each book of `books/` that is none.
#[test]
fn reasons() {
    let told = |name: &str| {
        let bytes = fs::read(books().join(name).with_extension("book")).expect("a book");
        let refusal = nghiralum::listing(&bytes).expect_err(name);
        report::no_book(name, &bytes, refusal).diagnostics[0].notes.join("; ")
    };
    for (name, reason) in [
        ("refusal-1", "7 words, fewer than 8"),
        ("refusal-1-empty", "0 words, fewer than 8"),
        ("refusal-2-parties", "17 parties, where 1 to 16 are allowed"),
        ("refusal-3-length", "the length is 17, by the counts it is 16"),
        (
            "refusal-3-offset",
            "the offset of the steps is 17, by the counts it is 16",
        ),
        ("refusal-4-first", "first 1 is not 0, the sum of the counts before it"),
        ("refusal-4-kind", "kind 5 is none of 0 to 4"),
        ("refusal-4-large-tag", "tag 65536 is over 65535"),
        ("refusal-4-leaves-pool", "its list leaves the pool of 1 word"),
        ("refusal-4-nine-arguments", "count 9, where kind 1 has 0 to 8 parts"),
        ("refusal-4-own-part", "part 1 is no row before it"),
        ("refusal-4-tag", "tag 7, where only an operation has one other than 0"),
        ("refusal-5", "size 1025 is over 1024"),
        ("refusal-6", "it agrees in kind, tag and parts with row 1"),
        ("refusal-7-known-no-row", "known 1 is no row"),
        ("refusal-7-mark-2", "mark 2 is neither 1, may make, nor 0, may not"),
        ("refusal-7-no-atom", "name 0 is no atom"),
        ("refusal-7-order", "known 0 after 1, where the order is increasing"),
        ("refusal-7-repeated-name", "name 0 is the name of party 0 already"),
        ("refusal-8-message-no-row", "message 2 is no row"),
        ("refusal-8-no-party", "receiver 2 is no party"),
        ("refusal-9", "the counts add up to 0, and the pool has 1 word"),
        ("trial-sender-is-receiver", "sender and receiver are both party 0"),
    ] {
        assert_eq!(told(name), reason, "{name}");
    }
    let refusal = nghiralum::listing(&[0; 7]).expect_err("no book");
    let notes = &report::no_book("odd", &[0; 7], refusal).diagnostics[0].notes;
    assert_eq!(notes[..], ["7 bytes are no whole words of four"]);
}

/// One altered word of a listing is never read as the same: what is decoded is encoded to other words, or to none.
#[test]
fn altered_words_of_listings() {
    for name in ["example-1", "example-2", "wide-mouthed-frog"] {
        let book = fs::read(books().join(name).with_extension("book")).expect("a book");
        let listing_words = words::of_bytes(&nghiralum::listing(&book).expect("a listing")).expect("words");
        for at in 0..listing_words.len() {
            for change in [1, 2, 0x100, 0x8000_0000] {
                let mut other = listing_words.clone();
                other[at] ^= change;
                let read = listing::decode(&other).filter(|programs| listing::encode(programs) == other);
                let same = read.is_some_and(|programs| listing::encode(&programs) == listing_words);
                assert!(!same, "{name}, word {at}");
            }
        }
    }
}

//! Calls as an editor makes them: on the repository's books, on bytes of any length, into buffers of any length, and
//! on the stack of a default thread.

use nghiralum::{held_after, judge, listing, rehearse, summary, translate, write_summary, Refusal, Verdict};
use std::fs;
use std::path::{Path, PathBuf};
use std::thread;

/// What `./translate` lends, in bytes: the listings in files are for so much.
const LENT: usize = 4 * 16_384;
const MARK: u8 = 0xa5;

/// The words of a party: name, first, count, mark.
const PARTY: usize = 4;
/// The words of the longest book.
const LONGEST: usize = 12_616;

/// One row, one party, no step.
const SMALLEST: [u32; 16] = [1, 8, 1, 12, 0, 16, 0, 16, 0, 0, 0, 0, 0, 0, 0, 1];

fn bytes(words: &[u32]) -> Vec<u8> {
    words.iter().flat_map(|word| word.to_le_bytes()).collect()
}

fn words(bytes: &[u8]) -> Vec<u32> {
    let word = |four: &[u8]| u32::from_le_bytes(four.try_into().expect("four bytes"));
    bytes.chunks_exact(4).map(word).collect()
}

/// The files of the repository's books, sorted.
fn shelf() -> Vec<PathBuf> {
    let folder = Path::new(env!("CARGO_MANIFEST_DIR")).join("../books");
    let files = fs::read_dir(folder).expect("the books");
    let files = files.map(|file| file.expect("a file").path());
    let mut books: Vec<PathBuf> = files
        .filter(|file| file.extension().is_some_and(|own| own == "book"))
        .collect();
    books.sort();
    assert!(books.len() > 100);
    books
}

fn book(name: &str) -> Vec<u8> {
    let folder = Path::new(env!("CARGO_MANIFEST_DIR")).join("../books");
    fs::read(folder.join(name)).expect(name)
}

/// Number, place and row of what must be a refusal.
fn refused<T: std::fmt::Debug>(answer: Result<T, Refusal>) -> (u8, u32, Option<u32>) {
    let refusal = answer.expect_err("a refusal");
    (refusal.number(), refusal.place(), refusal.row())
}

/// An answer as `./translate` prints it.
fn line(answer: Result<usize, Refusal>, out: &[u8]) -> String {
    let words = match answer {
        Ok(length) => words(&out[..length]),
        Err(refusal) => {
            let numbers = [u32::from(refusal.number()), refusal.place()];
            numbers.into_iter().chain(refusal.row()).collect()
        }
    };
    let told: Vec<String> = words.iter().map(u32::to_string).collect();
    let head = if answer.is_err() { "refused " } else { "" };
    format!("{head}{}\n", told.join(" "))
}

#[test]
fn every_book_of_the_shelf() {
    for file in shelf() {
        let book = fs::read(&file).expect("a book");
        let expected = fs::read_to_string(file.with_extension("listing")).expect("its listing");
        let mut out = vec![MARK; LENT];
        let answer = translate(&book, &mut out);
        assert_eq!(line(answer, &out), expected, "{}", file.display());
        let written = answer.unwrap_or(0);
        assert!(out[written..].iter().all(|byte| *byte == MARK), "{}", file.display());
        match (answer, listing(&book)) {
            (Ok(length), Ok(listing)) => assert!(listing == out[..length], "{}", file.display()),
            (Err(refusal), Ok(listing)) => assert_eq!(refusal.bytes_needed(), Some(listing.len())),
            (answer, listing) => assert_eq!(answer.err(), listing.err(), "{}", file.display()),
        }
    }
}

#[test]
fn room_exact_and_short_with_spare_bytes() {
    let book = book("example-1.book");
    let listing = listing(&book).expect("a listing");
    assert_eq!(listing.len(), 208);
    for room in 0..=listing.len() + 9 {
        let mut out = vec![MARK; room];
        let answer = translate(&book, &mut out);
        if room < listing.len() {
            assert_eq!(refused(answer), (12, 52, None));
            assert!(out.iter().all(|byte| *byte == MARK));
        } else {
            assert_eq!(answer, Ok(listing.len()));
            assert!(out[..listing.len()] == listing);
            assert!(out[listing.len()..].iter().all(|byte| *byte == MARK));
        }
    }
    for room in 0..12 {
        let mut out = vec![MARK; room];
        let answer = rehearse(&book, &bytes(&[1, 1, 0]), &mut out);
        if room < 8 {
            assert_eq!(refused(answer), (12, 2, None));
            assert!(out.iter().all(|byte| *byte == MARK));
        } else {
            assert_eq!(answer, Ok(8));
            assert_eq!(words(&out[..8]), [1, 2]);
            assert!(out[8..].iter().all(|byte| *byte == MARK));
        }
    }
}

/// Example 1's summary, worked out by hand: both know rows 0 to 2, and hold row 3 from step 0 on, one as what it made
/// and one as what came; the cipher, row 4, is built by the one and opened by the other, and held by neither.
const SUMMARY_1: [u32; 13] = [2, 5, 2, 0, 0, 0, 1, 3, 0, 0, 0, 1, 3];

#[test]
fn a_summary_in_any_room() {
    let book = book("example-1.book");
    let expected = bytes(&SUMMARY_1);
    assert_eq!(summary(&book), Ok(expected.clone()));
    for room in 0..=expected.len() + 9 {
        let mut out = vec![MARK; room];
        let answer = write_summary(&book, &mut out);
        if room < expected.len() {
            assert_eq!(refused(answer), (12, 13, None));
            assert!(out.iter().all(|byte| *byte == MARK));
        } else {
            assert_eq!(answer, Ok(expected.len()));
            assert!(out[..expected.len()] == expected);
            assert!(out[expected.len()..].iter().all(|byte| *byte == MARK));
        }
    }
}

#[test]
fn questions() {
    let summary = bytes(&SUMMARY_1);
    for party in 0..2 {
        for step in 0..2 {
            let answers = [0, 1, 2, 3, 4].map(|row| held_after(&summary, party, row, step));
            assert_eq!(answers, [true, true, true, true, false].map(Ok));
        }
    }
    // A word is compared with the step and 1: given at the start, from step 0, 1 and 2 on, and never.
    let made = bytes(&[1, 5, 3, 0, 1, 2, 3, 4]);
    for row in 0..5 {
        for step in 0..3 {
            assert_eq!(held_after(&made, 0, row, step), Ok(row <= step + 1));
        }
    }
    // The largest words that there are.
    let largest = bytes(&[1, 1, u32::MAX, u32::MAX]);
    assert_eq!(held_after(&largest, 0, 0, u32::MAX - 1), Ok(true));
    assert_eq!(held_after(&largest, 0, 0, u32::MAX - 2), Ok(false));
}

#[test]
fn questions_that_are_refused() {
    let summary = bytes(&SUMMARY_1);
    // The first number that is out of range, at its bound and at the largest.
    for (party, row, step, place) in [
        (2, 5, 3, 2),
        (1, 5, 3, 5),
        (1, 4, 3, 3),
        (1, 4, 2, 2),
        (u32::MAX, 0, 0, u32::MAX),
        (0, u32::MAX, 0, u32::MAX),
        (0, 0, u32::MAX, u32::MAX),
    ] {
        assert_eq!(refused(held_after(&summary, party, row, step)), (21, place, None));
    }
    // The length comes first; the place is how many words were handed in.
    for words in 0..13 {
        assert_eq!(
            refused(held_after(&summary[..4 * words], 9, 9, 9)),
            (20, words as u32, None)
        );
    }
    let longer = [&summary[..], &[0; 4]].concat();
    assert_eq!(refused(held_after(&longer, 0, 0, 0)), (20, 14, None));
    let most = u32::MAX;
    for counts in [[most, most], [1 << 16, 1 << 16], [1 << 31, 2], [most, 1], [1, most]] {
        for rest in 0..4 {
            let mut words = counts.to_vec();
            words.resize(3 + rest, 1);
            assert_eq!(
                refused(held_after(&bytes(&words), 0, 0, 0)),
                (20, 3 + rest as u32, None)
            );
        }
    }
    // Bytes that make no words come before that.
    for length in (0..summary.len()).filter(|length| length % 4 != 0) {
        assert_eq!(refused(held_after(&summary[..length], 9, 9, 9)), (1, 0, None));
    }
    // Without a step no question is in range.
    let empty = nghiralum::summary(&bytes(&SMALLEST)).expect("a summary");
    assert_eq!(words(&empty), [1, 1, 0, 1]);
    assert_eq!(refused(held_after(&empty, 0, 0, 0)), (21, 0, None));
    assert_eq!(refused(held_after(&bytes(&[0, 7, 3]), 4, 0, 0)), (21, 4, None));
}

/// Every book has a summary or the refusal that its listing has. A row that END names is held from the step on that END
/// tells, and from the start on what a party knows.
#[test]
fn summaries_of_the_shelf() {
    let mut longest = 0;
    for file in shelf() {
        let book = fs::read(&file).expect("a book");
        let (summary, listing) = match (summary(&book), listing(&book)) {
            (Ok(summary), Ok(listing)) => (words(&summary), words(&listing)),
            (summary, listing) => {
                assert_eq!(summary.err(), listing.err(), "{}", file.display());
                continue;
            }
        };
        let [parties, rows, steps] = [summary[0], summary[1], summary[2]].map(|count| count as usize);
        assert_eq!(summary.len(), 3 + parties * rows, "{}", file.display());
        assert_eq!(parties, listing[0] as usize);
        assert!(summary[3..].iter().all(|word| *word as usize <= steps + 1));
        let book = words(&book);
        for party in 0..parties {
            let own = &summary[3 + party * rows..][..rows];
            let record = book[3] as usize + PARTY * party;
            let known = book[7] as usize + book[record + 1] as usize..;
            let known = &book[known][..book[record + 2] as usize];
            let given = (0..rows as u32).filter(|row| own[*row as usize] == 0);
            assert!(given.eq(known.iter().copied()), "{}, party {party}", file.display());
            // The last of a part are END's triples of row, placeholder, step.
            let (offset, count) = (listing[1 + 2 * party] as usize, listing[2 + 2 * party] as usize);
            let part = &listing[offset..offset + count];
            let later = own.iter().filter(|word| (1..=steps as u32).contains(*word)).count();
            let stored = (0..=later).find(|stored| part[..count - 3 * stored].ends_with(&[6, *stored as u32]));
            let stored = stored.expect("no more are stored than are held");
            for triple in part[count - 3 * stored..].chunks_exact(3) {
                assert_eq!(own[triple[0] as usize], triple[2] + 1, "{}", file.display());
            }
        }
        longest = longest.max(summary.len());
    }
    assert_eq!(longest, 16_387);
}

/// Slices may begin anywhere.
#[test]
fn at_any_address() {
    let book = book("example-1.book");
    let listing = listing(&book).expect("a listing");
    for shift in 0..8 {
        let mut shifted = vec![MARK; shift];
        shifted.extend(&book);
        let mut out = vec![MARK; shift + listing.len()];
        assert_eq!(translate(&shifted[shift..], &mut out[shift..]), Ok(listing.len()));
        assert!(out[shift..] == listing);
        let mut shifted = vec![MARK; shift];
        shifted.extend(bytes(&SUMMARY_1));
        assert_eq!(held_after(&shifted[shift..], 1, 3, 0), Ok(true));
        assert_eq!(held_after(&shifted[shift..], 1, 4, 1), Ok(false));
        let part = bytes(PARTS_1[1]);
        let mut moved = vec![MARK; shift];
        moved.extend(&part);
        for other in 0..4 {
            let mut shifted = vec![MARK; other];
            shifted.extend(&book);
            assert_eq!(judge(&shifted[other..], 1, &moved[shift..]), Ok(Verdict::Same));
            assert_eq!(judge(&shifted[other..], 0, &moved[shift..]), Ok(Verdict::Differs(0)));
        }
    }
}

#[test]
fn odd_lengths_come_before_all_else() {
    let book = book("example-1.book");
    let one = (1, 0, None);
    for odd in 1..4 {
        let mut longer = book.clone();
        longer.resize(book.len() + odd, 0);
        for odd_book in [&longer[..], &book[..book.len() - odd], &book[..odd]] {
            assert_eq!(refused(translate(odd_book, &mut [])), one);
            assert_eq!(refused(listing(odd_book)), one);
            assert_eq!(refused(summary(odd_book)), one);
            assert_eq!(refused(write_summary(odd_book, &mut [])), one);
            assert_eq!(refused(rehearse(odd_book, &[], &mut [])), one);
            assert_eq!(refused(rehearse(odd_book, &vec![9; odd], &mut [])), one);
        }
        // An odd schedule comes before what is wrong with the book.
        let odd_schedule = vec![9; 4 + odd];
        assert_eq!(refused(rehearse(&book, &odd_schedule, &mut [0; 64])), one);
        assert_eq!(refused(rehearse(&bytes(&[0; 8]), &odd_schedule, &mut [0; 64])), one);
        let many = vec![0; 4 * 4_097 + odd];
        assert_eq!(refused(rehearse(&book, &many, &mut [0; 64])), one);
    }
    assert_eq!(refused(translate(&[], &mut [])), one);
    assert_eq!(refused(rehearse(&[], &[], &mut [])), one);
}

#[test]
fn books_longer_than_any() {
    assert_eq!(book("full-longest.book").len(), 4 * LONGEST);
    for name in ["example-1.book", "full-longest.book"] {
        let book = book(name);
        for more in [1, 2, LONGEST, 1_000_000] {
            let mut longer = book.clone();
            longer.resize(book.len() + 4 * more, 0);
            assert_eq!(refused(listing(&longer)), (3, 8, None), "{name}");
            assert_eq!(refused(summary(&longer)), (3, 8, None), "{name}");
            assert_eq!(refused(rehearse(&longer, &[], &mut [0; 64])), (3, 8, None), "{name}");
        }
    }
    // Nothing is said of the length early.
    let mut counts = bytes(&SMALLEST);
    counts[8] = 17;
    counts.resize(80_000, 0);
    assert_eq!(refused(listing(&counts)), (2, 2, None));
}

#[test]
fn moves() {
    let book = book("example-1.book");
    let mut out = [MARK; 64];
    let schedule = |count: usize, party: u32| bytes(&vec![party; count]);
    assert_eq!(rehearse(&book, &schedule(4_096, 1), &mut out), Ok(8));
    let mut out = [MARK; 64];
    for (schedule, place) in [
        (schedule(4_097, 1), 4_096),
        (schedule(5_000, 7), 4_096),
        (schedule(4_096, 2), 0),
        (bytes(&[0, 1, u32::MAX, 0]), 2),
        (bytes(&[0, 1, 1, 256]), 3),
    ] {
        assert_eq!(refused(rehearse(&book, &schedule, &mut out)), (11, place, None));
        assert_eq!(refused(rehearse(&book, &schedule, &mut [])), (11, place, None));
    }
    assert_eq!(out, [MARK; 64]);
}

#[test]
fn refusals_of_books() {
    let mut met = Vec::new();
    for file in shelf() {
        let Err(refusal) = listing(&fs::read(&file).expect("a book")) else {
            continue;
        };
        met.push(refusal.number());
        let told = refusal.to_string();
        assert!(told.starts_with(&format!("refusal {}: ", refusal.number())), "{told}");
        assert!(!told.contains("no sentence"), "{told}");
    }
    met.sort();
    met.dedup();
    assert_eq!(met, [1, 2, 3, 4, 5, 6, 7, 8, 9, 10, 13]);
    let refusal = listing(&book("unplayable-private-half.book")).expect_err("unplayable");
    assert!(refusal.row().is_some());
}

/// A tag that makes nothing: refused where it would have to make its own nonce, by every call and in any room, before a
/// bad move and before too little room; played where the reader makes the nonce.
#[test]
fn a_tag_that_makes_nothing() {
    let own_nonce = book("unplayable-tag-randomized-hash-lock.book");
    let thirteen = (13, 1, Some(5));
    assert_eq!(refused(listing(&own_nonce)), thirteen);
    assert_eq!(refused(summary(&own_nonce)), thirteen);
    for room in [0, 3, 64, LENT] {
        let mut out = vec![MARK; room];
        assert_eq!(refused(translate(&own_nonce, &mut out)), thirteen);
        assert_eq!(refused(write_summary(&own_nonce, &mut out)), thirteen);
        for moves in [&[][..], &[0, 1, 2], &[99], &[0; 4_097]] {
            assert_eq!(refused(rehearse(&own_nonce, &bytes(moves), &mut out)), thirteen);
        }
        assert!(out.iter().all(|byte| *byte == MARK));
    }
    assert!(listing(&book("tag-randomized-hash-lock.book")).is_ok());

    // The mark is the last word of a party's: where the tag may make, its own nonce is played too.
    let mut words = words(&own_nonce);
    let mark = words[3] as usize + PARTY - 1;
    assert_eq!(words[mark], 0);
    words[mark] = 1;
    assert!(listing(&bytes(&words)).is_ok());
    for wrong in [2, u32::MAX] {
        words[mark] = wrong;
        assert_eq!(refused(listing(&bytes(&words))), (7, 0, None));
    }
}

/// Of the atoms that can't be made the first is told, with 10 if it is taken and else 13.
#[test]
fn ten_and_thirteen() {
    for (name, expected) in [
        ("unplayable-maker", (13, 0, Some(3))),
        ("unplayable-maker-then-taken", (13, 0, Some(3))),
        ("unplayable-taken-then-maker", (10, 0, Some(1))),
        ("unplayable-maker-at-an-earlier-step", (13, 0, Some(3))),
        ("unplayable-taken-at-an-earlier-step", (10, 0, Some(2))),
    ] {
        assert_eq!(refused(listing(&book(&format!("{name}.book")))), expected, "{name}");
    }
}

/// Rust gives a thread 2 MB where nobody says otherwise; every book of the shelf runs on them, the deepest too: halves
/// 1,022 deep, and ciphers whose receiving goes 256 deep.
#[test]
fn the_deepest_books_on_a_default_thread() {
    let calls = || {
        let mut deep = 0;
        for file in shelf() {
            let book = fs::read(&file).expect("a book");
            let Ok(listing) = listing(&book) else {
                continue;
            };
            let name = file.file_name().expect("a name").to_string_lossy();
            let is_deep = name.starts_with("deep-");
            deep += usize::from(is_deep);
            let parties = listing[0];
            let moves: Vec<u32> = (0..4_096).map(|number| number % u32::from(parties)).collect();
            let done = rehearse(&book, &bytes(&moves), &mut [0; 64]);
            assert_eq!(done, Ok(4 * usize::from(parties)), "{}", file.display());
            assert!(summary(&book).is_ok(), "{}", file.display());
            for (party, part) in parts(&listing).iter().enumerate() {
                let told = |part: &[u32]| judge(&book, party as u32, &bytes(part));
                assert_eq!(told(part), Ok(Verdict::Same), "{name}");
                let mut longer = part.clone();
                longer.resize(part.len() + if is_deep { 1_000_000 } else { 1 }, 6);
                assert_eq!(told(&longer), Ok(Verdict::Differs(part.len())), "{name}");
            }
        }
        deep
    };
    let thread = thread::Builder::new().stack_size(2 << 20).spawn(calls);
    let deep = thread.expect("a thread").join().expect("no call fails");
    assert!(deep >= 7);
}

/// Example 1's listing in docs/RULES.md, T3: the parts of A and of B.
const PARTS_1: [&[u32]; 2] = [
    &[3, 0, 0, 1, 2, 1, 1, 3, 2, 0, 2, 1, 0, 0, 1, 6, 1, 3, 0, 0],
    &[
        1, 3, 2, 0, 1, 0, 3, 3, 1, 0, 1, 5, 0, 1, 2, 0, 2, 4, 1, 0, 3, 4, 2, 0, 1, 6, 0,
    ],
];

/// The parts of a listing, a party each.
fn parts(listing: &[u8]) -> Vec<Vec<u32>> {
    let words = words(listing);
    let part = |party: usize| words[words[1 + 2 * party] as usize..][..words[2 + 2 * party] as usize].to_vec();
    (0..words[0] as usize).map(part).collect()
}

/// The words of a part that are placeholders: the first of a run with the run's length, or one that is used.
fn placeholders(part: &[u32]) -> Vec<(usize, Option<u32>)> {
    let mut found = Vec::new();
    let mut at = 0;
    while at < part.len() {
        let mut images = 0;
        match part[at] {
            1 => at += 2,
            2 => (images, at) = (part[at + 2], at + 3),
            3 => {
                found.push((at + 2, Some(part[at + 3])));
                at += 4;
            }
            4 => {
                found.push((at + 1, None));
                (images, at) = (1, at + 2);
            }
            5 => {
                found.extend([(at + 1, None), (at + 2, Some(part[at + 3]))]);
                (images, at) = (1, at + 4);
            }
            _ => {
                found.extend((at + 3..part.len()).step_by(3).map(|stored| (stored, None)));
                at = part.len();
            }
        }
        while images > 0 {
            images -= 1;
            match part[at] {
                0 => at += 2,
                1 => {
                    found.push((at + 1, None));
                    at += 2;
                }
                2 => (images, at) = (images + part[at + 2], at + 3),
                3 => (images, at) = (images + part[at + 1] + 1, at + 2),
                _ => (images, at) = (images + 1, at + 1),
            }
        }
    }
    found
}

/// A part under other names. Ours count from 0 on, run by run, so that a place of `names` is our placeholder; a run of none
/// keeps its number.
fn renamed(part: &[u32], names: &[u32]) -> Vec<u32> {
    let mut out = part.to_vec();
    for (at, run) in placeholders(part) {
        if run != Some(0) {
            out[at] = names[part[at] as usize];
        }
    }
    out
}

/// The lengths of a part's runs.
fn runs(part: &[u32]) -> Vec<u32> {
    let found = placeholders(part);
    found.into_iter().filter_map(|(_, run)| run).collect()
}

/// Our parts are the same as ours, and so they are with all numbers moved up, up to the largest word too, with runs from
/// above downwards, and with runs between earlier ones.
#[test]
fn renamed_parts_of_the_shelf() {
    let mut most = 0;
    for file in shelf() {
        let book = fs::read(&file).expect("a book");
        let Ok(listing) = listing(&book) else {
            continue;
        };
        for (party, part) in parts(&listing).iter().enumerate() {
            let told = |part: &[u32]| judge(&book, party as u32, &bytes(part));
            assert_eq!(told(part), Ok(Verdict::Same), "{}", file.display());
            let runs = runs(part);
            let count: u32 = runs.iter().sum();
            most = most.max(count);
            for from in [1, 70_000, u32::MAX - count + u32::from(count > 0)] {
                let names: Vec<u32> = (0..count).map(|number| from + number).collect();
                assert_eq!(told(&renamed(part, &names)), Ok(Verdict::Same), "{}", file.display());
            }
            let mut top = 0;
            let falling = runs.iter().flat_map(|n| {
                top += n;
                (0..*n).map(move |number| u32::MAX - (top - 1) + number)
            });
            let falling: Vec<u32> = falling.collect();
            assert_eq!(told(&renamed(part, &falling)), Ok(Verdict::Same), "{}", file.display());
            // The first run at the top, and the second below all others. The largest program takes too long for this.
            if (1..10_000).contains(&count) {
                let first = runs.iter().copied().find(|n| *n > 0).unwrap_or(0);
                let mut names: Vec<u32> = (0..count).map(|number| 2 * first + number).collect();
                names[..first as usize].copy_from_slice(&falling[..first as usize]);
                assert_eq!(told(&renamed(part, &names)), Ok(Verdict::Same), "{}", file.display());
            }
        }
    }
    assert_eq!(most, 232_960);
}

/// The last run of the largest program there is, moved down by one, begins with a number that is another's name already.
#[test]
fn a_run_past_65535_that_overlaps() {
    let book = book("full-placeholders.book");
    let listing = listing(&book).expect("a listing");
    let (party, part) = parts(&listing)
        .into_iter()
        .enumerate()
        .max_by_key(|(_, part)| part.len())
        .expect("a party");
    let found = placeholders(&part);
    let last = found
        .iter()
        .rev()
        .find(|(_, run)| run.is_some_and(|n| n > 0))
        .expect("a run")
        .0;
    assert!(part[last] > 65_535);
    let mut moved = part.clone();
    moved[last] -= 1;
    assert_eq!(judge(&book, party as u32, &bytes(&moved)), Ok(Verdict::Differs(last)));
    moved[last] += 2;
    assert!(matches!(judge(&book, party as u32, &bytes(&moved)), Ok(Verdict::Differs(place)) if place > last));
}

/// Each word of a part is changed. Where it is the first of a run, the run is called otherwise, which shows where one of
/// its numbers is used; any other change shows at once.
#[test]
fn a_word_changed_at_each_place() {
    for name in ["example-1", "example-2", "example-3", "kerberos", "trial-smallest"] {
        let book = book(&format!("{name}.book"));
        for (party, part) in parts(&listing(&book).expect("a listing")).iter().enumerate() {
            let found = placeholders(part);
            for (at, word) in part.iter().enumerate() {
                let told = |new: u32| {
                    let mut changed = part.clone();
                    changed[at] = new;
                    judge(&book, party as u32, &bytes(&changed))
                };
                let here = Ok(Verdict::Differs(at));
                let run = found
                    .iter()
                    .find_map(|(place, run)| run.filter(|n| *place == at && *n > 0));
                let Some(n) = run else {
                    for new in [word.wrapping_add(1), word.wrapping_sub(1), u32::MAX, !word] {
                        assert_eq!(told(new), here, "{name}, party {party}, word {at}");
                    }
                    continue;
                };
                let used = |(place, run): &&(usize, Option<u32>)| {
                    run.is_none() && *place > at && (*word..*word + n).contains(&part[*place])
                };
                let later = match found.iter().find(used) {
                    Some((place, _)) => Ok(Verdict::Differs(*place)),
                    None => Ok(Verdict::Same),
                };
                assert_eq!(told(1 << 20), later, "{name}, party {party}, word {at}");
                assert_eq!(told(u32::MAX - n + 1), later, "{name}, party {party}, word {at}");
                // One past the largest word, and numbers that stand for others already.
                if n > 1 {
                    assert_eq!(told(u32::MAX - n + 2), here, "{name}, party {party}, word {at}");
                }
                if *word > 0 {
                    for new in [word - 1, 0] {
                        assert_eq!(told(new), here, "{name}, party {party}, word {at}");
                    }
                }
            }
        }
    }
}

#[test]
fn parts_cut_and_lengthened() {
    let book = book("example-1.book");
    for (party, part) in PARTS_1.iter().enumerate() {
        let told = |part: &[u32]| judge(&book, party as u32, &bytes(part));
        assert_eq!(told(part), Ok(Verdict::Same));
        for length in 0..part.len() {
            assert_eq!(told(&part[..length]), Ok(Verdict::Differs(length)));
        }
        for more in [1, 2, 1_000_000] {
            for word in [0, 6, u32::MAX] {
                let mut longer = part.to_vec();
                longer.resize(part.len() + more, word);
                assert_eq!(told(&longer), Ok(Verdict::Differs(part.len())));
            }
        }
        // What is behind the first difference is not looked at.
        for word in 0..8 {
            let other = if part[0] == word {
                Verdict::Differs(1)
            } else {
                Verdict::Differs(0)
            };
            assert_eq!(told(&vec![word; 1_000_000]), Ok(other));
        }
    }
}

/// Bytes that make no words come first, then what is wrong with the book, then the party.
#[test]
fn listings_that_are_not_judged() {
    let book = book("example-1.book");
    let part = bytes(PARTS_1[0]);
    let one = (1, 0, None);
    for odd in 1..4 {
        let longer = [&part[..], &[0; 3][..odd]].concat();
        for listing in [&longer[..], &part[..part.len() - odd], &part[..odd]] {
            assert_eq!(refused(judge(&book, 0, listing)), one);
            assert_eq!(refused(judge(&book, 9, listing)), one);
            assert_eq!(refused(judge(&book[odd..], 9, listing)), one);
            assert_eq!(refused(judge(&bytes(&[0; 8]), 9, listing)), one);
        }
        assert_eq!(refused(judge(&book[odd..], 0, &part)), one);
    }
    assert_eq!(refused(judge(&[], 0, &[])), one);
    assert_eq!(refused(judge(&bytes(&[0; 8]), 9, &part)), (2, 0, None));
    for party in [2, 3, 16, 256, 0x1_0000, 0x100_0000, u32::MAX] {
        for listing in [&part[..], &[]] {
            assert_eq!(refused(judge(&book, party, listing)), (22, party, None));
        }
    }
    for file in shelf() {
        let book = fs::read(&file).expect("a book");
        if let Err(refusal) = listing(&book) {
            assert_eq!(judge(&book, 99, &part), Err(refusal), "{}", file.display());
        }
    }
}

/// Calls share nothing, so that threads may call at the same time.
#[test]
fn from_many_threads() {
    let book = book("kerberos.book");
    let expected = listing(&book).expect("a listing");
    thread::scope(|scope| {
        for _ in 0..4 {
            scope.spawn(|| {
                for _ in 0..50 {
                    assert!(listing(&book).as_ref() == Ok(&expected));
                }
            });
        }
    });
}

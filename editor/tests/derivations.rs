//! Derivations as a caller checks them: every request about them that the program `calls` is run on, against the line that
//! the host has for it; damaged at every word; in long and odd slices; and from many threads.

use nghiralum::{check, keeps_apart, Finding, Refusal};
use std::fs;
use std::path::Path;
use std::thread;

fn bytes(words: &[u32]) -> Vec<u8> {
    words.iter().flat_map(|word| word.to_le_bytes()).collect()
}

/// The example of docs/DERIVATIONS.md.
const ASKED: [u32; 14] = [1, 9, 1, 0, 9, 1, 1, 10, 1, 0, 10, 1, 1, 5];
const LINES: [[u32; 9]; 6] = [
    [1, 0, 0, 0, 56, 0, 0, 0, 0],
    [16, 0, 0, 0, 56, 67, 0, 0, 0],
    [18, 1, 0, 0, 56, 64, 0, 71, 1],
    [18, 2, 0, 0, 56, 61, 0, 68, 2],
    [17, 3, 0, 0, 56, 58, 0, 68, 1],
    [17, 4, 0, 0, 56, 55, 0, 0, 0],
];
const THINGS: [u32; 19] = [9, 1, 0, 9, 1, 1, 10, 1, 0, 10, 1, 1, 5, 1, 1, 0, 1, 1, 1];

fn example() -> Vec<u32> {
    [&[6], LINES.concat().as_slice(), &THINGS].concat()
}

fn with(changes: &[(usize, u32)]) -> Vec<u8> {
    let mut words = example();
    for &(place, word) in changes {
        words[place] = word;
    }
    bytes(&words)
}

/// Number and place of what must be a refusal.
fn refused<T: std::fmt::Debug>(answer: Result<T, Refusal>) -> (u8, u32) {
    let refusal = answer.expect_err("a refusal");
    (refusal.number(), refusal.place())
}

/// An answer as the program `calls` prints it.
fn line(answer: Result<Finding, Refusal>) -> String {
    match answer {
        Ok(Finding::Safe) => String::from("safe"),
        Ok(Finding::Bad(line)) => format!("bad {line}"),
        Ok(Finding::Another) => String::from("another"),
        Err(refusal) => format!("refused {} {}", refusal.number(), refusal.place()),
    }
}

fn apart_line(answer: Result<bool, Refusal>) -> String {
    match answer {
        Ok(true) => String::from("yes"),
        Ok(false) => String::from("no"),
        Err(refusal) => format!("refused {} {}", refusal.number(), refusal.place()),
    }
}

/// The requests of a stream: each function's number and its slices; behind those of a question and of a listing that is
/// judged stand numbers.
fn requests(mut stream: &[u8]) -> Vec<(u32, Vec<Vec<u8>>)> {
    fn word(stream: &mut &[u8]) -> u32 {
        let (four, rest) = stream.split_first_chunk().expect("a word");
        *stream = rest;
        u32::from_le_bytes(*four)
    }
    let mut all = Vec::new();
    while !stream.is_empty() {
        let function = word(&mut stream);
        let (slices, numbers) = match function {
            1 | 2 | 15 | 16 => (1, 0),
            8 | 10 => (1, 3),
            4 | 6 => (3, 0),
            11 | 12 => (2, 1),
            _ => (2, 0),
        };
        let item = if [5, 6, 9, 10, 12, 14, 16].contains(&function) {
            1
        } else {
            4
        };
        let mut given = Vec::new();
        for _ in 0..slices {
            let length = item * word(&mut stream) as usize;
            given.push(stream[..length].to_vec());
            stream = &stream[length.next_multiple_of(4)..];
        }
        stream = &stream[4 * numbers..];
        all.push((function, given));
    }
    all
}

/// The host wrote the stream and its lines: the derivations of `processes/` and their neighbours, and random and damaged
/// ones.
#[test]
fn as_the_host_answers() {
    let calls = Path::new(env!("CARGO_MANIFEST_DIR")).join("../crates/calls");
    let stream = fs::read(calls.join("stdin")).expect("the requests");
    let lines = fs::read_to_string(calls.join("stdout")).expect("their lines");
    let requests = requests(&stream);
    assert_eq!(requests.len(), lines.lines().count());
    let mut met = [0; 4];
    for ((function, given), expected) in requests.iter().zip(lines.lines()) {
        let own = match function {
            13 | 14 => line(check(&given[0], &given[1])),
            15 | 16 => apart_line(keeps_apart(&given[0])),
            _ => continue,
        };
        assert_eq!(own, expected, "function {function}");
        met[*function as usize - 13] += 1;
    }
    assert!(met.iter().all(|count| *count > 100), "{met:?}");
}

#[test]
fn the_example_and_its_neighbours() {
    let asked = bytes(&ASKED);
    assert_eq!(check(&asked, &with(&[])), Ok(Finding::Safe));
    assert_eq!(
        check(&asked, &with(&[(70, 1), (73, 0), (26, 68), (44, 71)])),
        Ok(Finding::Safe)
    );
    assert_eq!(check(&[], &with(&[])), Ok(Finding::Another));
    assert_eq!(check(&asked, &[]), Ok(Finding::Another));
    assert_eq!(check(&asked, &with(&[(29, 4)])), Ok(Finding::Bad(3)));
    assert_eq!(check(&asked, &with(&[(45, 2)])), Ok(Finding::Bad(4)));
    assert_eq!(check(&asked, &with(&[(0, 7)])), Ok(Finding::Bad(6)));
    assert_eq!(check(&asked, &with(&[(0, 1_024)])), Ok(Finding::Bad(6)));
    assert_eq!(check(&asked, &with(&[(1, 0)])), Ok(Finding::Bad(0)));
    assert_eq!(refused(check(&asked, &with(&[(27, 65)]))), (24, 65));
    assert_eq!(refused(check(&asked, &with(&[(0, 1_025), (27, 65)]))), (24, 1_025));
    assert_eq!(refused(check(&asked, &with(&[(0, u32::MAX)]))), (24, u32::MAX));
    assert_eq!(keeps_apart(&asked), Ok(true));
    assert_eq!(keeps_apart(&[]), Ok(false));
}

/// Refusal 1 before all else.
#[test]
fn odd_lengths() {
    let (asked, many) = (bytes(&ASKED), with(&[(0, 1_025)]));
    for odd in 1..4 {
        assert_eq!(refused(check(&asked[odd..], &many)), (1, 0));
        assert_eq!(refused(check(&asked, &many[..odd])), (1, 0));
        assert_eq!(refused(check(&asked, &many[odd..])), (1, 0));
        assert_eq!(refused(check(&[7; 5][..odd], &[7; 5][..odd])), (1, 0));
        assert_eq!(refused(keeps_apart(&asked[odd..])), (1, 0));
    }
}

/// Slices may begin anywhere, and be longer than what they spell.
#[test]
fn at_any_address_and_of_any_length() {
    for shift in 0..8 {
        let asked = [vec![9; shift], bytes(&ASKED)].concat();
        let derivation = [vec![9; 8 - shift], with(&[])].concat();
        assert_eq!(check(&asked[shift..], &derivation[8 - shift..]), Ok(Finding::Safe));
        assert_eq!(keeps_apart(&asked[shift..]), Ok(true));
    }
    let mut longer = with(&[]);
    longer.resize(4 << 20, 0xff);
    assert_eq!(check(&bytes(&ASKED), &longer), Ok(Finding::Safe));
    assert_eq!(check(&longer, &longer), Ok(Finding::Another));
    assert_eq!(keeps_apart(&longer), Ok(false));
}

/// Terms that are nested a million deep take no more stack than others.
#[test]
fn nested_deep_on_a_default_thread() {
    let deep = || {
        for code in [2, 3] {
            // begin (((..; and what is asked likewise.
            let mut words = example();
            words[46 + 5] = words.len() as u32;
            words.push(9);
            words.extend(vec![code; 1_000_000]);
            let mut asked = vec![1, 9];
            asked.extend(vec![code; 1_000_000]);
            assert_eq!(check(&bytes(&asked), &bytes(&words)), Ok(Finding::Bad(5)));
            assert_eq!(keeps_apart(&bytes(&asked)), Ok(false));
        }
    };
    thread::spawn(deep).join().expect("no stack is missing");
}

/// Each word in turn is another: it ends with an answer, and from many threads it is the same.
#[test]
fn a_word_changed_at_each_place() {
    let answers = || -> Vec<String> {
        (0..example().len())
            .flat_map(|place| [0, 1, 2, 5, 33, 65, 1_025, u32::MAX].map(|word| (place, word)))
            .map(|change| line(check(&bytes(&ASKED), &with(&[change]))))
            .collect()
    };
    let own = answers();
    for kind in ["safe", "another", "bad 0", "bad 5", "refused 24 65", "refused 24 1025"] {
        assert!(own.iter().any(|line| line == kind), "{kind}");
    }
    let threads: Vec<_> = (0..4).map(|_| thread::spawn(answers)).collect();
    for thread in threads {
        assert!(thread.join().expect("an answer") == own);
    }
}

//! Requests and their answers: the stream's form, what is said of each call, and what is wrong with a stream.

mod common;

use common::{complains, host, output, top, Folder, EXAMPLE_1, LISTING_1};
use host::requests::{self, Calls, Request, FUNCTIONS};
use host::words::{self, of_bytes, to_bytes};
use std::collections::BTreeSet;
use std::io::Write;
use std::process::{Output, Stdio};

/// Example 1's summary, as tests/summary.rs works it out.
const SUMMARY_1: [u32; 13] = [2, 5, 2, 0, 0, 0, 1, 3, 0, 0, 0, 1, 3];

/// What a stream of words is answered, and what is wrong with it.
fn answered(stream: &[u8]) -> (String, Result<usize, String>) {
    let mut out = Vec::new();
    let answered = requests::answer(&mut &stream[..], &mut out);
    (String::from_utf8(out).unwrap(), answered)
}

/// A slice of words, as it stands in a stream.
fn slice(words: &[u32]) -> Vec<u32> {
    [&[words.len() as u32], words].concat()
}

/// A slice of bytes, as it stands in a stream, and what fills it up.
fn octets(bytes: &[u8], fill: u8) -> Vec<u8> {
    let mut slice = to_bytes(&[bytes.len() as u32]);
    slice.extend(bytes);
    slice.resize(slice.len().next_multiple_of(4), fill);
    slice
}

fn line_1() -> String {
    words::line(&LISTING_1) + "\n"
}

#[test]
fn each_function() {
    let book = slice(&EXAMPLE_1);
    let stream = [
        &[1][..],
        &book,
        &[2],
        &book,
        &[3],
        &book,
        &slice(&[9; 52]),
        &[3],
        &book,
        &slice(&[9; 50]),
        &[4],
        &book,
        &slice(&[1, 1, 0]),
        &slice(&[9; 3]),
        &[4],
        &book,
        &slice(&[1, 2]),
        &slice(&[]),
        &[4],
        &book,
        &slice(&[]),
        &slice(&[9]),
    ];
    let lines = format!(
        "accepted\naccepted\n{}refused 12 52\n1 2\nrefused 11 1\nrefused 12 2\n",
        line_1()
    );
    assert_eq!(answered(&to_bytes(&stream.concat())), (lines, Ok(7)));
}

/// The functions on bytes: counts of bytes, the last word filled up, and what fills it up isn't looked at.
#[test]
fn on_bytes() {
    let book = to_bytes(&EXAMPLE_1);
    for fill in [0, 255] {
        let stream = [
            to_bytes(&[5]),
            octets(&book, fill),
            octets(&[9; 4 * 52 + 3], fill),
            to_bytes(&[5]),
            octets(&book, fill),
            octets(&[9; 4 * 52 - 1], fill),
            to_bytes(&[5]),
            octets(&book[..book.len() - 1], fill),
            octets(&[], fill),
            to_bytes(&[6]),
            octets(&book, fill),
            octets(&to_bytes(&[1, 1, 0]), fill),
            octets(&[9; 9], fill),
            to_bytes(&[6]),
            octets(&book, fill),
            octets(&[1, 0, 0, 0, 1, 0, 0, 0, 0], fill),
            octets(&[9; 8], fill),
        ];
        let lines = format!("{}refused 12 52\nrefused 1 0\n1 2\nrefused 1 0\n", line_1());
        assert_eq!(answered(&stream.concat()), (lines, Ok(5)));
    }
    let most = [&to_bytes(&[5, 65_536])[..], &[0; 65_536], &to_bytes(&[0])].concat();
    assert_eq!(answered(&most), ("refused 2 0\n".to_string(), Ok(1)));
    let over = answered(&to_bytes(&[5, 65_537])).1;
    assert_eq!(over, Err("request 1: a slice has more than 65536 bytes".to_string()));
}

/// Summaries and questions: the numbers behind a summary are plain words, on bytes too.
#[test]
fn summaries_and_questions() {
    let book = slice(&EXAMPLE_1);
    let summary = slice(&SUMMARY_1);
    let stream = [
        &[7][..],
        &book,
        &slice(&[9; 15]),
        &[7],
        &book,
        &slice(&[9; 12]),
        &[7],
        &slice(&EXAMPLE_1[..EXAMPLE_1.len() - 1]),
        &slice(&[9; 12]),
        &[8],
        &summary,
        &[1, 3, 0],
        &[8],
        &summary,
        &[1, 4, 1],
        &[8],
        &summary,
        &[1, 5, 2],
        &[8],
        &slice(&SUMMARY_1[..12]),
        &[1, 5, 2],
        &[8],
        &slice(&[]),
        &[u32::MAX; 3],
    ];
    let written = words::line(&SUMMARY_1) + "\n";
    let lines = format!("{written}refused 12 13\nrefused 3 8\nyes\nno\nrefused 21 5\nrefused 20 12\nrefused 20 0\n");
    assert_eq!(answered(&to_bytes(&stream.concat())), (lines, Ok(8)));

    let [book, summary] = [&EXAMPLE_1[..], &SUMMARY_1].map(to_bytes);
    let stream = [
        to_bytes(&[9]),
        octets(&book, 255),
        octets(&[9; 4 * 13 + 3], 255),
        to_bytes(&[9]),
        octets(&book, 255),
        octets(&[9; 4 * 13 - 1], 255),
        to_bytes(&[9]),
        octets(&book[1..], 255),
        octets(&[], 255),
        to_bytes(&[10]),
        octets(&summary, 255),
        to_bytes(&[1, 3, 0]),
        to_bytes(&[10]),
        octets(&summary, 255),
        to_bytes(&[0, 4, 0]),
        to_bytes(&[10]),
        octets(&summary, 255),
        to_bytes(&[0, 4, 300]),
        to_bytes(&[10]),
        octets(&summary[..48], 255),
        to_bytes(&[0, 4, 300]),
        to_bytes(&[10]),
        octets(&summary[..47], 255),
        to_bytes(&[0, 4, 300]),
    ];
    let lines = format!("{written}refused 12 13\nrefused 1 0\nyes\nno\nrefused 21 300\nrefused 20 12\nrefused 1 0\n");
    assert_eq!(answered(&stream.concat()), (lines, Ok(8)));
}

/// Listings that are judged: the party's number stands behind them, on bytes too.
#[test]
fn verdicts() {
    let book = slice(&EXAMPLE_1);
    let part = &LISTING_1[25..];
    let stream = [
        &[11][..],
        &book,
        &slice(part),
        &[1],
        &[11],
        &book,
        &slice(part),
        &[0],
        &[11],
        &book,
        &slice(&part[..20]),
        &[1],
        &[11],
        &book,
        &slice(&[]),
        &[2],
        &[11],
        &slice(&EXAMPLE_1[..EXAMPLE_1.len() - 1]),
        &slice(part),
        &[u32::MAX],
    ];
    let lines = "same\ndiffers 0\ndiffers 20\nrefused 22 2\nrefused 3 8\n";
    assert_eq!(answered(&to_bytes(&stream.concat())), (lines.to_string(), Ok(5)));

    let [book, part] = [&EXAMPLE_1[..], part].map(to_bytes);
    let stream = [
        to_bytes(&[12]),
        octets(&book, 255),
        octets(&part, 255),
        to_bytes(&[1]),
        to_bytes(&[12]),
        octets(&book, 255),
        octets(&part[..part.len() - 4], 255),
        to_bytes(&[1]),
        to_bytes(&[12]),
        octets(&book, 255),
        octets(&part[1..], 255),
        to_bytes(&[9]),
        to_bytes(&[12]),
        octets(&book[1..], 255),
        octets(&part, 255),
        to_bytes(&[1]),
        to_bytes(&[12]),
        octets(&book, 255),
        octets(&part, 255),
        to_bytes(&[u32::MAX]),
    ];
    let lines = "same\ndiffers 26\nrefused 1 0\nrefused 1 0\nrefused 22 4294967295\n";
    assert_eq!(answered(&stream.concat()), (lines.to_string(), Ok(5)));
}

/// Acceptance is more than reading: a book that keeps its rules and can't be played, by 10 or by 13.
#[test]
fn read_and_accept_differ() {
    for (name, refusal) in [
        ("unplayable-late-key", "refused 10 2 3\n"),
        ("unplayable-maker", "refused 13 0 3\n"),
    ] {
        let book = top().join(format!("books/{name}.book"));
        let book = slice(&of_bytes(&std::fs::read(book).unwrap()).unwrap());
        let stream = [
            &[1][..],
            &book,
            &[2],
            &book,
            &[3],
            &book,
            &[0],
            &[4],
            &book,
            &[1, 99, 0],
            &[7],
            &book,
            &[0],
            &[11],
            &book,
            &[0, 99],
        ];
        let (lines, count) = answered(&to_bytes(&stream.concat()));
        assert_eq!((lines, count), (format!("accepted\n{}", refusal.repeat(5)), Ok(6)));
    }
}

#[test]
fn what_is_wrong() {
    let good = to_bytes(&[1, 0]);
    let said = |end: &[u8]| {
        let (lines, wrong) = answered(&[&good, end].concat());
        assert_eq!(lines, "refused 1 0\n");
        wrong.unwrap_err()
    };
    let inside = "request 2: standard input ends inside a request";
    assert_eq!(said(&[1]), inside);
    assert_eq!(said(&to_bytes(&[1])), inside);
    assert_eq!(said(&to_bytes(&[3, 0])), inside);
    assert_eq!(said(&to_bytes(&[1, 2, 5])), inside);
    assert_eq!(said(&[&to_bytes(&[1, 1])[..], &[0; 3]].concat()), inside);
    // A request ends with its last number.
    for cut in 1..20 {
        assert_eq!(said(&to_bytes(&[8, 1, 5, 6, 7, 8])[..24 - cut]), inside);
        assert_eq!(said(&to_bytes(&[10, 1, 5, 6, 7, 8])[..24 - cut]), inside);
        assert_eq!(said(&to_bytes(&[11, 1, 5, 1, 6, 7])[..24 - cut]), inside);
        assert_eq!(said(&to_bytes(&[12, 1, 5, 1, 6, 7])[..24 - cut]), inside);
    }
    for number in [0, FUNCTIONS.len() as u32 + 1, u32::MAX] {
        assert_eq!(
            said(&to_bytes(&[number, 0])),
            "request 2: there is no function of this number"
        );
    }
    for count in [16_385, u32::MAX] {
        assert_eq!(
            said(&to_bytes(&[1, count])),
            "request 2: a slice has more than 65536 bytes"
        );
    }
    // As many as are taken.
    let most = [&[1, 16_384][..], &[0; 16_384]].concat();
    assert_eq!(answered(&to_bytes(&most)), ("refused 2 0\n".to_string(), Ok(1)));
    assert_eq!(answered(&[]), (String::new(), Ok(0)));
}

#[test]
fn what_is_written() {
    let folder = Folder::new("requests");
    let book = folder.file("1.book", to_bytes(&EXAMPLE_1));
    let written = |function, slices: &[&str]| of_bytes(&Request::of(function, slices).unwrap().bytes()).unwrap();
    let known = slice(&EXAMPLE_1);
    assert_eq!(written("read", &[&book]), [&[1], &known[..]].concat());
    assert_eq!(written("2", &["="]), [2, 0]);
    assert_eq!(written("translate", &["=3x1", "=2x0,5"]), [3, 3, 1, 1, 1, 3, 0, 0, 5]);
    assert_eq!(
        written("4", &["=", "=0,1,4294967295", "=0x7"]),
        [4, 0, 3, 0, 1, u32::MAX, 0]
    );
    assert_eq!(
        written("5", &["=1,2,3,4,255", "=5x0"]),
        [5, 5, 0x0403_0201, 255, 5, 0, 0]
    );
    let odd = folder.file("odd.book", [1, 2, 3]);
    assert_eq!(
        written("nghiralum_rehearse", &[&odd, "=", "="]),
        [6, 3, 0x0003_0201, 0, 0]
    );
    let wrong = |function, slices: &[&str]| Request::of(function, slices).map(|_| ()).unwrap_err();
    assert!(wrong("rea", &["="]).contains("rehearse"));
    assert!(wrong("read", &[]).contains("1 slices, not 0"));
    for items in ["=x", "=1x", "=4294967296", "=-1", "=1,b", "=99999999x0"] {
        assert!(wrong("read", &[items]).contains("neither"), "{items}");
    }
    assert!(wrong("read", &["nowhere/1.book"]).contains("nowhere"));
    assert!(wrong("5", &["=256", "="]).contains("neither"));
    assert!(wrong("read", &[&odd]).contains("3 bytes are no whole words"));
    // Numbers are plain, behind the slice.
    assert_eq!(
        written("ask", &["=1,1,2", "0", "7", "4294967295"]),
        [8, 3, 1, 1, 2, 0, 7, u32::MAX]
    );
    assert_eq!(
        written("nghiralum_ask", &[&odd, "1", "02", "3"]),
        [10, 3, 0x0003_0201, 1, 2, 3]
    );
    assert_eq!(written("write_summary", &["=", "=1x9"]), [7, 0, 1, 9]);
    assert_eq!(written("nghiralum_summary", &["=", "=1x9"]), [9, 0, 1, 9]);
    assert_eq!(written("judge", &["=1,2", "=6,0", "3"]), [11, 2, 1, 2, 2, 6, 0, 3]);
    assert_eq!(
        written("nghiralum_judge", &[&odd, "=6,0", "3"]),
        [12, 3, 0x0003_0201, 2, 6, 3]
    );
    assert!(wrong("judge", &["=", "="]).contains("2 slices and 1 numbers, not 2"));
    assert!(wrong("judge", &["=", "=", "="]).contains("no number from 0"));
    assert!(wrong("ask", &["=", "1", "2"]).contains("1 slices and 3 numbers, not 3"));
    for number in ["=1", "", "-1", "+1", "4294967296", "x"] {
        assert!(
            wrong("8", &["=", "1", number, "3"]).contains("no number from 0"),
            "{number}"
        );
    }
}

#[test]
fn the_crate_is_current() {
    let calls = Calls::of(&top().join("books"), &top().join("processes")).unwrap();
    assert_eq!(calls.check(&top().join("crates/calls")), Ok(()));
}

/// The stream of the books is answered as it says, and has every kind of answer.
#[test]
fn the_stream_of_the_books() {
    let calls = Calls::of(&top().join("books"), &top().join("processes")).unwrap();
    let (lines, count) = answered(&calls.stdin);
    assert_eq!((lines.as_bytes(), count), (&calls.stdout[..], Ok(calls.requests)));
    assert!(calls.requests < 3_000, "{}", calls.requests);
    for whole in ["accepted", "yes", "no", "refused 12 16387", "same", "differs 0"] {
        assert!(lines.lines().any(|line| line == whole), "{whole}");
    }
    for number in (1..=13).chain(20..=22).chain([24]) {
        let refused = format!("refused {number} ");
        assert!(lines.contains(&refused), "{refused}");
    }
    // Each function, and of the questions each kind of answer on words and on bytes.
    let mut met = BTreeSet::new();
    let mut stream = &calls.stdin[..];
    for line in lines.lines() {
        let number = u32::from_le_bytes(stream[..4].try_into().unwrap());
        Request::next(&mut stream).unwrap();
        let words: Vec<&str> = line.split(' ').take(2).collect();
        met.insert((number, words.join(" ")));
    }
    for function in &FUNCTIONS {
        assert!(
            met.iter().any(|(number, _)| *number == function.number),
            "{}",
            function.name
        );
    }
    for number in [8, 10] {
        for kind in ["yes", "no", "refused 20", "refused 21"] {
            assert!(met.contains(&(number, kind.to_string())), "{number} {kind}");
        }
    }
    for number in [7, 9] {
        for kind in ["refused 2", "refused 10", "refused 13", "refused 12", "2 5"] {
            assert!(met.contains(&(number, kind.to_string())), "{number} {kind}");
        }
    }
    for number in [11, 12] {
        for kind in [
            "same",
            "differs 0",
            "differs 9",
            "refused 2",
            "refused 10",
            "refused 13",
            "refused 22",
        ] {
            assert!(met.contains(&(number, kind.to_string())), "{number} {kind}");
        }
    }
    for number in [13, 14] {
        for kind in ["safe", "another", "bad 0", "bad 1", "refused 24"] {
            assert!(met.contains(&(number, kind.to_string())), "{number} {kind}");
        }
    }
    for number in [15, 16] {
        for kind in ["yes", "no"] {
            assert!(met.contains(&(number, kind.to_string())), "{number} {kind}");
        }
    }
    for number in [10, 12, 14, 16] {
        assert!(met.contains(&(number, "refused 1".to_string())), "{number}");
    }
}

/// Derivations on words and on bytes: the example of docs/DERIVATIONS.md and its neighbours.
#[test]
fn derivations() {
    let asked = [1, 9, 1, 0, 9, 1, 1, 10, 1, 0, 10, 1, 1, 5];
    let lines = [
        [1, 0, 0, 0, 56, 0, 0, 0, 0],
        [16, 0, 0, 0, 56, 67, 0, 0, 0],
        [18, 1, 0, 0, 56, 64, 0, 71, 1],
        [18, 2, 0, 0, 56, 61, 0, 68, 2],
        [17, 3, 0, 0, 56, 58, 0, 68, 1],
        [17, 4, 0, 0, 56, 55, 0, 0, 0],
    ];
    let things = [9, 1, 0, 9, 1, 1, 10, 1, 0, 10, 1, 1, 5, 1, 1, 0, 1, 1, 1];
    let right = [&[6], lines.concat().as_slice(), &things].concat();
    let with = |place: usize, word: u32| {
        let mut words = right.clone();
        words[place] = word;
        words
    };
    let cases = [
        (right.clone(), "safe"),
        (with(29, 4), "bad 3"),
        (with(27, 65), "refused 24 65"),
        (with(0, 1_025), "refused 24 1025"),
        (vec![], "another"),
    ];
    let mut stream = Vec::new();
    let mut expected = String::new();
    for (derivation, line) in cases {
        let words = [vec![13], slice(&asked), slice(&derivation)].concat();
        stream.extend(words::to_bytes(&words));
        stream.extend(words::to_bytes(&[14]));
        stream.extend(octets(&words::to_bytes(&asked), 9));
        stream.extend(octets(&words::to_bytes(&derivation), 9));
        expected += &format!("{line}\n{line}\n");
    }
    for (odd, line) in [(0, "yes"), (2, "refused 1 0")] {
        let bytes = words::to_bytes(&asked);
        stream.extend(words::to_bytes(&[16]));
        stream.extend(octets(&bytes[odd..], 9));
        expected += &format!("{line}\n");
    }
    stream.extend(words::to_bytes(&[vec![15], slice(&asked[1..])].concat()));
    expected += "no\n";
    assert_eq!(answered(&stream), (expected, Ok(13)));
}

/// Random requests are whole, and the same seed gives the same ones.
#[test]
fn random_requests() {
    let stream = requests::random(5, 1_000);
    assert_eq!(stream, requests::random(5, 1_000));
    let (lines, count) = answered(&stream);
    assert_eq!(count, Ok(1_000));
    for kind in [
        "accepted\n",
        "refused 2 ",
        "refused 10 ",
        "refused 11 ",
        "refused 12 ",
        "refused 13 ",
    ] {
        assert!(lines.contains(kind), "{kind}");
    }
    // All functions occur, and all answers to questions, each several times.
    let (mut functions, mut rest) = ([0; FUNCTIONS.len()], &stream[..]);
    while !rest.is_empty() {
        functions[rest[0] as usize - 1] += 1;
        Request::next(&mut rest).unwrap();
    }
    assert!(functions.iter().all(|count| *count > 10), "{functions:?}");
    for kind in [
        "yes",
        "no",
        "refused 20",
        "refused 21",
        "same",
        "differs",
        "refused 22",
        "safe",
        "bad",
        "another",
        "refused 24",
    ] {
        let count = lines.lines().filter(|line| line.starts_with(kind)).count();
        assert!(count > 3, "{kind}: {count}");
    }
}

/// The command, with something on its standard input.
fn piped(arguments: &[&str], input: &[u8]) -> Output {
    let mut child = host(arguments)
        .stdin(Stdio::piped())
        .stdout(Stdio::piped())
        .stderr(Stdio::piped())
        .spawn()
        .expect("the command runs");
    child
        .stdin
        .take()
        .expect("a pipe")
        .write_all(input)
        .expect("it is taken");
    child.wait_with_output().expect("an answer")
}

#[test]
fn the_commands() {
    let folder = Folder::new("requests-commands");
    let book = folder.file("1.book", to_bytes(&EXAMPLE_1));
    let one = output(&["requests", "--write", "translate", &book, "=52x0"]).stdout;
    let two = output(&["requests", "--write", "rehearse", &book, "=1,1,0", "=2x0"]).stdout;
    let answer = piped(&["requests", "--answer"], &[&one[..], &two].concat());
    assert_eq!(answer.stdout, (line_1() + "1 2\n").into_bytes());
    assert_eq!(answer.status.code(), Some(0));
    let asked = output(&["requests", "--write", "ask", "=1,1,1,1", "0", "0", "0"]).stdout;
    assert_eq!(piped(&["requests", "--answer"], &asked).stdout, b"yes\n");
    let judged = output(&["requests", "--write", "judge", &book, "=3,0,7", "0"]).stdout;
    assert_eq!(piped(&["requests", "--answer"], &judged).stdout, b"differs 3\n");
    let cut = piped(&["requests", "--answer"], &[&one[..], &two[..9]].concat());
    assert_eq!(cut.stdout, line_1().into_bytes());
    assert_eq!(cut.stderr, b"host: request 2: standard input ends inside a request\n");
    assert_eq!(cut.status.code(), Some(2));
    assert_eq!(
        output(&["requests", "--random", "3", "7"]).stdout,
        requests::random(3, 7)
    );

    let to = Folder::new("requests-crate");
    let none = Folder::new("requests-processes");
    let (at, crate_at, types) = (folder.path(""), to.path(""), none.path(""));
    // For the one book 14, of its summary 7 and 4 listings; then 37 questions and 110 listings at the edges, and 4 that are
    // long. Without a process five derivations that are tried by name, 60 at random, and some of odd bytes.
    let said = |done: &str| format!("{} requests, {done} {crate_at}\n", 176 + 4 * (5 + 60) + 15);
    assert_eq!(
        common::printed(&["requests", &at, &types, &crate_at]),
        said("written to")
    );
    assert_eq!(
        common::printed(&["requests", "--check", &at, &types, &crate_at]),
        said("current in")
    );
    to.file("stdout", "");
    assert!(complains(&["requests", "--check", &at, &types, &crate_at]).contains("stale"));
    complains(&["requests", "--check", &at, &types]);
    complains(&["requests", "--write"]);
    complains(&["requests", "--write", "nothing"]);
    complains(&["requests", "--write", "ask", "=1,1,1,1", "0", "0", "zero"]);
    complains(&["requests", "--random", "1"]);
    complains(&["requests", &at]);
}

//! `nghi check`: what it prints for each file of `ui/`, and what it says of the repository's own books.
//!
//! `ui/NAME.narration` (or `.book`; whatever it really holds) is checked with the options of `ui/NAME.args`, if there are
//! any, and has to give `ui/NAME.out`, the status on the last line. With UPDATE=1 in the environment the outputs are
//! written.

use std::collections::BTreeSet;
use std::ffi::OsStr;
use std::fs;
use std::path::{Path, PathBuf};
use std::process::{Command, Output, Stdio};
use workbench::commands::{check, explain};
use workbench::input::Input;
use workbench::report::edits::Outcome;
use workbench::report::{Report, Verdict};

fn folder(name: &str) -> PathBuf {
    Path::new(env!("CARGO_MANIFEST_DIR")).join(name)
}

/// Runs `nghi` in a folder.
fn nghi<A: AsRef<OsStr>>(folder: &Path, arguments: &[A]) -> Output {
    let mut command = Command::new(env!("CARGO_BIN_EXE_nghi"));
    command.current_dir(folder).args(arguments).stdin(Stdio::null());
    command.output().expect("nghi runs")
}

/// What it printed, on both ways, and its status in a line.
fn told(output: &Output) -> String {
    let text = |bytes: &[u8]| String::from_utf8(bytes.to_vec()).expect("what is printed is UTF-8");
    let status = output.status.code().expect("a status");
    format!("{}{}status {status}\n", text(&output.stdout), text(&output.stderr))
}

/// The files of a folder with this ending, sorted.
fn files(folder: &Path, ending: &str) -> Vec<PathBuf> {
    let entries = fs::read_dir(folder).expect("the folder");
    let mut files: Vec<PathBuf> = (entries.map(|entry| entry.expect("an entry").path()))
        .filter(|path| path.extension() == Some(OsStr::new(ending)))
        .collect();
    files.sort();
    files
}

fn name(path: &Path) -> String {
    path.file_name().expect("a name").to_string_lossy().into_owned()
}

#[test]
fn the_outputs_are_as_written() {
    let ui = folder("ui");
    let update = std::env::var_os("UPDATE").is_some();
    let cases = [files(&ui, "narration"), files(&ui, "book")].concat();
    assert!(cases.len() > 30);
    let mut wrong = Vec::new();
    for case in &cases {
        let options = fs::read_to_string(case.with_extension("args")).unwrap_or_default();
        let mut arguments = vec![String::from("check"), name(case)];
        arguments.extend(options.split_whitespace().map(str::to_string));
        let found = told(&nghi(&ui, &arguments));
        let out = case.with_extension("out");
        if update {
            fs::write(&out, &found).expect("the output is written");
        }
        let wanted = fs::read_to_string(&out).unwrap_or_default();
        if found != wanted {
            wrong.push(format!("{}\n{}", name(case), difference(&wanted, &found)));
        }
    }
    assert!(wrong.is_empty(), "{}", wrong.join("\n"));
    // Every output belongs to a case.
    assert_eq!(files(&ui, "out").len(), cases.len());
}

/// The first line that differs.
fn difference(wanted: &str, found: &str) -> String {
    let mut lines = wanted.lines().zip(found.lines()).enumerate();
    match lines.find(|(_, (wanted, found))| wanted != found) {
        Some((n, (wanted, found))) => format!("  line {}\n  wanted {wanted}\n  found  {found}", n + 1),
        None => format!(
            "  {} lines wanted, {} found",
            wanted.lines().count(),
            found.lines().count()
        ),
    }
}

/// What is said of a text.
fn report(name: &str, bytes: Vec<u8>) -> Report {
    let input = Input {
        name: name.to_string(),
        path: None,
        bytes,
    };
    let report = check::of(&input);
    assert!(report.verdict != Verdict::Unread(70), "{}", report.text(&[]));
    report
}

fn of_file(path: &Path) -> Report {
    report(&name(path), fs::read(path).expect("the file"))
}

/// The verdicts are those of the listings beside the books, of narrations and books alike.
#[test]
fn the_verdicts_are_the_listings() {
    let books = folder("../books");
    let mut refused = 0;
    for path in [files(&books, "narration"), files(&books, "book")].concat() {
        let listing = fs::read_to_string(path.with_extension("listing")).expect("a listing");
        let mut words = listing.split_whitespace();
        let wanted = (words.next() == Some("refused")).then(|| words.next().expect("a number").to_string());
        let found = match of_file(&path).verdict {
            Verdict::Refused(number) => Some(number.to_string()),
            Verdict::Playable { .. } => None,
            // What is empty could be either.
            Verdict::Mistaken(1) if fs::read(&path).expect("the file").is_empty() => continue,
            other => panic!("{}: {other:?}", path.display()),
        };
        // Room for the small program's line is not asked for here.
        if wanted.as_deref() != Some("12") {
            assert_eq!(found, wanted, "{}", path.display());
        }
        refused += usize::from(found.is_some());
    }
    assert!(refused > 50);
}

/// Every narration of the folder is clean, or wants its warnings and says why; and wants none that it hasn't.
#[test]
fn the_books_are_clean() {
    for path in files(&folder("../books"), "narration") {
        let report = of_file(&path);
        assert_eq!(report.warnings(), [""; 0], "{}", path.display());
        let text = fs::read_to_string(&path).expect("a text");
        let allowed: BTreeSet<&str> = report.allowed.iter().map(|(own, _)| &own.code[..]).collect();
        for line in text.lines().filter_map(|line| line.strip_prefix("# allow ")) {
            let (codes, reason) = line.split_once(": ").expect("a reason");
            assert!(!reason.is_empty());
            for code in codes.split(", ") {
                assert!(allowed.contains(code), "{}: {code} is not needed", path.display());
            }
        }
    }
}

/// A help is what it says: its text can be played, or is refused or mistaken as told.
#[test]
fn the_helps_help() {
    let mut helps = 0;
    let paths = [
        files(&folder("../books"), "narration"),
        files(&folder("ui"), "narration"),
    ]
    .concat();
    for path in paths.iter().filter(|path| path.is_file()) {
        let report_of = of_file(path);
        for help in report_of.diagnostics.iter().flat_map(|own| &own.helps) {
            let text = &help.text;
            let found = report("changed", text.clone().into_bytes()).verdict;
            let same = match &help.outcome {
                Outcome::Playable | Outcome::Checked(_) => matches!(found, Verdict::Playable { .. }),
                Outcome::Refused { number, .. } => found == Verdict::Refused(*number),
                Outcome::Mistaken(mistakes) => found == Verdict::Mistaken(*mistakes),
            };
            assert!(same, "{}: {}: {found:?}", path.display(), help.sentence());
            for (number, line) in &help.changed {
                assert_eq!(narration::lines(text)[number - 1], line);
            }
            helps += 1;
        }
    }
    assert!(helps > 40);
}

/// The first mark of a refusal stands under the atom, of the words in the listing, and in the refused step's line.
#[test]
fn the_marks_are_under_the_atoms() {
    for path in files(&folder("../books"), "narration") {
        let report = of_file(&path);
        let Verdict::Refused(_) = report.verdict else { continue };
        let diagnostic = &report.diagnostics[0];
        let atom = diagnostic.message.split("make ").nth(1).expect("an atom");
        let atom = atom.split(',').next().expect("an atom");
        assert!(diagnostic.marks.len() >= 2, "{}", path.display());
        let spot = diagnostic.marks[0].spot;
        let line: Vec<char> = report.lines[spot.line - 1].chars().collect();
        let marked: String = line[spot.column - 1..spot.column - 1 + spot.length].iter().collect();
        assert_eq!(marked, atom, "{}", path.display());
        let listing = fs::read_to_string(path.with_extension("listing")).expect("a listing");
        let step: usize = listing
            .split_whitespace()
            .nth(2)
            .expect("a step")
            .parse()
            .expect("a number");
        let steps = report.lines.iter().enumerate();
        let mut steps = steps.filter(|(_, line)| line.split('#').next().unwrap_or("").contains("->"));
        assert_eq!(
            steps.nth(step).map(|(n, _)| n + 1),
            Some(spot.line),
            "{}",
            path.display()
        );
    }
}

/// The examples of `nghi explain` are examples: of the warnings, of 10 and 13, and of the refusals of books.
#[test]
fn the_examples_are_examples() {
    for own in &explain::ALL {
        let lines = own.example.lines().filter(|line| !line.starts_with('#'));
        let words: Option<Vec<u32>> = (lines.flat_map(str::split_whitespace))
            .map(|word| word.parse().ok())
            .collect();
        let bytes = |words: &[u32]| words.iter().flat_map(|word| word.to_le_bytes()).collect::<Vec<u8>>();
        match (own.code, words) {
            ("R20", Some(words)) => {
                let refusal = nghiralum::held_after(&bytes(&words), 0, 0, 0).expect_err("a refusal");
                assert_eq!(refusal.number(), 20);
            }
            ("R24", Some(words)) => {
                let refusal = nghiralum::check(&bytes(&[1, 5]), &bytes(&words)).expect_err("a refusal");
                assert_eq!(refusal.number(), 24);
            }
            (code, Some(words)) => {
                let refusal = nghiralum::listing(&bytes(&words)).expect_err("a refusal");
                assert_eq!(format!("R{}", refusal.number()), code);
            }
            (code @ ("R11" | "R12" | "R21" | "R22"), None) => {
                let report = report(code, own.example.as_bytes().to_vec());
                assert!(matches!(report.verdict, Verdict::Playable { .. }), "{code}");
            }
            (code, None) => {
                let report = report(code, own.example.as_bytes().to_vec());
                let codes: Vec<&str> = report.diagnostics.iter().map(|own| &own.code[..]).collect();
                assert!(codes.contains(&code), "{code}: {codes:?}");
            }
        }
    }
    // What can be warned of can be explained.
    assert!(workbench::warnings::CODES
        .iter()
        .all(|code| explain::of(code).is_some()));
}

#[test]
fn explained() {
    let here = folder(".");
    let lower = nghi(&here, &["explain", "w1"]);
    assert_eq!(lower.status.code(), Some(0));
    assert_eq!(lower.stdout, nghi(&here, &["explain", "W1"]).stdout);
    assert!(String::from_utf8_lossy(&lower.stdout).starts_with("W1: "));
    assert_eq!(nghi(&here, &["explain", "W6"]).status.code(), Some(2));
    let all = nghi(&here, &["explain"]);
    assert_eq!(
        String::from_utf8_lossy(&all.stdout).lines().count(),
        explain::ALL.len() + 2
    );
    let json = nghi(&here, &["explain", "R10", "--json"]);
    assert!(json
        .stdout
        .starts_with(b"{\"nghi\": 1, \"command\": \"explain\", \"code\": \"R10\""));
}

/// Several files: all are told, and the worst status is the command's.
#[test]
fn several_files() {
    let ui = folder("ui");
    let all = [
        "check",
        "playable-book.book",
        "refused-taken.narration",
        "empty.narration",
        "missing.narration",
    ];
    for (n, status) in [(1, 0), (2, 1), (3, 3), (4, 4)] {
        let output = nghi(&ui, &all[..=n]);
        assert_eq!(output.status.code(), Some(status));
        assert!(output.stderr.is_empty());
    }
    let text = told(&nghi(&ui, &all));
    assert!(text.contains("missing.narration: not read\n4 files: 1 playable, 1 refused, 1 with mistakes, 1 not read\n"));
    // Other commands say the same of a file that can't be played, on standard error or as JSON.
    let checked = nghi(&ui, &["check", "refused-taken.narration"]);
    let asked = nghi(&ui, &["programs", "refused-taken.narration"]);
    assert_eq!(
        (&asked.stderr, asked.stdout.len(), asked.status.code()),
        (&checked.stdout, 0, Some(1))
    );
    let checked = nghi(&ui, &["check", "--json", "refused-taken.narration"]);
    assert_eq!(
        checked.stdout,
        nghi(&ui, &["programs", "--json", "refused-taken.narration"]).stdout
    );
}

#[test]
fn denied() {
    let ui = folder("ui");
    let status = |options: &[&str]| nghi(&ui, &[&["check"], options].concat()).status.code();
    assert_eq!(status(&["could-be-checked.narration", "--deny", "W3"]), Some(0));
    assert_eq!(status(&["could-be-checked.narration", "--deny", "W3,w1"]), Some(1));
    assert_eq!(status(&["could-be-checked.narration", "--deny", "all"]), Some(1));
    assert_eq!(status(&["allowed.narration", "--deny", "all"]), Some(0));
    assert_eq!(status(&["empty.narration", "--deny", "W1"]), Some(3));
    assert_eq!(status(&["allowed.narration", "--deny", "W6"]), Some(2));
}

/// Texts with a sign too many, too few or another are told something, and no more than that.
#[test]
fn damaged_texts() {
    let signs: Vec<char> = "AK{}()+-,:# \t->\r\né'_\u{202e}1".chars().collect();
    let mut seed: u32 = 7;
    let mut random = move |n: usize| {
        seed = seed.wrapping_mul(1_664_525).wrapping_add(1_013_904_223);
        (seed >> 8) as usize % n
    };
    let names = [
        "unplayable-splice-as",
        "unplayable-tag-iso-three-pass",
        "kerberos",
        "sts-two-forms",
        "trial-end-steps",
    ];
    let mut verdicts = [0; 3];
    for name in names {
        let text = fs::read_to_string(folder("../books").join(name).with_extension("narration")).expect("a text");
        let text: Vec<char> = text.chars().collect();
        for _ in 0..60 {
            let mut changed = text.clone();
            for _ in 0..=random(3) {
                let at = random(changed.len());
                match random(3) {
                    0 => drop(changed.remove(at)),
                    1 => changed.insert(at, signs[random(signs.len())]),
                    _ => changed[at] = signs[random(signs.len())],
                }
            }
            let report = report(name, changed.into_iter().collect::<String>().into_bytes());
            assert!(report.text(&[]).ends_with('\n') && !report.text(&[]).contains('\u{202e}'));
            match report.verdict {
                Verdict::Playable { .. } => verdicts[0] += 1,
                Verdict::Refused(_) => verdicts[1] += 1,
                _ => verdicts[2] += 1,
            }
        }
    }
    assert!(verdicts.iter().all(|n| *n > 20), "{verdicts:?}");
}

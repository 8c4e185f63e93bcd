//! Random mutants of Rattle sources, and what is told of them.

mod common;

use common::{complains, names, top, Folder};
use host::mutants::{self, sites, Names};
use std::fs;
use std::os::unix::fs::PermissionsExt;

const SOURCE: &str = "\
// A remark: 1 < 2.
#![tactic(auto)]

use words::put;
ghost use Nat.{◌<◌};

pub enum Why {
    Row(u32),
    Size(u32),
    Sum,
}

pub struct Kind {
    pub size: u32,
}

impl Kind {
    pub const ATOM: u32 = 0;

    pub const CIPHER: u32 = 2;

    pub const MOST: usize = 9;
}

pub trait Walk {
    fn count(book: &[u32]) -> usize
        ensures { result < 3 };

    ghost inside: { (b : List ℕ) (k : ℕ) → k < 3 → b ≡ [] };
}

impl Walk for Kind {
    fn count(book: &[u32]) -> usize {
        twice
    }

    ghost inside = { λ b k l. 1 < 4 };
}

#[tactic(auto, using(crate::proofs::Few::few_1))]
fn twice<'a>(n: u32) -> u32
    requires { n < 7 }
    ensures low { result ≡ 2 * n }
    ensures* high {
        result < 15 * 1
    }
{
    n
}

fn made(book: &[u32], mut row: u32, place: u32) -> Kind
    ensures { 3 < 4 }
{
    let size = twice(row);
    if place < Kind::ATOM && true {
        let lost = twice(place);
        row -= 1u32;
    }
    f(b\"a < b\", Why::Row(place), -x, &book[0..5], row.0);
    Kind { size }
}
";

/// Each place with what it can be changed to, from a line of the source on.
fn told(from: &str) -> Vec<String> {
    let mut names = Names::default();
    names.read(SOURCE);
    let start = SOURCE.find(from).expect("a line");
    let sites = sites(SOURCE, &names).into_iter().filter(|site| site.at >= start);
    sites
        .map(|site| format!("{}: {}", site.old, site.new.join(" | ")))
        .collect()
}

#[test]
fn what_runs_is_changed_and_nothing_else() {
    // Constants' values, and in the first function nothing.
    let all = told("// A remark");
    assert_eq!(all[..3], ["0: 1", "2: 3 | 1", "9: 10 | 8"]);
    assert_eq!(all[3..], told("fn made"));
}

#[test]
fn changes_of_a_function() {
    let expected = [
        "row: place",
        "place: row | size",
        "<: <=",
        "ATOM: CIPHER",
        "&&: ||",
        "true: false",
        "place: row | size",
        // `lost` is in scope behind its own line alone.
        "row: place | size | lost",
        "-=: +=",
        "1u32: 2u32 | 0u32",
        "Row: Size",
        "place: row | size",
        "0: 1",
        "5: 6 | 4",
        "row: place | size",
        "size: size: row | size: place",
    ];
    assert_eq!(told("fn made"), expected);
}

#[test]
fn the_same_seed_gives_the_same_mutants() {
    let chosen = |seed| -> Vec<(String, String)> {
        let mutants = mutants::choose(&top(), seed, 200).unwrap();
        let told = |mutant: mutants::Mutant| {
            let [before, after] = mutant.texts;
            assert_ne!(before, after);
            assert_eq!(fs::read_to_string(top().join(&mutant.file)).unwrap(), before);
            // The one line that differs holds no contract, and is no remark.
            let changed: Vec<(&str, &str)> = before.lines().zip(after.lines()).filter(|(a, b)| a != b).collect();
            assert_eq!(changed.len(), 1);
            let line = changed[0].0.trim();
            let left_alone = ["//", "#", "use ", "ghost ", "requires", "ensures", "pub fn ", "fn "];
            assert!(!left_alone.iter().any(|begin| line.starts_with(begin)), "{line}");
            (format!("{}:{}", mutant.file.display(), mutant.line), mutant.new)
        };
        mutants.into_iter().map(told).collect()
    };
    assert_eq!(chosen(7).len(), 200);
    assert_eq!(chosen(7), chosen(7));
    assert_ne!(chosen(7), chosen(8));
}

/// A repository with one source, and a prover that refuses what has a word in it.
fn house(name: &str, prover: &str) -> (Folder, String) {
    let house = Folder::with(name, &[("crates.txt", b"kinds:\n")]);
    fs::create_dir_all(house.at().join("crates/kinds/src")).expect("a folder");
    fs::create_dir_all(house.at().join("crates/kinds/out/rlib")).expect("a folder");
    house.file("crates/kinds/src/lib.rt", "fn f() -> bool {\n    true\n}\n");
    let prover = house.file("prover", format!("#!/bin/sh\n{prover}\n"));
    fs::set_permissions(&prover, fs::Permissions::from_mode(0o755)).expect("may be run");
    (house, prover)
}

fn run(house: &(Folder, String)) -> Result<String, String> {
    let mut out = Vec::new();
    mutants::run(house.0.at(), &house.1, 1, 5, &mut out)?;
    Ok(String::from_utf8(out).expect("text"))
}

#[test]
fn verdicts_are_told_and_nothing_is_written() {
    // What is made is not copied.
    let refusing = |said: &str, status: u32| {
        format!(
            "[ \"$1\" = check ] && [ ! -e out ] && grep -q true src/lib.rt || {{ printf '{said}'; exit {status}; }}"
        )
    };
    let line = "crates/kinds/src/lib.rt:2: `true` to `false`: ";
    let none = "\n0 of 1 are proved all the same\n";
    let cases = [
        (
            "mutants-refused",
            refusing(
                "rt: so it is\\nnote: src/lib.rt:3:1: it is not proved\\nlogic=not-proved\\n",
                1,
            ),
            "refused at src/lib.rt:3",
        ),
        (
            "mutants-refused-proof",
            refusing(
                "./proofs/f/Answers.antt:7:1: error: no\\nlogic=not-proved functions=1\\n",
                1,
            ),
            "refused at proofs/f/Answers.antt:7",
        ),
        (
            "mutants-compiled",
            refusing("src/lib.rt:3:12: error[unknown-name]: no\\n", 1),
            "not compiled, src/lib.rt:3",
        ),
        (
            "mutants-unknown",
            refusing("src/lib.rt:3:12: error: no\\n", 3),
            "the prover can't tell, exit status: 3",
        ),
    ];
    for (name, prover, said) in cases {
        let house = house(name, &prover);
        let files = names(house.0.at());
        assert_eq!(run(&house), Ok(format!("{line}{said}{none}")));
        assert_eq!(names(house.0.at()), files);
        assert!(house.0.text("crates/kinds/src/lib.rt").contains("true"));
    }

    let survivor = run(&house("mutants-proved", "exit 0")).unwrap();
    let place = "crates/kinds/src/lib.rt:2: `true` to `false`";
    let last = format!("1 of 1 are proved all the same\n\n{place}\n- true\n+ false\n");
    assert_eq!(survivor, format!("{place}: PROVED all the same\n{last}"));
}

#[test]
fn complaints() {
    let unproved = run(&house("mutants-unproved", "exit 1"));
    assert_eq!(
        unproved,
        Err("kinds isn't proved as it stands; `rt check` first".to_string())
    );
    assert!(complains(&["mutants", "one", "2"]).contains("`one` is no number"));
    assert!(complains(&["mutants", "1"]).contains("isn't clear"));
}

//! The comparison with a program: right ones pass, wrong ones are found. One test alone, as it
//! writes programs and runs them.
#![cfg(unix)]

mod common;

use common::{host, Folder};
use std::fs;
use std::os::unix::fs::PermissionsExt;
use std::path::Path;
use std::process::Output;

#[test]
fn programs_right_and_wrong() {
    let own = env!("CARGO_BIN_EXE_host");
    let folder = Folder::new("compare");
    let program = |name: &str, text: &str| {
        let path = folder.file(name, format!("#!/bin/sh\n{text}\n"));
        fs::set_permissions(&path, fs::Permissions::from_mode(0o755)).expect("may be run");
        path
    };
    let compare = |arguments: &[&str]| -> Output {
        let mut command = host(&[&["compare"], arguments].concat());
        command.env("TMPDIR", folder.at()).output().expect("the command runs")
    };
    let last = |output: &Output| -> String {
        let text = String::from_utf8_lossy(&output.stdout).into_owned();
        text.lines().last().expect("a last line").to_string()
    };

    let right = program("right", &format!("exec '{own}' translate \"$1\""));
    let same = compare(&[&right, "--random", "5", "60"]);
    assert!(same.status.success(), "{same:?}");
    assert!(same.stdout.starts_with(b"seed 5, 60 random books\n"));
    assert!(last(&same).starts_with("60 books, 0 differences (accepted: "));
    assert!(last(&same).contains("refused 10: "));

    // Files and folders mixed; only `*.book` of a folder.
    let books = folder.path("books");
    host::random::write(6, 20, Path::new(&books)).expect("random books");
    folder.file("books/remark.txt", "no book");
    let one = format!("{books}/00003.book");
    let same = compare(&[&right, &one, &books]);
    assert!(same.status.success(), "{same:?}");
    assert!(last(&same).starts_with("21 books, 0 differences"));

    // The idle programs: one that refuses all books, one constant listing, one that says nothing;
    // and a line without its end.
    let idle = ["echo refused 1 0", "echo 1 3 2 6 0", "exit 0"];
    let unended = format!("printf %s \"$('{own}' translate \"$1\")\"");
    for (number, text) in idle.iter().chain([&unended.as_str()]).enumerate() {
        let wrong = program(&format!("wrong{number}"), text);
        let differs = compare(&[&wrong, &books]);
        assert_eq!(differs.status.code(), Some(1), "{text}");
        let told = String::from_utf8_lossy(&differs.stdout).into_owned();
        assert!(told.contains("expected") && told.contains("00000.book"), "{told}");
        assert!(!last(&differs).contains(", 0 differences"));
        let differs = compare(&[&wrong, "--random", "5", "20"]);
        assert_eq!(differs.status.code(), Some(1), "{text}");
        assert!(last(&differs).starts_with("host random 5 20 DIR"));
    }

    // A program that isn't there; no books at all; and nothing is left behind.
    let missing = compare(&["./no-such-program", &books]);
    assert_eq!(missing.status.code(), Some(2));
    assert!(missing.stderr.starts_with(b"host: ./no-such-program: "));
    assert_eq!(
        compare(&["./no-such-program", "--random", "5", "3"]).status.code(),
        Some(2)
    );
    let names = folder.names();
    let left = names.iter().filter(|name| name.starts_with("books-"));
    assert_eq!(left.count(), 0);
}

//! The script that makes libraries of proved crates: what it says where it can't.
#![cfg(unix)]

mod common;

use common::{top, Folder};
use std::env;
use std::fs;
use std::os::unix::fs::{symlink, PermissionsExt};
use std::path::PathBuf;
use std::process::Command;

/// A folder of commands: those that the script needs before it asks for the kit, and no others.
fn commands(name: &str) -> Folder {
    let folder = Folder::new(name);
    for command in ["bash", "dirname", "uname"] {
        let path = env::var_os("PATH").expect("a PATH");
        let found: Option<PathBuf> = env::split_paths(&path)
            .map(|at| at.join(command))
            .find(|file| file.exists());
        symlink(found.expect(command), folder.at().join(command)).expect(command);
    }
    folder
}

/// What the script says where it fails: one message, and nothing on standard output.
fn says(commands: &Folder, arguments: &[&str]) -> String {
    let script = top().join("host/library");
    let output = Command::new(commands.at().join("bash"))
        .arg(script)
        .args(arguments)
        .env("PATH", commands.at())
        .output()
        .expect("the script runs");
    assert_eq!(output.status.code(), Some(1), "{output:?}");
    assert!(output.stdout.is_empty(), "{output:?}");
    let message = String::from_utf8(output.stderr).expect("text");
    assert!(
        message.starts_with("library: ") && message.lines().count() == 1,
        "{message}"
    );
    message
}

#[test]
fn no_kit() {
    let commands = commands("library-no-kit");
    for arguments in [&["archive", "editor"][..], &["shared", "shelf"]] {
        assert!(says(&commands, arguments).contains("the Rattle kit is missing"));
    }
}

#[test]
fn a_kit_that_does_not_run() {
    let commands = commands("library-bad-kit");
    let rt = |text: &str| {
        let path = commands.file("rt", format!("#!{}\n{text}\n", commands.path("bash")));
        fs::set_permissions(path, fs::Permissions::from_mode(0o755)).expect("may be run");
    };
    rt("echo rt: no toolchain; exit 2");
    let message = says(&commands, &["shared", "shelf"]);
    assert!(message.contains("does not run: rt: no toolchain"), "{message}");
    rt("echo /no/such/kit/START-HERE.md");
    let message = says(&commands, &["shared", "shelf"]);
    assert!(message.contains("/no/such/kit has no compiler"), "{message}");
}

#[test]
fn unclear() {
    let commands = commands("library-unclear");
    for arguments in [&[][..], &["shared"], &["archive", "one", "two"], &["other", "shelf"]] {
        assert!(
            says(&commands, arguments).contains("host/library shared NAME.."),
            "{arguments:?}"
        );
    }
}

//! What the test files share: example 1, the makers of books, folders for files, and the command as it is run.

// Each test file is a program of its own and uses a part of this.
#![allow(dead_code)]

use host::book::{Book, Party, Row, Step};
use std::fs;
use std::path::{Path, PathBuf};
use std::process::{Command, Output, Stdio};

/// Example 1 of source 000: "B -> A: N" and "A -> B: {N, B}K".
pub const EXAMPLE_1: [u32; 55] = [
    5, 8, 2, 28, 2, 36, 11, 44, //
    0, 0, 0, 0, 0, 0, 0, 0, 0, 0, 0, 0, 0, 0, 0, 0, //
    2, 0, 0, 3, //
    0, 3, 3, 1, 1, 6, 3, 1, //
    1, 0, 9, 1, 0, 1, 10, 1, //
    2, 3, 1, 0, 1, 2, 0, 1, 2, 3, 4,
];

/// Its listing, worked out by hand: document 01's, but that B opens the cipher, so that "B's part grows from 23 words to
/// 27", and that A's END tells the step in which N was stored, so that A's grows from 19 to 20 (document 02).
pub const LISTING_1: [u32; 52] = [
    2, 5, 20, 25, 27, //
    3, 0, 0, 1, 2, 1, 1, 3, 2, 0, 2, 1, 0, 0, 1, 6, 1, 3, 0, 0, //
    1, 3, 2, 0, 1, 0, 3, 3, 1, 0, 1, 5, 0, 1, 2, 0, 2, 4, 1, 0, 3, 4, 2, 0, 1, 6, 0,
];

/// One row, one party, no step.
pub const SMALLEST: [u32; 16] = [1, 8, 1, 12, 0, 16, 0, 16, 0, 0, 0, 0, 0, 0, 0, 1];

pub fn atom() -> Row {
    row(0, 0, &[])
}

pub fn atoms(count: usize) -> Vec<Row> {
    vec![atom(); count]
}

pub fn row(kind: u32, tag: u32, parts: &[u32]) -> Row {
    Row {
        kind,
        tag,
        parts: parts.to_vec(),
    }
}

/// A party that may make.
pub fn party(name: u32, known: &[u32]) -> Party {
    Party {
        name,
        known: known.to_vec(),
        makes: true,
    }
}

/// Parties with the names 0, 1 and on, who know these rows and may make.
pub fn parties(known: &[&[u32]]) -> Vec<Party> {
    (0..).zip(known).map(|(name, known)| party(name, known)).collect()
}

/// The book with these parties marked 0.
pub fn making_nothing(mut book: Book, parties: &[usize]) -> Book {
    for party in parties {
        book.parties[*party].makes = false;
    }
    book
}

pub fn step(sender: u32, receiver: u32, messages: &[u32]) -> Step {
    Step {
        sender,
        receiver,
        messages: messages.to_vec(),
    }
}

pub fn book(rows: Vec<Row>, parties: &[Party], steps: &[Step]) -> Book {
    Book {
        rows,
        parties: parties.to_vec(),
        steps: steps.to_vec(),
    }
}

/// The repository.
pub fn top() -> PathBuf {
    Path::new(env!("CARGO_MANIFEST_DIR")).join("..")
}

/// A folder for one test's files, empty at first.
pub struct Folder(PathBuf);

/// Nothing of a test stays behind: a source that one made would be taken for one of the repository's that no crate has.
impl Drop for Folder {
    fn drop(&mut self) {
        let _ = fs::remove_dir_all(&self.0);
    }
}

impl Folder {
    pub fn new(name: &str) -> Folder {
        let folder = Path::new(env!("CARGO_TARGET_TMPDIR")).join(name);
        let _ = fs::remove_dir_all(&folder);
        fs::create_dir_all(&folder).expect("a folder for files");
        Folder(folder)
    }

    /// A folder with these files.
    pub fn with(name: &str, files: &[(&str, &[u8])]) -> Folder {
        let folder = Folder::new(name);
        for (name, content) in files {
            folder.file(name, content);
        }
        folder
    }

    pub fn at(&self) -> &Path {
        &self.0
    }

    pub fn path(&self, name: &str) -> String {
        self.0.join(name).to_string_lossy().into_owned()
    }

    /// Writes a file; its name with the folder's.
    pub fn file(&self, name: &str, content: impl AsRef<[u8]>) -> String {
        fs::write(self.0.join(name), content).expect("a file");
        self.path(name)
    }

    pub fn read(&self, name: &str) -> Vec<u8> {
        fs::read(self.0.join(name)).expect(name)
    }

    pub fn text(&self, name: &str) -> String {
        fs::read_to_string(self.0.join(name)).expect(name)
    }

    pub fn remove(&self, name: &str) {
        fs::remove_file(self.0.join(name)).expect(name);
    }

    /// The names of its files and folders, sorted.
    pub fn names(&self) -> Vec<String> {
        names(&self.0)
    }
}

/// The names of a folder's files and folders, sorted.
pub fn names(folder: &Path) -> Vec<String> {
    let entries = fs::read_dir(folder).expect("the folder");
    let name = |entry: std::io::Result<fs::DirEntry>| entry.expect("a file").file_name().to_string_lossy().into_owned();
    let mut names: Vec<String> = entries.map(name).collect();
    names.sort();
    names
}

/// The command, with nothing to read.
pub fn host(arguments: &[&str]) -> Command {
    let mut command = Command::new(env!("CARGO_BIN_EXE_host"));
    command.args(arguments).stdin(Stdio::null());
    command
}

pub fn output(arguments: &[&str]) -> Output {
    host(arguments).output().expect("the command runs")
}

/// What a command prints where all is well.
pub fn printed(arguments: &[&str]) -> String {
    let output = output(arguments);
    assert!(output.status.success(), "{output:?}");
    assert!(output.stderr.is_empty(), "{output:?}");
    String::from_utf8(output.stdout).expect("text")
}

/// A message on standard error, nothing on standard output, a status that isn't 0, and no panic.
pub fn complains(arguments: &[&str]) -> String {
    let output = output(arguments);
    let message = String::from_utf8(output.stderr).expect("text");
    assert_eq!(output.status.code(), Some(2), "{arguments:?}: {message}");
    assert!(output.stdout.is_empty(), "{arguments:?}");
    assert!(
        message.starts_with("host: ") && !message.contains("panicked"),
        "{message}"
    );
    message
}

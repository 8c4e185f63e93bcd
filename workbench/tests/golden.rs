//! What every command answers over `books/`, held against `golden/`: a file a command, in it each narration, and each book that
//! no narration gives, with the answer and its status. Of a long answer the first lines stand there, and how long and which it
//! is. UPDATE=1 writes the files anew.

use std::ffi::{OsStr, OsString};
use std::fs;
use std::path::{Path, PathBuf};
use std::process::Command;
use std::thread;
use workbench::commands::{run, Output};
use workbench::input::Input;
use workbench::subject::{open, Opened};

/// An answer of more bytes is not shown whole, and a line of more letters is cut then.
const MOST_BYTES: usize = 2_000;
const MOST_LINES: usize = 6;
const MOST_LETTERS: usize = 120;
/// Terms are walked by recursion, as in the program.
const STACK: usize = 64 << 20;

fn package() -> &'static Path {
    Path::new(env!("CARGO_MANIFEST_DIR"))
}

fn books() -> PathBuf {
    package().join("../books")
}

/// The narrations, and the books that have none beside them.
fn files() -> Vec<PathBuf> {
    let kind = |path: &Path, kind: &str| path.extension() == Some(OsStr::new(kind));
    let mut files: Vec<PathBuf> = (fs::read_dir(books()).expect("the folder of books"))
        .map(|entry| entry.expect("a file").path())
        .filter(|path| kind(path, "narration") || (kind(path, "book") && !path.with_extension("narration").exists()))
        .collect();
    files.sort();
    assert!(files.len() > 140);
    files
}

fn name(path: &Path) -> &str {
    path.file_name().and_then(OsStr::to_str).expect("a name that is text")
}

/// What a command line answers, with its status in the last line.
fn said(arguments: &[&dyn AsRef<OsStr>]) -> String {
    let arguments: Vec<OsString> = arguments.iter().map(|own| own.as_ref().to_os_string()).collect();
    let worker = thread::Builder::new().stack_size(STACK);
    let ended = worker.spawn(move || run(&arguments)).expect("a thread").join();
    match ended.expect("it ends") {
        Ok(Output { text, status, .. }) => format!("{text}status {status}\n"),
        Err(failure) => format!("{failure}\nstatus {}\n", failure.status),
    }
}

/// A text, or, if it is long, its beginning, its length and a number that another text hardly has (FNV-1a).
fn shown(text: &str) -> String {
    if text.len() <= MOST_BYTES {
        return text.to_string();
    }
    let cut = |line: &str| line.chars().take(MOST_LETTERS).chain(['\n']).collect::<String>();
    let front: String = text.lines().take(MOST_LINES).map(cut).collect();
    format!("{front}.. {}\n", digest(text))
}

fn digest(text: &str) -> String {
    let mix = |sum: u64, byte: u8| (sum ^ u64::from(byte)).wrapping_mul(0x0100_0000_01b3);
    let sum = text.bytes().fold(0xcbf2_9ce4_8422_2325, mix);
    format!("{} lines, {} bytes, {sum:016x}", text.lines().count(), text.len())
}

/// The answers about each file, with a head. The path is the machine's own, and is left out.
fn over_books(answers: impl Fn(&Path) -> String) -> String {
    let answer = |file: PathBuf| {
        let told = answers(&file).replace(&file.display().to_string(), name(&file));
        format!("== {}\n{}\n", name(&file), shown(&told))
    };
    files().into_iter().map(answer).collect()
}

/// The text is that of the golden file.
fn held(file: &str, found: &str) {
    let path = package().join("golden").join(file);
    if std::env::var_os("UPDATE").is_some() {
        fs::create_dir_all(path.parent().expect("the folder")).expect("the folder");
        fs::write(&path, found).expect("written");
        return;
    }
    let golden = fs::read_to_string(&path).expect("the golden answers");
    let mut lines = golden.lines().zip(found.lines()).zip(1..);
    if let Some(((golden, found), line)) = lines.find(|((golden, found), _)| golden != found) {
        panic!("golden/{file}, line {line}:\n{golden}\nis now\n{found}");
    }
    assert!(golden == found, "golden/{file} has other lines");
}

/// A folder of one's own, and what is written there.
fn folder(name: &str) -> PathBuf {
    let folder = std::env::temp_dir().join(format!("nghi-golden-{name}-{}", std::process::id()));
    let _ = fs::remove_dir_all(&folder);
    fs::create_dir_all(&folder).expect("a folder");
    folder
}

#[test]
fn check() {
    held("check.txt", &over_books(|file| said(&[&"check", &file])));
}

#[test]
fn programs() {
    held("programs.txt", &over_books(|file| said(&[&"programs", &file])));
}

#[test]
fn knows() {
    held("knows.txt", &over_books(|file| said(&[&"knows", &file])));
}

/// In turn; of the book with the longest programs, whose run takes half a minute, the first moves.
#[test]
fn play() {
    let answers = |file: &Path| match name(file) {
        "full-placeholders.book" => said(&[&"play", &file, &"--moves", &"A,B,A,B"]),
        _ => said(&[&"play", &file, &"--order", &"round"]),
    };
    held("play.txt", &over_books(answers));
}

/// Of each party our own listing, which is the same, and what is told of it with one word changed.
#[test]
fn judge() {
    let folder = folder("judge");
    let theirs = folder.join("theirs");
    let answers = |file: &Path| {
        let mut text = String::new();
        for party in parties(file) {
            let ours = said(&[&"judge", &"--ours", &file, &party]);
            let words = words(&ours);
            let mut altered = words.clone();
            let middle = altered.len() / 2;
            altered[middle] = altered[middle].wrapping_add(1);
            let judged = |words: &[u32]| {
                let words: Vec<String> = words.iter().map(u32::to_string).collect();
                fs::write(&theirs, words.join(" ")).expect("written");
                said(&[&"judge", &file, &party, &theirs])
            };
            let same = judged(&words);
            assert!(same.starts_with("same: "), "{}: {same}", file.display());
            text.push_str(&format!("-- {party}\n{ours}{same}{}", judged(&altered)));
        }
        if text.is_empty() {
            text = said(&[&"judge", &"--ours", &file, &"A"]);
        }
        text
    };
    held("judge.txt", &over_books(answers));
    fs::remove_dir_all(&folder).expect("removed");
}

/// The names of a file's parties, if it can be played.
fn parties(file: &Path) -> Vec<String> {
    let playable = fs::read(file.with_extension("listing")).is_ok_and(|listing| !listing.starts_with(b"refused"));
    match open(&Input::read(file.as_os_str()).expect("a file")) {
        Ok(Opened::Subject(subject)) if playable => {
            let parties = 0..subject.book.parties.len() as u32;
            parties.map(|party| subject.party(party).to_string()).collect()
        }
        _ => Vec::new(),
    }
}

/// The words of our own listing, as it is printed.
fn words(ours: &str) -> Vec<u32> {
    let lines = ours.lines().filter(|line| !line.starts_with("status "));
    let words = lines.flat_map(|line| line.split('#').next().unwrap_or("").split_whitespace());
    words.map(|word| word.parse().expect("a word")).collect()
}

/// A diagram is text and stands here; of the picture and the page only which they are. Those of the first example stand whole.
#[test]
fn draw() {
    let drawn = |file: &Path, form: &str| said(&[&"draw", &file, &"--as", &form]);
    let answers = |file: &Path| {
        let plain = |form: &str| drawn(file, form).replace(&file.display().to_string(), name(file));
        let diagram = shown(&plain("mmd"));
        format!(
            "{diagram}svg: {}\nhtml: {}\n",
            digest(&plain("svg")),
            digest(&plain("html"))
        )
    };
    held("draw.txt", &over_books(answers));
    let example = books().join("example-1.narration");
    for form in ["svg", "html", "mmd"] {
        let said = drawn(&example, form).replace(&example.display().to_string(), name(&example));
        let picture = said.strip_suffix("status 0\n").expect("a picture");
        held(&format!("example-1.{form}"), picture);
    }
}

/// Of a narration the names, and the book is the one beside it; of a book its narration.
#[test]
fn build() {
    let folder = folder("build");
    let answers = |file: &Path| {
        let of_text = file.extension() == Some(OsStr::new("narration"));
        let target = folder.join(if of_text { "x.book" } else { "x.narration" });
        let told = said(&[&"build", &file, &"-o", &target, &"--force"]).replace(&format!("{}/", folder.display()), "");
        let beside = match of_text {
            true => {
                let book = fs::read(&target).expect("the book");
                assert!(book == fs::read(file.with_extension("book")).expect("its book"));
                fs::read_to_string(target.with_extension("names")).expect("its names")
            }
            false => fs::read_to_string(&target).unwrap_or_default(),
        };
        let _ = fs::remove_file(&target);
        format!("{told}{beside}")
    };
    held("build.txt", &over_books(answers));
    fs::remove_dir_all(&folder).expect("removed");
}

/// Of every narration of the folder what `check` says.
#[test]
fn watch() {
    let watched = Command::new(env!("CARGO_BIN_EXE_nghi"))
        .arg("watch")
        .arg(books())
        .arg("--once")
        .output()
        .expect("it runs");
    assert_eq!(watched.status.code(), Some(1));
    let narrations = files()
        .into_iter()
        .filter(|file| file.extension() == Some(OsStr::new("narration")));
    let checked = narrations.map(|file| {
        let told = said(&[&"check", &file]);
        let end = told.rfind("status ").expect("its status");
        told[..end].to_string()
    });
    assert!(watched.stdout == checked.collect::<String>().into_bytes());
}

#[test]
fn explain() {
    let mut text = said(&[&"explain"]);
    let list = text.clone();
    let codes = list
        .lines()
        .map_while(|line| line.split(' ').next().filter(|code| !code.is_empty()));
    for code in codes {
        text.push_str(&format!("\n{}", said(&[&"explain", &code])));
    }
    held("explain.txt", &text);
}

#[test]
fn new() {
    let folder = folder("new");
    let path = folder.join("tag.narration");
    let told = said(&[&"new", &path]).replace(&format!("{}/", folder.display()), "");
    let text = fs::read_to_string(&path).expect("a narration");
    held("new.txt", &format!("{told}{text}"));
    let checked = said(&[&"check", &path]);
    assert!(checked.ends_with("tag.narration: playable, 2 parties, 2 steps\nstatus 0\n"));
    fs::remove_dir_all(&folder).expect("removed");
}

#[test]
fn completions() {
    for shell in ["bash", "zsh", "fish"] {
        let said = said(&[&"completions", &shell]);
        held(
            &format!("completions.{shell}"),
            said.strip_suffix("status 0\n").expect("a script"),
        );
    }
}

#[test]
fn help() {
    let mut text = said(&[&"--version"]);
    let all = said(&[&"--help"]);
    text.push_str(&all);
    for line in all.lines().filter_map(|line| line.strip_prefix("  nghi ")) {
        let command = line.split(' ').next().expect("its name");
        text.push_str(&format!("\n{}", said(&[&command, &"--help"])));
    }
    held("help.txt", &text);
}

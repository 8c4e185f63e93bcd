//! The commands from outside: what the built program prints, its statuses, and what it does to files.

use std::ffi::OsStr;
use std::fs::{self, File};
use std::io::{BufRead, BufReader, Write};
use std::path::{Path, PathBuf};
use std::process::{Command, Output, Stdio};
use std::thread::sleep;
use std::time::Duration;

const EXAMPLE: &str = "../books/example-1.narration";
/// A book of three parties, so without names and lines.
const FROG: &str = "../books/wide-mouthed-frog.book";
const UNPLAYABLE: &str = "../books/unplayable-maker.narration";

fn nghi() -> Command {
    Command::new(env!("CARGO_BIN_EXE_nghi"))
}

fn ran<S: AsRef<OsStr>>(arguments: &[S]) -> Output {
    nghi().args(arguments).stdin(Stdio::null()).output().expect("it runs")
}

fn fed(arguments: &[&str], input: &[u8]) -> Output {
    let mut child = nghi()
        .args(arguments)
        .stdin(Stdio::piped())
        .stdout(Stdio::piped())
        .stderr(Stdio::piped())
        .spawn()
        .expect("it runs");
    // Where it doesn't read, it has ended, and its answer tells.
    let _ = child.stdin.take().expect("piped").write_all(input);
    child.wait_with_output().expect("it ends")
}

fn status(output: &Output) -> i32 {
    output.status.code().expect("no signal")
}

fn out(output: &Output) -> String {
    String::from_utf8(output.stdout.clone()).expect("text")
}

fn err(output: &Output) -> String {
    String::from_utf8(output.stderr.clone()).expect("text")
}

/// It answers this, with this status, and says nothing else.
fn answers(arguments: &[&str], expected: i32, text: &str) {
    let output = ran(arguments);
    assert_eq!(out(&output), text, "{arguments:?}");
    assert_eq!((status(&output), &err(&output)[..]), (expected, ""), "{arguments:?}");
}

/// It answers nothing, and says why, with this status.
fn refuses<S: AsRef<OsStr> + std::fmt::Debug>(arguments: &[S], expected: i32, why: &str) {
    let output = ran(arguments);
    assert_eq!((status(&output), &out(&output)[..]), (expected, ""), "{arguments:?}");
    assert!(err(&output).contains(why), "{arguments:?}: {}", err(&output));
}

/// A folder of one's own, which goes when it is done with.
struct Folder(PathBuf);

impl Folder {
    fn new(name: &str) -> Folder {
        let path = std::env::temp_dir().join(format!("nghi-{}-{name}", std::process::id()));
        let _ = fs::remove_dir_all(&path);
        fs::create_dir_all(&path).expect("a folder");
        Folder(path)
    }

    fn path(&self, name: &str) -> PathBuf {
        self.0.join(name)
    }

    fn text(&self, name: &str) -> String {
        self.path(name).to_str().expect("text").to_string()
    }

    fn names(&self) -> Vec<String> {
        let entries = fs::read_dir(&self.0).expect("a folder");
        let names = entries.map(|entry| entry.expect("an entry").file_name());
        let mut names: Vec<String> = names.map(|name| name.to_string_lossy().to_string()).collect();
        names.sort();
        names
    }
}

impl Drop for Folder {
    fn drop(&mut self) {
        let _ = fs::remove_dir_all(&self.0);
    }
}

// What is played

#[test]
fn play_a_narration() {
    answers(
        &["play", EXAMPLE],
        0,
        "\
B  line 8  new     N
B  line 8  send    N
A  line 8  receive x0 = N
A  line 9  send    {x0, B}K
B  line 9  receive x0 = {N, B}K
B  line 9  open    x0 with K: x1 = N, x2 = B
B  line 9  check   x1 = N
B  line 9  check   x2 = B

A 2/2 finished
B 6/6 finished
",
    );
}

#[test]
fn play_a_book() {
    let text = "\
A  step 0  new     n5
A  step 0  new     n6
A  step 0  send    A, {n5, B, n6}n3
C  step 0  receive x0 = A, x1 = {n5, B, n6}n3
C  step 0  check   x0 = A
C  step 0  open    x1 with n3: x2 = n5, x3 = B, x4 = n6
C  step 0  check   x3 = B
C  step 1  new     n8
C  step 1  send    {n8, A, x4}n4
B  step 1  receive x0 = {n8, A, n6}n4
B  step 1  open    x0 with n4: x1 = n8, x2 = A, x3 = n6
B  step 1  check   x2 = A

A 3/3 finished
B 3/3 finished
C 6/6 finished
";
    answers(&["play", FROG], 0, text);
    answers(&["play", "--order=narration", FROG], 0, text);
}

#[test]
fn play_given_moves() {
    answers(
        &["play", EXAMPLE, "--moves", "A,B,B, A ,A,A"],
        0,
        "\
A  line 8  waits   it is not sent yet
B  line 8  new     N
B  line 8  send    N
A  line 8  receive x0 = N
A  line 9  send    {x0, B}K
A          idle    it has finished

A 2/2 finished
B 2/6 can move
",
    );
    answers(
        &["play", EXAMPLE, "--moves", ""],
        0,
        "A 0/2 waits for line 8\nB 0/6 can move\n",
    );
    // A book's parties have numbers too.
    answers(
        &["play", FROG, "--moves", "0,C"],
        0,
        "\
A  step 0  new     n5
C  step 0  waits   it is not sent yet

A 1/3 can move
B 0/3 waits for step 1
C 0/6 waits for step 0
",
    );
}

/// Two of the three can move at the start.
#[test]
fn play_in_orders() {
    let text = b"party A\nparty B\nparty C\nA -> B: M\nC -> B: K\nB -> A: N\n";
    let played = |order: &str| {
        let output = fed(&["play", "-", "--order", order], text);
        assert_eq!((status(&output), &err(&output)[..]), (0, ""), "{order}");
        let told = out(&output);
        let (moves, ends) = told.split_once("\n\n").expect("moves, and how they end");
        assert_eq!(ends, "A 3/3 finished\nB 4/4 finished\nC 2/2 finished\n", "{order}");
        moves.to_string()
    };
    let events = [
        "A  line 4  new     M",
        "A  line 4  send    M",
        "A  line 6  receive x0 = N",
        "B  line 4  receive x0 = M",
        "B  line 5  receive x1 = K",
        "B  line 6  new     N",
        "B  line 6  send    N",
        "C  line 5  new     K",
        "C  line 5  send    K",
    ];
    let ordered = |numbers: [usize; 9]| numbers.map(|number| events[number]).join("\n");
    assert_eq!(played("narration"), ordered([0, 1, 3, 7, 8, 4, 5, 6, 2]));
    assert_eq!(played("round"), ordered([0, 7, 1, 3, 8, 4, 5, 6, 2]));
    assert_eq!(played("reverse"), ordered([7, 8, 0, 1, 3, 4, 5, 6, 2]));
    assert_eq!(played("random:1"), ordered([7, 8, 0, 1, 3, 4, 5, 6, 2]));
    assert_eq!(played("random:2"), ordered([0, 1, 7, 3, 8, 4, 5, 6, 2]));
    refuses(&["play", EXAMPLE, "--order", "random"], 2, "random:7");
    refuses(&["play", EXAMPLE, "--order", "backwards"], 2, "the orders are");
    refuses(&["play", EXAMPLE, "--moves", "A,T"], 2, "its parties are A, B");
    refuses(&["play", EXAMPLE, "--moves", "A,0"], 2, "has no party `0`");
    refuses(&["play", EXAMPLE, "--moves", "A", "--order", "round"], 2, "one of them");
}

#[test]
fn play_more_than_can_be_asked() {
    let moves = ["A"; 4_097].join(",");
    let output = ran(&["play", EXAMPLE, "--moves", &moves]);
    assert_eq!(status(&output), 0);
    assert!(out(&output).contains("\nthe run goes on: at most 4,096 moves"));
    assert_eq!(out(&output).lines().count(), 4_096 + 1 + 1 + 2);
    let output = ran(&["play", EXAMPLE, "--moves", &moves[2..]]);
    assert!(!out(&output).contains("the run goes on"));
}

// Who knows what

#[test]
fn knows_a_narration() {
    answers(
        &["knows", EXAMPLE],
        0,
        "\
A                       B               term
given                   given           A
given                   given           B
given                   given           K
stored at line 8 as x0  made at line 8  N
can build               can build       {N, B}K
",
    );
    let start =
        "at the start:\nA         term\ngiven     A\ngiven     B\ngiven     K\nnot held  N\nnot held  {N, B}K\n";
    for line in ["1", "7"] {
        answers(&["knows", EXAMPLE, "--at", line, "--party", "A"], 0, start);
    }
    let after = "after line 8:\nA                       B               term\n\
                 stored at line 8 as x0  made at line 8  N\n";
    answers(&["knows", EXAMPLE, "--at=8", "--term", "N"], 0, after);
    answers(
        &["knows", EXAMPLE, "--at", "9", "--term", "( N )"],
        0,
        &after.replace("after line 8", "after line 9"),
    );
    answers(
        &["knows", EXAMPLE, "--term", "{N,B} (K)", "--party", "B"],
        0,
        "B          term\ncan build  {N, B}K\n",
    );
}

#[test]
fn knows_a_book() {
    answers(
        &["knows", FROG],
        0,
        "\
A               B                       C                       term
given           given                   given                   A
given           given                   given                   B
given           given                   given                   C
given           not held                given                   n3
not held        given                   given                   n4
made at step 0  not held                stored at step 0 as x2  n5
made at step 0  stored at step 1 as x3  stored at step 0 as x4  n6
can build       not held                can build               {n5, B, n6}n3
not held        stored at step 1 as x1  made at step 1          n8
not held        can build               can build               {n8, A, n6}n4
",
    );
    answers(
        &["knows", FROG, "--at", "0", "--term", "n6"],
        0,
        "after step 0:\nA               B         C                       term\n\
         made at step 0  not held  stored at step 0 as x4  n6\n",
    );
}

#[test]
fn knows_nothing_of_that() {
    refuses(&["knows", EXAMPLE, "--term", "{N, A}K"], 2, "the nearest is `{N, B}K`");
    refuses(&["knows", EXAMPLE, "--term", "{N"], 2, "is no term");
    refuses(&["knows", EXAMPLE, "--party", "C"], 2, "its parties are A, B");
    // The text ends with a line feed, and line 10 is nothing.
    for at in ["0", "10", "x", "-1"] {
        refuses(&["knows", EXAMPLE, "--at", at], 2, "1 to 9");
    }
    refuses(&["knows", FROG, "--at", "2"], 2, "0 to 1");
    refuses(
        &["knows", "../books/trial-smallest.book", "--at", "0"],
        2,
        "has no steps",
    );
}

// Another tool's listing

#[test]
fn judge_a_narration() {
    let ours = "3 0 0 1  # receive x0 = N\n2 1 1 3 2 0 2 1 0 0 1  # send {x0, B}K\n6 1 3 0 0  # end keeps N as x0\n";
    answers(&["judge", "--ours", EXAMPLE, "A"], 0, ours);
    let judged = |words: &[u8]| {
        let output = fed(&["judge", EXAMPLE, "A", "-"], words);
        assert_eq!(err(&output), "");
        (status(&output), out(&output))
    };
    let same = "same: a one-to-one renaming of its placeholders turns the listing, 20 words, into ours\n";
    assert_eq!(judged(ours.as_bytes()), (0, same.to_string()));
    let theirs = "3 0 9 1  2 1 1 3 2 0 2 1 9 0 1  6 1 3 8 0";
    let differs = "\
differs at word 18, word 3 of event 2 of A's program
  event   end keeps N as x0
  ours    0, placeholder x0
  theirs  8
  why     x0 is called 9 by them since word 2
";
    assert_eq!(judged(theirs.as_bytes()), (1, differs.to_string()));
    let words: Vec<u32> = theirs
        .split_ascii_whitespace()
        .map(|word| word.parse().unwrap())
        .collect();
    let bytes: Vec<u8> = words.iter().flat_map(|word| word.to_le_bytes()).collect();
    assert_eq!(judged(&bytes), (1, differs.to_string()));
    let other = "differs at word 4, word 0 of event 1 of A's program, line 9\n  event   send {x0, B}K\n  ours    2\n";
    let (status, told) = judged(b"3 0 9 1 # and no more");
    assert!(
        status == 1 && told.starts_with(other) && told.ends_with("theirs ends here\n"),
        "{told}"
    );
}

#[test]
fn judge_a_book() {
    answers(
        &["judge", FROG, "2", "--ours"],
        0,
        "\
3 0 0 2  # receive x0 = A, x1 = {n5, B, n6}n3
4 0 0 0  # check x0 = A
5 1 2 3 0 3  # open x1 with n3: x2 = n5, x3 = B, x4 = n6
4 3 0 1  # check x3 = B
1 8  # new n8
2 1 1 3 3 0 4 0 8 0 0 1 4  # send {n8, A, x4}n4
6 2 5 2 0 6 4 0  # end keeps n5 as x2, n6 as x4
",
    );
    let output = fed(&["judge", FROG, "C", "-"], b"3 0 7 2\n4 7 0 0\n5 8 7 3 0 3");
    assert_eq!(
        (status(&output), out(&output)),
        (
            1,
            String::from(
                "\
differs at word 10, word 2 of event 2 of C's program, step 0
  event   open x1 with n3: x2 = n5, x3 = B, x4 = n6
  ours    2, the first of the new placeholders x2 to x4
  theirs  7
  why     number 7 of the run is taken: x0 is called so by them since word 2
"
            )
        )
    );
}

#[test]
fn judge_nothing() {
    let folder = Folder::new("judge");
    fs::write(folder.path("text"), "1 2\n 3 x4\n").unwrap();
    fs::write(folder.path("odd"), [3, 0, 0, 0, 1]).unwrap();
    refuses(
        &["judge", EXAMPLE, "A", &folder.text("text")],
        3,
        "text:2:4: expected a word",
    );
    refuses(&["judge", EXAMPLE, "A", &folder.text("odd")], 4, "four bytes a word");
    refuses(&["judge", EXAMPLE, "A", &folder.text("none")], 4, "no such file");
    refuses(&["judge", EXAMPLE, "C", &folder.text("text")], 2, "has no party `C`");
    refuses(&["judge", EXAMPLE, "A"], 2, "the listing to be judged");
    refuses(
        &["judge", EXAMPLE, "A", &folder.text("text"), "--ours"],
        2,
        "with --ours",
    );
    refuses(&["judge", "-", "A", "-"], 2, "one file and not two");
}

// Books that are written

#[test]
fn build_a_narration() {
    let folder = Folder::new("build");
    let (book, names) = (folder.text("e.book"), folder.text("e.names"));
    let text = format!("wrote {book}: 5 rows, 2 parties, 2 steps, 220 bytes\nwrote {names}\n");
    // A second time over its own work.
    for _ in 0..2 {
        answers(&["build", EXAMPLE, "-o", &book], 0, &text);
        assert_eq!(fs::read(&book).unwrap(), fs::read("../books/example-1.book").unwrap());
        assert_eq!(
            fs::read_to_string(&names).unwrap(),
            "# The names of a book: of each row its name or term, of each operation's tag its name.\n\
             row 0 A\nrow 1 B\nrow 2 K\nrow 3 N\nrow 4 {N, B}K\n"
        );
    }
    answers(
        &["knows", &book, "--term", "n3", "--party", "1"],
        0,
        "B               term\nmade at step 0  n3\n",
    );
    assert_eq!(folder.names(), ["e.book", "e.names"]);
}

#[test]
fn build_a_book() {
    let folder = Folder::new("build-book");
    let book = folder.text("f");
    assert_eq!(status(&ran(&["build", FROG, "-o", &book])), 0);
    assert_eq!(fs::read(&book).unwrap(), fs::read(FROG).unwrap());
    let names = fs::read_to_string(folder.path("f.names")).unwrap();
    assert!(
        names.contains("row 2 C\n") && names.ends_with("row 9 {n8, A, n6}n4\n"),
        "{names}"
    );
}

#[test]
fn build_the_narration_of_a_book() {
    let folder = Folder::new("build-back");
    let (text, book) = (folder.text("f.narration"), folder.text("f.book"));
    let wrote = format!("wrote {text}: 10 rows, 3 parties, 2 steps, 130 bytes\n");
    // A second time over its own work.
    for _ in 0..2 {
        answers(&["build", FROG, "-o", &text], 0, &wrote);
        assert_eq!(
            fs::read_to_string(&text).unwrap(),
            "party A knows A, B, C, n3\nparty B knows A, B, C, n4\nparty C knows A, B, C, n3, n4\n\n\
             A -> C: A, {n5, B, n6}n3\nC -> B: {n8, A, n6}n4\n"
        );
    }
    assert_eq!(status(&ran(&["build", &text, "-o", &book])), 0);
    assert_eq!(fs::read(&book).unwrap(), fs::read(FROG).unwrap());
    // Somebody's narration, though it is of the same book, stays what it is; a narration is not written of a narration.
    fs::write(&text, "# mine\n").unwrap();
    refuses(&["build", FROG, "-o", &text], 4, "no copy of this narration");
    refuses(&["build", EXAMPLE, "-o", &text], 2, "is a narration already");
    refuses(&["build", EXAMPLE, "-o", &text, "--force"], 2, "is a narration already");
    assert_eq!(fs::read(&text).unwrap(), b"# mine\n");
    answers(&["build", FROG, "-o", &text, "--force"], 0, &wrote);
    // What is no book is none; what can't be played is written all the same.
    let other = folder.text("o.narration");
    refuses(&["build", "../books/refusal-5.book", "-o", &other], 1, "is over 1024");
    let unplayable = UNPLAYABLE.replace(".narration", ".book");
    let output = ran(&["build", &unplayable, "-o", &other]);
    assert_eq!(status(&output), 1, "{}", err(&output));
    assert!(out(&output).contains("refused (R1"), "{}", out(&output));
    assert_eq!(status(&ran(&["build", &other, "-o", &folder.text("o.book")])), 1);
    assert_eq!(fs::read(folder.path("o.book")).unwrap(), fs::read(unplayable).unwrap());
    let json = out(&ran(&["build", FROG, "-o", &text, "--json"]));
    assert!(
        json.contains("\"book\": null, \"names\": null, \"narration\": \""),
        "{json}"
    );
}

#[test]
fn build_what_is_refused() {
    let folder = Folder::new("build-refused");
    let book = folder.text("u.book");
    let output = ran(&["build", UNPLAYABLE, "-o", &book]);
    assert_eq!(status(&output), 1);
    assert!(out(&output).starts_with("wrote ") && out(&output).contains(UNPLAYABLE));
    assert_eq!(
        fs::read(&book).unwrap(),
        fs::read("../books/unplayable-maker.book").unwrap()
    );
    let output = fed(
        &["build", "-", "-o", &folder.text("m.book")],
        b"party A knows {K\nA -> B: N\n",
    );
    assert_eq!(status(&output), 3);
    assert_eq!(folder.names(), ["u.book", "u.names"]);
}

#[test]
fn build_over_nothing_else() {
    let folder = Folder::new("build-over");
    let source = folder.text("s.narration");
    let text = fs::read(EXAMPLE).unwrap();
    fs::write(&source, &text).unwrap();
    fs::hard_link(&source, folder.path("hard.book")).unwrap();
    fs::write(folder.path("other.book"), "mine").unwrap();
    fs::write(folder.path("y.names"), "mine too").unwrap();
    fs::create_dir(folder.path("folder.book")).unwrap();
    let build = |name: &str, force: bool, expected: i32, why: &str| {
        let path = folder.text(name);
        let arguments = ["build", &source, "-o", &path, "--force"];
        refuses(&arguments[..4 + usize::from(force)], expected, why);
    };
    for force in [false, true] {
        build("s.narration", force, 2, "is a narration already");
        build("hard.book", force, 4, "the file that is read");
        build("folder.book", force, 4, "it is a folder");
        build("none/x.book", force, 4, "no such folder");
        build("x.names", force, 2, "is for the names");
    }
    #[cfg(unix)]
    {
        std::os::unix::fs::symlink(&source, folder.path("soft.book")).unwrap();
        std::os::unix::fs::symlink("nowhere", folder.path("lost.book")).unwrap();
        build("soft.book", true, 4, "the file that is read");
        build("lost.book", true, 4, "leads nowhere");
        let socket = std::os::unix::net::UnixListener::bind(folder.path("socket.book")).unwrap();
        build("socket.book", true, 4, "no ordinary file");
        drop(socket);
        fs::remove_file(folder.path("socket.book")).unwrap();
        // The names' file is the source.
        fs::hard_link(&source, folder.path("z.names")).unwrap();
        build("z.book", true, 4, "the file that is read");
        fs::remove_file(folder.path("soft.book")).unwrap();
        fs::remove_file(folder.path("lost.book")).unwrap();
        fs::remove_file(folder.path("z.names")).unwrap();
    }
    build("other.book", false, 4, "no book");
    build("y.book", false, 4, "no list of names");
    refuses(&["build", &source], 2, "`-o` is missing");
    assert_eq!(fs::read(&source).unwrap(), text);
    assert_eq!(fs::read(folder.path("other.book")).unwrap(), b"mine");
    assert_eq!(fs::read(folder.path("y.names")).unwrap(), b"mine too");
    let names = ["folder.book", "hard.book", "other.book", "s.narration", "y.names"];
    assert_eq!(folder.names(), names);
    let output = ran(&["build", &source, "-o", &folder.text("other.book"), "--force"]);
    assert_eq!(status(&output), 0, "{}", err(&output));
    assert_eq!(
        fs::read(folder.path("other.book")).unwrap(),
        fs::read("../books/example-1.book").unwrap()
    );
}

/// Through a link another book is written, and the link stays one.
#[cfg(unix)]
#[test]
fn build_through_a_link() {
    let folder = Folder::new("build-link");
    fs::copy(FROG, folder.path("real.book")).unwrap();
    std::os::unix::fs::symlink("real.book", folder.path("link.book")).unwrap();
    assert_eq!(status(&ran(&["build", EXAMPLE, "-o", &folder.text("link.book")])), 0);
    assert!(folder.path("link.book").is_symlink());
    assert_eq!(
        fs::read(folder.path("real.book")).unwrap(),
        fs::read("../books/example-1.book").unwrap()
    );
}

/// Where there is no room, what was there stays, and nothing is left beside it.
#[cfg(unix)]
#[test]
fn build_without_room() {
    let folder = Folder::new("build-room");
    let book = folder.text("b.book");
    fs::copy(FROG, &book).unwrap();
    // A file may have no byte: it fails as a full disk does.
    let limited = "trap '' XFSZ; ulimit -f 0; exec \"$@\"";
    let mut command = Command::new("sh");
    command.args(["-c", limited, "sh", env!("CARGO_BIN_EXE_nghi")]);
    let output = command.args(["build", EXAMPLE, "-o", &book]).output().unwrap();
    assert_eq!((status(&output), &out(&output)[..]), (4, ""));
    assert!(err(&output).contains("it can't be written"), "{}", err(&output));
    assert_eq!(fs::read(&book).unwrap(), fs::read(FROG).unwrap());
    assert_eq!(folder.names(), ["b.book"]);
    let mut command = Command::new("sh");
    command.args(["-c", limited, "sh", env!("CARGO_BIN_EXE_nghi")]);
    let output = command.args(["new", &folder.text("n")]).output().unwrap();
    assert_eq!(status(&output), 4);
    assert_eq!(folder.names(), ["b.book"]);
}

// A narration to begin with

#[test]
fn new_narrations() {
    refuses(&["new", "-"], 2, "none that begins with `-`");
    let blank = Folder::new("a blank");
    assert!(out(&ran(&["new", &blank.text("n")])).contains("`nghi programs '"));

    let folder = Folder::new("new");
    let name = folder.text("first");
    let file = folder.text("first.narration");
    let output = ran(&["new", &name]);
    assert!(status(&output) == 0 && out(&output).starts_with(&format!("wrote {file};")));
    let text = fs::read_to_string(&file).unwrap();
    for again in [&name, &file] {
        refuses(&["new", again], 4, "there is such a file already");
    }
    assert_eq!(fs::read_to_string(&file).unwrap(), text);
    let output = ran(&["play", &file]);
    assert!(
        out(&output).ends_with("\nTag 2/2 finished\nReader 6/6 finished\n"),
        "{}",
        out(&output)
    );
    refuses(&["new", ""], 2, "a name is asked for");
    refuses(&["new", &folder.text("none/n")], 4, "no such folder");
    assert_eq!(folder.names(), ["first.narration"]);
}

// Changes

/// A page that can't be written is told, with its status, wherever the answers go.
#[test]
fn watch_without_a_page() {
    let folder = Folder::new("no-page");
    let page = folder.text("none/page.html");
    for json in [&[][..], &["--json"]] {
        let output = ran(&[&["watch", EXAMPLE, "--once", "--html", &page], json].concat());
        assert_eq!(status(&output), 4);
        assert!(
            err(&output).contains("page.html: it can't be written"),
            "{}",
            err(&output)
        );
        assert!(out(&output).contains("playable"));
    }
    let mistaken = folder.text("mistaken.narration");
    fs::write(&mistaken, "party\n").unwrap();
    let output = ran(&["watch", &mistaken, "--once", "--html", &folder.text("page.html")]);
    assert_eq!((status(&output), &err(&output)[..]), (3, ""));
    assert_eq!(folder.names(), ["mistaken.narration"]);
}

#[test]
fn watch_once() {
    let folder = Folder::new("watch-once");
    fs::copy(EXAMPLE, folder.path("b.narration")).unwrap();
    let file = folder.text("b.narration");
    let playable = format!("{file}: playable, 2 parties, 2 steps\n");
    answers(&["watch", &file, "--once"], 0, &playable);
    fs::copy(UNPLAYABLE, folder.path("a.narration")).unwrap();
    fs::write(folder.path("c.txt"), "no narration").unwrap();
    let output = ran(&["watch", folder.0.to_str().unwrap(), "--once"]);
    assert_eq!(status(&output), 1);
    assert!(out(&output).contains("a.narration") && out(&output).ends_with(&playable));
    fs::write(folder.path("d.narration"), "party\n").unwrap();
    let output = ran(&["watch", folder.0.to_str().unwrap(), "--once"]);
    assert!(
        status(&output) == 3 && out(&output).contains("d.narration:1:6"),
        "{}",
        out(&output)
    );
    assert!(!out(&output).contains("c.txt"));
    refuses(&["watch", &folder.text("none"), "--once"], 4, "no such file or folder");
    // And the page of what is watched.
    let page = folder.text("b.html");
    let output = ran(&["watch", &file, "--html", &page, "--once"]);
    assert_eq!(status(&output), 0);
    assert!(out(&output).starts_with(&playable) && out(&output).contains("b.html"));
    assert!(fs::read_to_string(&page).unwrap().starts_with("<!DOCTYPE html>"));
    let both = folder.0.to_str().unwrap();
    refuses(&["watch", both, "--html", &page, "--once"], 2, "a folder is watched");
}

#[test]
fn watch_changes_until_nobody_reads() {
    let folder = Folder::new("watch");
    let file = folder.path("w.narration");
    fs::write(&file, "party A\n").unwrap();
    let mut child = nghi()
        .arg("watch")
        .arg(&folder.0)
        .stdin(Stdio::null())
        .stdout(Stdio::piped())
        .spawn()
        .expect("it runs");
    let mut lines = BufReader::new(child.stdout.take().expect("piped")).lines();
    let mut line = || lines.next().expect("a line").expect("text");
    assert!(line().ends_with("w.narration: playable, 1 party, 0 steps"));
    fs::write(&file, "party A knows\n").unwrap();
    while !line().contains("expected a term") {}
    fs::write(&file, "party AB\n").unwrap();
    while !line().ends_with("w.narration: playable, 1 party, 0 steps") {}
    drop(lines);
    fs::write(&file, "party ABC\n").unwrap();
    let mut ended = None;
    for _ in 0..1_200 {
        ended = child.try_wait().expect("its state");
        if ended.is_some() {
            break;
        }
        sleep(Duration::from_millis(50));
    }
    if ended.is_none() {
        child.kill().expect("it is ours");
    }
    assert!(ended.is_some_and(|status| status.code() == Some(0)), "{ended:?}");
}

// Shells

#[test]
fn completions_name_all_commands_and_options() {
    let help = out(&ran(&["--help"]));
    let names: Vec<&str> = (help.lines())
        .filter_map(|line| line.strip_prefix("  nghi ")?.split(' ').next())
        .collect();
    assert!(names.len() >= 8, "{names:?}");
    for shell in ["bash", "zsh", "fish"] {
        let output = ran(&["completions", shell]);
        assert_eq!(status(&output), 0);
        assert!(names.iter().all(|name| out(&output).contains(name)), "{shell}");
        let option = if shell == "fish" { "-l moves" } else { "--moves" };
        assert!(out(&output).contains(option), "{shell}");
    }
    refuses(&["completions", "tcsh"], 2, "bash, zsh and fish are");
}

#[test]
fn bash_completes() {
    let script = out(&ran(&["completions", "bash"]));
    let complete = |words: &str, at: usize| {
        let line = format!("{script}\nCOMP_WORDS=({words}); COMP_CWORD={at}; _nghi; echo \"${{COMPREPLY[*]}}\"");
        Command::new("bash")
            .args(["-c", &line])
            .output()
            .map(|output| out(&output))
    };
    // Where there is no bash, there is nothing to complete.
    let Ok(first) = complete("nghi pla", 1) else { return };
    assert_eq!(first, "play\n");
    assert_eq!(complete("nghi play x --mo", 3).unwrap(), "--moves\n");
    assert_eq!(complete("nghi completions f", 2).unwrap(), "fish\n");
    assert_eq!(complete("nghi play x", 2).unwrap(), "\n");
}

// What all commands have in common

/// Calls of the commands that read a file, with what stands behind it.
const READING: [&[&str]; 5] = [
    &["play"],
    &["knows"],
    &["judge", "A", "../books/example-1.listing"],
    &["build", "-o", "out.book"],
    &["programs"],
];

#[test]
fn statuses() {
    let folder = Folder::new("statuses");
    fs::write(folder.path("mistaken"), "party A knows {K\n").unwrap();
    fs::write(folder.path("picture"), b"\x89PNG\r\n\x1a\n").unwrap();
    let (mistaken, picture, book) = (folder.text("mistaken"), folder.text("picture"), folder.text("out.book"));
    for call in READING {
        let with = |file: &str| {
            let mut arguments = vec![call[0].to_string(), file.to_string()];
            let rest = call[1..].iter().map(|own| match *own {
                "out.book" => book.clone(),
                other => other.to_string(),
            });
            arguments.extend(rest);
            arguments
        };
        refuses(&with(&mistaken), 3, "mistaken:1:");
        refuses(&with(&folder.text("none")), 4, "there is no such file");
        refuses(&with(&picture), 4, "a PNG picture");
        refuses(&with("../books/refusal-5.book"), 1, "refusal-5.book");
        refuses(&with("../books"), 4, "");
        if call[0] != "build" {
            refuses(&with(UNPLAYABLE), 1, UNPLAYABLE);
        }
        let mut wrong = with(EXAMPLE);
        wrong.push("--jsn".to_string());
        refuses(&wrong, 2, "is no option");
    }
    refuses(&["paly", EXAMPLE], 2, "is `play` meant?");
    refuses(&["check", "-", "-"], 2, "one file and not two");
    refuses(
        &["programs", EXAMPLE, EXAMPLE],
        2,
        "takes 1 besides options, and 2 are given",
    );
    refuses(
        &["watch", EXAMPLE, "--once", "--html", "page.png"],
        2,
        "ends with .html",
    );
    for call in [["help", "help"], ["--help", "-h"], ["help", "--help"], ["-h", "--json"]] {
        let told = ran(&call);
        assert!(
            status(&told) == 0 && out(&told).contains("nghi check FILE.."),
            "{call:?}"
        );
    }
    assert!(out(&ran(&["help", "knows"])).starts_with("nghi knows FILE"));
    // Behind `--` there are files alone.
    assert_eq!(status(&ran(&["check", "--", "--help"])), 4);
    assert_eq!(folder.names(), ["mistaken", "picture"]);
}

#[test]
fn json_is_one_line_with_the_version() {
    let folder = Folder::new("json");
    let (book, new) = (folder.text("x.book"), folder.text("n"));
    let calls: [&[&str]; 13] = [
        &["check", EXAMPLE],
        &["programs", EXAMPLE],
        &["play", EXAMPLE],
        &["play", FROG, "--moves", "A,B"],
        &["knows", EXAMPLE],
        &["judge", EXAMPLE, "A", "../books/example-1.words-of-nobody"],
        &["judge", "--ours", EXAMPLE, "A"],
        &["build", EXAMPLE, "-o", &book],
        &["new", &new],
        &["watch", EXAMPLE, "--once"],
        &["draw", EXAMPLE],
        &["explain", "R10"],
        &["completions", "zsh"],
    ];
    let theirs = folder.text("theirs");
    fs::write(&theirs, "3 0 9 2").unwrap();
    for call in calls {
        let mut arguments: Vec<&str> = call.to_vec();
        if let Some(place) = arguments.iter_mut().find(|own| own.ends_with("-of-nobody")) {
            *place = &theirs;
        }
        arguments.push("--json");
        let text = out(&ran(&arguments));
        // A watch answers each change as a check does.
        let command = if call[0] == "watch" { "check" } else { call[0] };
        let front = format!("{{\"nghi\": 1, \"command\": \"{command}\", ");
        assert!(text.starts_with(&front), "{arguments:?}: {text}");
        assert!(
            text.ends_with("}\n") && text.lines().count() == 1,
            "{arguments:?}: {text}"
        );
    }
    let told = out(&ran(&["knows", EXAMPLE, "--term", "N", "--party", "A", "--json"]));
    let cell = r#"{"party": "A", "held": true, "how": "stored", "step": 0, "line": 8, "as": "x0"}"#;
    assert!(told.contains(cell), "{told}");
    let told = out(&ran(&["judge", EXAMPLE, "A", &theirs, "--json"]));
    assert!(told.contains(r#""same": false, "differs": {"word": 3, "#), "{told}");
    let told = out(&ran(&["play", EXAMPLE, "--moves", "A", "--json"]));
    let end = r#"{"party": "A", "done": 0, "events": 2, "state": "waits", "step": 0, "line": 8}"#;
    assert!(told.contains(end), "{told}");
}

/// Where there is no answer, programs read why on the same line that they would read it on.
#[test]
fn json_without_an_answer() {
    let folder = Folder::new("json-errors");
    fs::write(folder.path("text"), "1 2\n 3 x4\n").unwrap();
    let (none, text) = (folder.text("none"), folder.text("text"));
    let calls: [(&[&str], i32, &str); 8] = [
        (&["paly", EXAMPLE], 2, "is `play` meant?"),
        (&["programs", &none], 4, "there is no such file"),
        (&["knows", EXAMPLE, "--term", "M"], 2, "has no term `M`"),
        (&["play", EXAMPLE, "--order", "none"], 2, "is no order"),
        (&["judge", EXAMPLE, "A", &text], 3, "text:2:4: expected a word"),
        (&["draw", EXAMPLE, "-o", EXAMPLE, "--as", "svg"], 4, "not written over"),
        (&["build", EXAMPLE], 2, "`-o` is missing"),
        (&["check", EXAMPLE, "--deny", "W9"], 2, "is no warning"),
    ];
    for (call, expected, why) in calls {
        let output = ran(&[call, &["--json"]].concat());
        let told = out(&output);
        let front = format!(
            "{{\"nghi\": 1, \"command\": \"{}\", \"status\": {expected}, \"error\": \"",
            call[0]
        );
        assert_eq!((status(&output), &err(&output)[..]), (expected, ""), "{call:?}");
        assert!(told.starts_with(&front) && told.contains(why), "{call:?}: {told}");
        assert_eq!(told.lines().count(), 1);
    }
}

/// Twice the same, from a file and from standard input.
#[test]
fn same_input_same_output() {
    let text = fs::read(EXAMPLE).unwrap();
    for command in ["play", "knows"] {
        let output = fed(&[command, "-"], &text);
        assert_eq!(status(&output), 0);
        assert_eq!(out(&output), out(&ran(&[command, EXAMPLE])));
        let lines = String::from_utf8(text.clone()).unwrap().replace('\n', "\r\n");
        assert_eq!(out(&fed(&[command, "-"], lines.as_bytes())), out(&output));
    }
}

#[test]
fn a_reader_that_goes_away() {
    for command in ["knows", "play"] {
        // More than a pipe holds.
        let mut child = nghi()
            .args([command, "../books/full-longest.narration"])
            .stdout(Stdio::piped())
            .stderr(Stdio::piped())
            .spawn()
            .expect("it runs");
        drop(child.stdout.take());
        let output = child.wait_with_output().expect("it ends");
        assert_eq!((status(&output), &err(&output)[..]), (0, ""), "{command}");
    }
}

#[test]
fn a_full_disk() {
    let full = Path::new("/dev/full");
    if !full.exists() {
        return;
    }
    let calls: [&[&str]; 5] = [
        &["play", EXAMPLE],
        &["knows", EXAMPLE],
        &["judge", "--ours", EXAMPLE, "A"],
        &["completions", "bash"],
        &["watch", EXAMPLE, "--once"],
    ];
    for call in calls {
        let out = File::options().write(true).open(full).expect("it is there");
        let output = nghi().args(call).stdout(out).output().expect("it runs");
        assert_eq!(status(&output), 4, "{call:?}");
        assert!(err(&output).starts_with("nghi: standard output: "), "{}", err(&output));
    }
}

#[cfg(target_os = "linux")]
#[test]
fn paths_that_are_no_text() {
    use std::os::unix::ffi::OsStrExt;
    let folder = Folder::new("paths");
    let path = |name: &[u8]| folder.0.join(OsStr::from_bytes(name));
    let file = path(b"\xff\xfe.narration");
    fs::copy(EXAMPLE, &file).unwrap();
    for command in ["play", "knows", "programs"] {
        let output = nghi().arg(command).arg(&file).output().unwrap();
        assert_eq!(status(&output), 0);
        assert_eq!(out(&output), out(&ran(&[command, EXAMPLE])));
        let output = nghi().arg(command).arg("--json").arg(&file).output().unwrap();
        assert!(out(&output).contains("\u{fffd}.narration"));
    }
    let book = path(b"\xf0.book");
    let output = nghi().arg("build").arg(&file).arg("-o").arg(&book).output().unwrap();
    assert_eq!(status(&output), 0, "{}", err(&output));
    assert_eq!(fs::read(&book).unwrap(), fs::read("../books/example-1.book").unwrap());
    assert!(path(b"\xf0.names").is_file());
    let joined = [b"-o=", book.as_os_str().as_bytes()].concat();
    let output = nghi()
        .arg("build")
        .arg(&file)
        .arg(OsStr::from_bytes(&joined))
        .output()
        .unwrap();
    assert!(status(&output) == 2 && err(&output).contains("put a blank before it"));
    assert_eq!(status(&nghi().arg("new").arg(path(b"\xf1")).output().unwrap()), 0);
    assert!(path(b"\xf1.narration").is_file());
    let output = nghi().arg("watch").arg(&folder.0).arg("--once").output().unwrap();
    assert_eq!((status(&output), out(&output).lines().count()), (0, 2));
}

//! Each guard breaks where one thing is altered, and says so with status 70.

use narration::book::{Layout, MARK};
use std::fs;
use std::path::{Path, PathBuf};
use workbench::guard;
use workbench::input::Input;
use workbench::listing::{Event, Program};
use workbench::proved::Answers;
use workbench::run::{run, Order};
use workbench::subject::{open, to_bytes, to_words, Opened, Subject};
use workbench::told::Names;

fn books() -> PathBuf {
    Path::new(env!("CARGO_MANIFEST_DIR")).join("../books")
}

fn subject(name: &str) -> Subject {
    let path = books().join(name);
    match open(&Input::read(path.as_os_str()).expect("a file")) {
        Ok(Opened::Subject(subject)) => *subject,
        _ => panic!("{name} is a narration"),
    }
}

fn answers(subject: &Subject) -> Answers {
    match Answers::of(subject) {
        Ok(Ok(answers)) => answers,
        _ => panic!("{} can be played", subject.name),
    }
}

/// One altered word of the book, and one altered line of the text, break the guard.
#[test]
fn source() {
    let name = "tag-hash-lock.narration";
    let text = fs::read_to_string(books().join(name)).expect("a text");
    let whole = subject(name);
    let told = |text: &str, subject: &Subject| guard::source(text, subject).map_err(|failure| failure.status);
    assert_eq!(told(&text, &whole), Ok(()));
    let mut read = 0;
    for at in 0..whole.bytes.len() {
        let mut altered = subject(name);
        altered.bytes[at] ^= 1;
        // Most of them are no books any more, which the proved reader says.
        if nghiralum::translate(&altered.bytes, &mut []).is_err_and(|refusal| refusal.number() >= 10) {
            assert_eq!(told(&text, &altered), Err(70), "byte {at}");
            read += 1;
        }
    }
    assert!(read >= 10, "{read} altered books can be read");
    let lines: Vec<&str> = text
        .lines()
        .filter(|line| !line.is_empty() && !line.starts_with('#'))
        .collect();
    for line in &lines {
        assert_eq!(told(&text.replacen(line, "", 1), &whole), Err(70), "without `{line}`");
        assert_eq!(told(&format!("{text}\n{line}"), &whole), Err(70), "`{line}` twice");
    }
    for row in 0..whole.terms.len() {
        let mut altered = subject(name);
        altered.terms[row].push('\'');
        assert_eq!(told(&text, &altered), Err(70), "row {row}");
    }
}

/// A word that says something else than the rest: where a list begins, how long it is, where a section stands, a mark.
#[test]
fn book() {
    let whole = subject("example-1.book");
    let told = |bytes: &[u8]| guard::book("book", bytes).map_err(|failure| failure.status);
    assert_eq!(told(&whole.bytes), Ok(whole.book.clone()));
    let words = to_words(&whole.bytes);
    let layout = Layout::counted(&words);
    let (row, party, step) = (layout.row(4), layout.party(1), layout.step(1));
    for at in [
        0,
        1,
        2,
        3,
        4,
        5,
        6,
        7,
        row + 2,
        row + 3,
        party + 1,
        party + 2,
        party + MARK,
        step + 2,
        step + 3,
    ] {
        let mut altered = words.clone();
        altered[at] += 2;
        assert_eq!(told(&to_bytes(&altered)), Err(70), "word {at}");
    }
    assert_eq!(told(&whole.bytes[..whole.bytes.len() - 4]), Err(70));
}

#[test]
fn narration() {
    let subject = subject("example-1.book");
    let text = narration::write(&subject.book, &subject.names);
    assert!(guard::narration(&subject, &text).is_ok());
    // Another book, and a text that gives none.
    for altered in [text.replace("n3", "n2"), text.replace("->", "")] {
        let told = guard::narration(&subject, &altered).map_err(|failure| failure.status);
        assert_eq!(told, Err(70), "{altered}");
    }
}

#[test]
fn listing() {
    let subject = subject("example-1.narration");
    let words = to_words(&nghiralum::listing(&subject.bytes).expect("a listing"));
    assert!(guard::listing(&words).is_ok());
    let heads = 1 + 2 * subject.book.parties.len();
    for at in 0..heads {
        let mut altered = words.clone();
        altered[at] += 1;
        let told = guard::listing(&altered).map_err(|failure| failure.status);
        assert_eq!(told, Err(70), "word {at}");
    }
}

#[test]
fn placeholders() {
    let subject = subject("wide-mouthed-frog.narration");
    let names = Names::of(&subject);
    for program in &answers(&subject).programs {
        assert!(names.program(program).is_ok());
        let told = |altered: &Program| names.program(altered).map_err(|failure| failure.status);
        for at in 0..program.len() {
            let mut altered = program.clone();
            match &mut altered[at] {
                Event::End { stored } if !stored.is_empty() => stored[0].placeholder += 1,
                Event::Receive { n, .. } | Event::Open { n, .. } => *n += 1,
                Event::Check { placeholder, .. } => *placeholder += 100,
                _ => continue,
            }
            assert_eq!(told(&altered), Err(70), "event {at}");
        }
    }
}

#[test]
fn moves() {
    for after in [[3, 2], [0, 2], [2, 3], [1, 3]] {
        let told = guard::moved(&[1, 2], &after, 0).map_err(|failure| failure.status);
        assert_eq!(told, Err(70));
    }
    assert_eq!(guard::moved(&[1, 2], &[2, 2], 0), Ok(true));
}

/// A program with an event less, or more, than the proved one: the run doesn't do what it says is next.
#[test]
fn runs() {
    let subject = subject("example-1.narration");
    let status = |answers: &Answers| run(&subject, answers, &Order::Round).map_err(|failure| failure.status);
    let whole = answers(&subject);
    assert!(status(&whole).is_ok());
    for party in 0..whole.programs.len() {
        for at in 0..whole.programs[party].len() - 1 {
            let mut altered = answers(&subject);
            altered.programs[party].remove(at);
            assert_eq!(status(&altered).err(), Some(70), "party {party}, without event {at}");
            let mut altered = answers(&subject);
            let twice = altered.programs[party][at].clone();
            altered.programs[party].insert(at, twice);
            assert_eq!(status(&altered).err(), Some(70), "party {party}, event {at} twice");
        }
    }
}

//! `nghi watch`: a file, or the narrations of a folder, checked again on every change.

use crate::arguments::{Call, Command, Takes, JSON};
use crate::commands::{check, draw, Output};
use crate::draw::Form;
use crate::failure::{plain, Failure, PLAYABLE};
use crate::input::{shown, Input};
use crate::report::{self, Report};
use crate::run::Order;
use crate::subject::{open, Opened};
use std::collections::BTreeMap;
use std::ffi::OsStr;
use std::fs;
use std::io::{self, ErrorKind, Write};
use std::path::{Path, PathBuf};
use std::thread::sleep;
use std::time::{Duration, SystemTime};

pub static COMMAND: Command = Command {
    name: "watch",
    takes: "PATH [--html X.html] [--once] [--json]",
    does: "checks a file, or a folder's narrations, again on every change",
    places: (1, 1),
    options: &[
        (
            "--html",
            Takes::One("a page of the file's run, drawn again on every change"),
        ),
        ("--once", Takes::Nothing("looks once, and ends")),
        JSON,
    ],
};

const EVERY: Duration = Duration::from_millis(200);

/// What tells that a file has changed: when it was written, and how long it is.
type Stamp = (Option<SystemTime>, u64);

pub fn run(call: &Call) -> Result<Output, Failure> {
    let path = Path::new(&call.places[0]);
    if let Err(error) = fs::metadata(path) {
        let why = match error.kind() {
            ErrorKind::NotFound => String::from("there is no such file or folder"),
            _ => plain(&error),
        };
        return Err(Failure::file(format!("{}: {why}", shown(path))));
    }
    if let Some(page) = call
        .value("--html")
        .filter(|page| Form::of_path(page) != Some(Form::Html))
    {
        let page = shown(Path::new(page));
        return Err(Failure::command_line(format!(
            "`--html {page}`: a page ends with .html"
        )));
    }
    if call.has("--html") && path.is_dir() {
        return Err(Failure::command_line(
            "`--html` draws one file's page, and a folder is watched",
        ));
    }
    let mut known = BTreeMap::new();
    let mut worst = PLAYABLE;
    loop {
        for change in changes(path, &mut known) {
            let (text, status) = told(call, &change)?;
            worst = worst.max(status);
            if !say(&text)? {
                // Nobody reads on: that is how a watch ends.
                return Ok(Output::answer(String::new(), PLAYABLE));
            }
        }
        if call.has("--once") {
            return Ok(Output::answer(String::new(), worst));
        }
        sleep(EVERY);
    }
}

/// What `nghi check` says of a file, or that it is gone; and where a page is asked for, it is drawn anew.
fn told(call: &Call, change: &Change) -> Result<(String, u8), Failure> {
    let name = shown(change.path());
    let gone = || Failure::file(format!("{name}: it is gone"));
    let input = match change {
        Change::Written(path) => Input::read(path.as_os_str()),
        Change::Gone(_) => Err(gone()),
    };
    let report = match &input {
        Ok(input) => check::of(input),
        Err(failure) => Report::unread(&name, failure),
    };
    let status = report.status();
    let mut text = match call.has("--json") {
        true => format!("{}\n", report::answered(&[report], status)),
        false => report.text(&[]),
    };
    let Some(page) = call.value("--html") else {
        return Ok((text, status));
    };
    match input.and_then(|input| drawn(&input, page)) {
        // Standard output is for the answers alone where programs read it.
        Ok(drawn) if !call.has("--json") => text.push_str(&drawn),
        Ok(_) => (),
        // What can't be read was told.
        Err(failure) if status == failure.status => (),
        Err(failure) => {
            let _ = writeln!(io::stderr(), "nghi: {failure}");
            return Ok((text, status.max(failure.status)));
        }
    }
    Ok((text, status))
}

/// Draws the page of a file, if it has a run; a refused one up to its step.
fn drawn(input: &Input, page: &OsStr) -> Result<String, Failure> {
    match open(input)? {
        Opened::Subject(subject) => {
            let (scene, _) = draw::scene(*subject, &Order::Narration)?;
            draw::write(input, &scene, Form::Html, page, false)
        }
        _ => Ok(String::new()),
    }
}

/// Writes to standard output at once; false where nobody reads on.
fn say(text: &str) -> Result<bool, Failure> {
    let mut out = io::stdout().lock();
    match out.write_all(text.as_bytes()).and_then(|()| out.flush()) {
        Ok(()) => Ok(true),
        Err(error) if error.kind() == ErrorKind::BrokenPipe => Ok(false),
        Err(error) => Err(Failure::file(format!("standard output: {}", plain(&error)))),
    }
}

#[derive(PartialEq, Eq, Debug)]
enum Change {
    Written(PathBuf),
    Gone(PathBuf),
}

impl Change {
    fn path(&self) -> &Path {
        match self {
            Change::Written(path) | Change::Gone(path) => path,
        }
    }
}

/// What has changed since the last look, in the order of the names.
fn changes(path: &Path, known: &mut BTreeMap<PathBuf, Seen>) -> Vec<Change> {
    let found: BTreeMap<PathBuf, Stamp> = (files(path).into_iter())
        .filter_map(|path| stamp(&path).map(|stamp| (path, stamp)))
        .collect();
    let mut changes = Vec::new();
    for (path, stamp) in &found {
        let before = known.insert(path.clone(), Seen::Here(*stamp));
        if before.and_then(Seen::stamp) != Some(*stamp) {
            changes.push(Change::Written(path.clone()));
        }
    }
    known.retain(|path, seen| {
        let here = found.contains_key(path);
        match *seen {
            _ if here => true,
            // An editor may take a file away to write it anew, so it is missed twice before it is gone.
            Seen::Here(stamp) => {
                *seen = Seen::Missed(stamp);
                true
            }
            Seen::Missed(_) => {
                changes.push(Change::Gone(path.clone()));
                false
            }
        }
    });
    changes
}

/// A file as it was when it was looked at last.
#[derive(Clone, Copy)]
enum Seen {
    Here(Stamp),
    Missed(Stamp),
}

impl Seen {
    fn stamp(self) -> Option<Stamp> {
        match self {
            Seen::Here(stamp) | Seen::Missed(stamp) => Some(stamp),
        }
    }
}

fn stamp(path: &Path) -> Option<Stamp> {
    let metadata = fs::metadata(path).ok().filter(|metadata| !metadata.is_dir())?;
    Some((metadata.modified().ok(), metadata.len()))
}

/// The file, or the narrations of the folder.
fn files(path: &Path) -> Vec<PathBuf> {
    match fs::read_dir(path) {
        Ok(entries) => {
            let paths = entries.filter_map(|entry| entry.ok().map(|entry| entry.path()));
            paths
                .filter(|path| path.extension() == Some(OsStr::new("narration")))
                .collect()
        }
        Err(_) => vec![path.to_path_buf()],
    }
}

#[cfg(test)]
mod tests {
    use super::*;

    #[test]
    fn what_has_changed() {
        let folder = std::env::temp_dir().join(format!("nghi-watch-{}", std::process::id()));
        fs::create_dir_all(&folder).unwrap();
        let file = |name: &str| folder.join(name);
        let mut known = BTreeMap::new();
        let mut changes = || changes(&folder, &mut known);
        for name in ["b.narration", "a.narration", "c.txt"] {
            fs::write(file(name), "party A\n").unwrap();
        }
        let (a, b) = (file("a.narration"), file("b.narration"));
        assert_eq!(changes(), [Change::Written(a.clone()), Change::Written(b.clone())]);
        assert_eq!(changes(), []);
        fs::write(&b, "party AB\n").unwrap();
        assert_eq!(changes(), [Change::Written(b.clone())]);
        // Away for one look, and the same again: nothing has changed.
        fs::rename(&a, file("aside")).unwrap();
        assert_eq!(changes(), []);
        fs::rename(file("aside"), &a).unwrap();
        assert_eq!(changes(), []);
        fs::remove_file(&a).unwrap();
        assert_eq!(
            (changes(), changes(), changes()),
            (vec![], vec![Change::Gone(a)], vec![])
        );
        fs::remove_dir_all(&folder).unwrap();
    }
}

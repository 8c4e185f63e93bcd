//! The page of the must-fail edits, docs/EDITS.md: a preamble, and for each crate a table made from the four lines at
//! the head of its edits, so that what is told of an edit stands in the edit itself.

use crate::files;
use std::fs;
use std::path::{Path, PathBuf};

const PREAMBLE: &str = include_str!("edits/preamble.md");
const HEAD: &str = "\
| edit | the wrong program | why it must be refused | refused at | what the log says first |
|---|---|---|---|---|
";
/// The lines at an edit's head, in the order of the columns.
const LINES: [&str; 4] = ["wrong", "refused", "at", "log"];

/// The page, and how many edits are on it.
pub struct Page {
    pub text: String,
    pub edits: usize,
}

impl Page {
    /// Of a folder of crates, in the order of the list beside it: of `crates` that is `crates.txt`.
    pub fn of(crates: &Path) -> Result<Page, String> {
        let mut page = Page {
            text: PREAMBLE.to_string(),
            edits: 0,
        };
        let mut faults = Vec::new();
        for name in listed(crates)? {
            let edits = edits(&crates.join(&name))?;
            if !edits.is_empty() {
                page.text += &format!("\n## {name}\n\n{HEAD}");
            }
            for file in edits {
                let text = files::text(&file)?;
                match applies(&crates.join(&name), &text).and_then(|()| line(&file, &text)) {
                    Ok(line) => page.text += &line,
                    Err(fault) => faults.push(files::told(&file, fault)),
                }
                page.edits += 1;
            }
        }
        files::faultless(&faults)?;
        Ok(page)
    }

    pub fn write(&self, file: &Path) -> Result<(), String> {
        files::write(file, self.text.as_bytes())
    }

    /// Whether the file is this page.
    pub fn check(&self, file: &Path) -> Result<(), String> {
        let current = files::current(file, self.text.as_bytes(), "the edits give");
        current.map_err(|fault| files::told(file, fault))
    }
}

/// The crates of the list, each by the first word of its line. A crate that has edits and isn't on it would be left out, so
/// it is a fault.
fn listed(crates: &Path) -> Result<Vec<String>, String> {
    let list = crates.with_extension("txt");
    let text = files::text(&list)?;
    let lines = text.lines().filter(|line| !line.starts_with('#'));
    let names: Vec<String> = (lines.filter_map(|line| line.split([' ', ':']).find(|word| !word.is_empty())))
        .map(str::to_string)
        .collect();
    let mut faults = Vec::new();
    for entry in fs::read_dir(crates).map_err(|error| files::told(crates, error))? {
        let folder = entry.map_err(|error| files::told(crates, error))?.path();
        let name = folder.file_name().unwrap_or_default().to_string_lossy().into_owned();
        if !names.contains(&name) && !edits(&folder)?.is_empty() {
            faults.push(files::told(
                &folder,
                format!("has edits, and is not in {}", list.display()),
            ));
        }
    }
    faults.sort();
    files::faultless(&faults)?;
    Ok(names)
}

/// The edits of a crate, sorted by name.
fn edits(folder: &Path) -> Result<Vec<PathBuf>, String> {
    match folder.join("must-fail") {
        folder if folder.is_dir() => files::ending(&folder, "edit"),
        _ => Ok(Vec::new()),
    }
}

/// Whether each text that an edit replaces stands in its file exactly once, and another takes its place. The gate tells
/// of an edit that doesn't apply late, and `rt ci` counts it as bad and passes.
fn applies(folder: &Path, edit: &str) -> Result<(), String> {
    let (mut file, mut text, mut old) = (String::new(), String::new(), "");
    let mut changes = false;
    for line in edit.lines() {
        if let Some(name) = line.strip_prefix("file: ") {
            file = name.to_string();
            text = files::text(&folder.join(name))?;
        } else if let Some(replaced) = line.strip_prefix("old: ") {
            old = replaced;
        } else if let Some(new) = line.strip_prefix("new:") {
            let new = new.strip_prefix(' ').unwrap_or(new);
            match text.matches(old).count() {
                1 => text = text.replace(old, new),
                0 => return Err(format!("`{}` is not in {file}", old.trim())),
                _ => return Err(format!("`{}` is in {file} more than once", old.trim())),
            }
            changes |= new != old;
        }
    }
    if changes {
        Ok(())
    } else {
        Err("nothing is changed".to_string())
    }
}

/// An edit's line of its table, or which of the lines at its head is missing.
fn line(file: &Path, text: &str) -> Result<String, String> {
    let name = file.file_stem().unwrap_or_default().to_string_lossy();
    let mut line = format!("| `{name}` |");
    for wanted in LINES {
        let begin = format!("# {wanted}:");
        let mut said = text.lines().filter_map(|line| line.strip_prefix(&begin)).map(str::trim);
        match (said.next(), said.next()) {
            (Some(said), None) if !said.is_empty() => line += &format!(" {} |", said.replace('|', "\\|")),
            (Some(_), Some(_)) => return Err(format!("`{begin}` stands there twice")),
            _ => return Err(format!("`{begin}` is missing")),
        }
    }
    Ok(line + "\n")
}

//! The folder of example books. Each has one source, NAME.narration or NAME.words, and two files derived
//! from it: NAME.book, the book's bytes, and NAME.listing, the line the small program prints for them.

use crate::files;
use crate::narration;
use crate::translate;
use crate::words;
use std::collections::{BTreeMap, BTreeSet};
use std::fs;
use std::path::Path;

/// Writes the derived files of every source; the number of sources.
pub fn write(dir: &Path) -> Result<usize, String> {
    let folder = Folder::of(dir)?;
    let mut faults = folder.doubled();
    for source in folder.sources.values() {
        match derive(dir, source) {
            Ok(derived) => {
                for (file, content) in derived {
                    fs::write(dir.join(&file), content).map_err(|e| format!("{file}: {e}"))?;
                }
            }
            Err(fault) => faults.push(fault),
        }
    }
    files::faultless(&faults)?;
    Ok(folder.sources.len())
}

/// Whether each source has its current derived files and nothing else is there; the number of sources, or
/// a line for each file at fault.
pub fn check(dir: &Path) -> Result<usize, String> {
    let folder = Folder::of(dir)?;
    let mut faults = folder.doubled();
    let mut stray = folder.others.clone();
    for source in folder.sources.values() {
        match derive(dir, source) {
            Ok(derived) => {
                for (file, content) in derived {
                    let current = files::current(&dir.join(&file), &content, &format!("{source} gives"));
                    faults.extend(current.err().map(|fault| format!("{file}: {fault}")));
                    stray.remove(&file);
                }
            }
            Err(fault) => faults.push(fault),
        }
    }
    faults.extend(stray.iter().map(|file| format!("{file}: stray, no source gives it")));
    files::faultless(&faults)?;
    Ok(folder.sources.len())
}

/// The file names of a folder, sorted, so that the same folder always gives the same answer.
struct Folder {
    /// By the name of the book.
    sources: BTreeMap<String, String>,
    /// Sources whose book another source has given already.
    doubled: Vec<String>,
    others: BTreeSet<String>,
}

impl Folder {
    fn of(dir: &Path) -> Result<Folder, String> {
        let fault = |error| files::told(dir, error);
        let mut files = BTreeSet::new();
        for entry in fs::read_dir(dir).map_err(fault)? {
            let name = entry.map_err(fault)?.file_name();
            files.insert(name.to_string_lossy().into_owned());
        }
        let mut folder = Folder {
            sources: BTreeMap::new(),
            doubled: Vec::new(),
            others: BTreeSet::new(),
        };
        for file in files {
            let source = [".narration", ".words"].iter().find_map(|end| file.strip_suffix(end));
            match source.map(String::from) {
                None => {
                    folder.others.insert(file);
                }
                Some(name) if folder.sources.contains_key(&name) => folder.doubled.push(file),
                Some(name) => {
                    folder.sources.insert(name, file);
                }
            }
        }
        Ok(folder)
    }

    fn doubled(&self) -> Vec<String> {
        self.doubled
            .iter()
            .map(|file| format!("{file}: a second source of one book"))
            .collect()
    }
}

/// The derived files of a source, with their names.
fn derive(dir: &Path, source: &str) -> Result<[(String, Vec<u8>); 2], String> {
    let fault = |message: String| format!("{source}: {message}");
    let text = fs::read_to_string(dir.join(source)).map_err(|e| fault(e.to_string()))?;
    let (name, words) = match source.strip_suffix(".narration") {
        Some(name) => {
            let book = narration::narrate(&text).map_err(|mistake| fault(mistake.to_string()))?;
            (name, book.words())
        }
        None => (
            source.strip_suffix(".words").unwrap_or(source),
            words::of_text(&text).map_err(fault)?,
        ),
    };
    let bytes = words::to_bytes(&words);
    let line = translate::print(&bytes) + "\n";
    Ok([
        (format!("{name}.book"), bytes),
        (format!("{name}.listing"), line.into_bytes()),
    ])
}

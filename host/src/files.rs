//! Files and folders. Whatever goes wrong is told in a line that begins with the file's name; and a file that is made
//! from others is held against what it should be.

use std::fmt::Display;
use std::fs::{self, File};
use std::io::Read;
use std::path::{Path, PathBuf};

/// What is wrong, with the file's name.
pub fn told(path: &Path, wrong: impl Display) -> String {
    format!("{}: {wrong}", path.display())
}

pub fn bytes(path: &Path) -> Result<Vec<u8>, String> {
    fs::read(path).map_err(|error| told(path, error))
}

/// The first bytes of a file.
pub fn first_bytes(path: &Path, most: usize) -> Result<Vec<u8>, String> {
    let file = File::open(path).map_err(|error| told(path, error))?;
    read(file, most).map_err(|error| told(path, error))
}

/// The first bytes of anything that is read.
pub fn read(source: impl Read, most: usize) -> std::io::Result<Vec<u8>> {
    let mut bytes = Vec::new();
    source.take(most as u64).read_to_end(&mut bytes)?;
    Ok(bytes)
}

pub fn text(path: &Path) -> Result<String, String> {
    fs::read_to_string(path).map_err(|error| told(path, error))
}

pub fn write(path: &Path, content: &[u8]) -> Result<(), String> {
    fs::write(path, content).map_err(|error| told(path, error))
}

/// The files of a folder with this extension, sorted by name.
pub fn ending(folder: &Path, extension: &str) -> Result<Vec<PathBuf>, String> {
    let mut files = Vec::new();
    for entry in fs::read_dir(folder).map_err(|error| told(folder, error))? {
        let file = entry.map_err(|error| told(folder, error))?.path();
        if file.extension().is_some_and(|own| own == extension) {
            files.push(file);
        }
    }
    files.sort();
    Ok(files)
}

/// Whether a file has what its source gives; if not, what is wrong, without the file's name.
pub fn current(path: &Path, content: &[u8], source_gives: &str) -> Result<(), String> {
    match fs::read(path) {
        Ok(found) if found == content => Ok(()),
        Ok(_) => Err(format!("stale, not what {source_gives}")),
        Err(error) => Err(error.to_string()),
    }
}

/// A line for each fault, or that there is none.
pub fn faultless(faults: &[String]) -> Result<(), String> {
    if faults.is_empty() {
        Ok(())
    } else {
        Err(faults.join("\n"))
    }
}

/// Writes files into a folder.
pub fn write_all(folder: &Path, files: &[(&str, &Vec<u8>)]) -> Result<(), String> {
    let mut files = files.iter();
    files.try_for_each(|(name, content)| write(&folder.join(name), content))
}

/// Whether a folder has these files; a line for each that it hasn't.
pub fn all_current(folder: &Path, files: &[(&str, &Vec<u8>)], source_gives: &str) -> Result<(), String> {
    let mut faults = Vec::new();
    for (name, content) in files {
        let file = folder.join(name);
        let current = current(&file, content, source_gives);
        faults.extend(current.err().map(|fault| told(&file, fault)));
    }
    faultless(&faults)
}

//! Writing files so that nothing is lost: never over the source, never over what is something else, and whole or not at all.

use crate::failure::{plain, Failure};
use crate::input::shown;
use std::fs::{self, File, OpenOptions};
use std::io::{self, Write};
use std::path::{Path, PathBuf};

/// A file that may be written.
pub struct Target {
    /// Links are followed, so that what they lead to is replaced and not they.
    path: PathBuf,
    /// As it is shown.
    pub name: String,
    /// Those of the file that is there already.
    permissions: Option<fs::Permissions>,
}

impl Target {
    /// Of a path, if nothing is lost there. `source` is the file that is read, if one is; `ours` tells whether bytes that
    /// are there already are such as may be written anew, and `force` that they may whatever they are.
    pub fn of(
        path: &Path,
        source: Option<&Path>,
        ours: impl Fn(&[u8]) -> bool,
        what: &str,
        force: bool,
    ) -> Result<Target, Failure> {
        let name = shown(path);
        let wrong = |message: String| Err(Failure::file(format!("{name}: {message}")));
        let metadata = match fs::metadata(path) {
            Ok(metadata) => metadata,
            Err(_) if path.is_symlink() => return wrong("it is a link that leads nowhere".to_string()),
            Err(error) if error.kind() == io::ErrorKind::NotFound => {
                let path = path.to_path_buf();
                let permissions = None;
                return Ok(Target {
                    path,
                    name,
                    permissions,
                });
            }
            Err(error) => return wrong(reason(&error)),
        };
        if source.is_some_and(|source| same(source, path)) {
            return wrong("this is the file that is read, and it is not written over".to_string());
        }
        if metadata.is_dir() {
            return wrong("it is a folder, and a file is asked for".to_string());
        }
        if !metadata.is_file() {
            return wrong("it is no ordinary file, and is not written over".to_string());
        }
        if metadata.permissions().readonly() {
            return wrong("it may not be written".to_string());
        }
        let there = fs::read(path).map_err(|error| Failure::file(format!("{name}: {}", reason(&error))))?;
        if !there.is_empty() && !ours(&there) && !force {
            return wrong(format!(
                "there is a file that is no {what}, and it is not written over without --force"
            ));
        }
        match fs::canonicalize(path) {
            Ok(path) => Ok(Target {
                path,
                name,
                permissions: Some(metadata.permissions()),
            }),
            Err(error) => wrong(reason(&error)),
        }
    }
}

/// Whether two paths lead to one file: by their full names, or, through hard links, by the place on the disk.
fn same(one: &Path, other: &Path) -> bool {
    let full = |path: &Path| fs::canonicalize(path).ok();
    let equal = full(one).is_some() && full(one) == full(other);
    equal || one_place(one, other)
}

#[cfg(unix)]
fn one_place(one: &Path, other: &Path) -> bool {
    use std::os::unix::fs::MetadataExt;
    let place = |path: &Path| fs::metadata(path).ok().map(|data| (data.dev(), data.ino()));
    place(one).is_some() && place(one) == place(other)
}

#[cfg(not(unix))]
fn one_place(_: &Path, _: &Path) -> bool {
    false
}

/// What is read where standard input is asked for: a file, if it was handed over.
pub fn standard_input() -> Option<PathBuf> {
    let path = Path::new("/dev/stdin");
    path.is_file().then(|| path.to_path_buf())
}

/// Writes all of these, or, where one has no room, none: each goes beside its place first, and takes it when all are whole.
pub fn write(files: &[(Target, &[u8])]) -> Result<(), Failure> {
    let mut beside = Beside(Vec::new());
    for (number, (target, bytes)) in files.iter().enumerate() {
        if let Some((earlier, _)) = files[..number].iter().find(|(own, _)| own.path == target.path) {
            return Err(Failure::file(format!(
                "{} and {} are one file",
                earlier.name, target.name
            )));
        }
        let told =
            |error: io::Error| Failure::file(format!("{}: it can't be written: {}", target.name, reason(&error)));
        let path = near(&target.path, number);
        let mut file = (OpenOptions::new().write(true).create_new(true).open(&path)).map_err(told)?;
        beside.0.push(path.clone());
        whole(&mut file, bytes).map_err(told)?;
        if let Some(permissions) = &target.permissions {
            fs::set_permissions(&path, permissions.clone()).map_err(told)?;
        }
    }
    for (target, _) in files {
        let path = beside.0.remove(0);
        fs::rename(&path, &target.path).map_err(|error| {
            beside.0.push(path);
            Failure::file(format!("{}: it can't be written: {}", target.name, reason(&error)))
        })?;
    }
    Ok(())
}

/// Writes a file that is not there yet.
pub fn create(path: &Path, bytes: &[u8]) -> Result<(), Failure> {
    let name = shown(path);
    let mut file = match OpenOptions::new().write(true).create_new(true).open(path) {
        Ok(file) => file,
        Err(error) if error.kind() == io::ErrorKind::AlreadyExists => {
            return Err(Failure::file(format!(
                "{name}: there is such a file already, and it is not written over"
            )))
        }
        Err(error) => {
            return Err(Failure::file(format!(
                "{name}: it can't be written: {}",
                reason(&error)
            )))
        }
    };
    whole(&mut file, bytes).map_err(|error| {
        // What was begun is ours alone.
        let _ = fs::remove_file(path);
        Failure::file(format!("{name}: it can't be written: {}", reason(&error)))
    })
}

/// A full disk may show itself at the end alone.
fn whole(file: &mut File, bytes: &[u8]) -> io::Result<()> {
    file.write_all(bytes)?;
    file.sync_all()
}

/// Files that have not taken their places: what is left of them goes.
struct Beside(Vec<PathBuf>);

impl Drop for Beside {
    fn drop(&mut self) {
        for path in &self.0 {
            let _ = fs::remove_file(path);
        }
    }
}

/// A name beside a file's own that nobody else has.
fn near(path: &Path, number: usize) -> PathBuf {
    path.with_file_name(format!(".nghi-{}-{number}.new", std::process::id()))
}

/// The reason without the number that the system gives it.
fn reason(error: &io::Error) -> String {
    match error.kind() {
        io::ErrorKind::NotFound => String::from("there is no such folder"),
        io::ErrorKind::PermissionDenied => String::from("permission is denied"),
        _ => plain(error).to_lowercase(),
    }
}

//! Random mutants of the Rattle sources: one token of what runs is changed, in a copy of the repository, and the
//! prover is asked. One that is proved all the same is an equivalent program or shows a promise that is too weak;
//! which of the two, a person has to judge.

mod source;

pub use source::{sites, Names, Site};

use crate::files;
use crate::random::Random;
use std::collections::BTreeSet;
use std::fs;
use std::io::Write;
use std::path::{Path, PathBuf};
use std::process::Command;
use std::sync::atomic::{AtomicUsize, Ordering};

/// What stands in a crate's folder and is made, not written. A check in a copy of the repository begins with what another
/// kept on this machine, so a copy has none of it.
const MADE: &str = "out";

/// A source with one token changed.
pub struct Mutant {
    /// The crate, and the file under the repository.
    pub name: String,
    pub file: PathBuf,
    /// Counted from 1.
    pub line: usize,
    pub old: String,
    pub new: String,
    /// The line and the whole source, before and after.
    pub lines: [String; 2],
    pub texts: [String; 2],
}

/// What the prover says of a source.
enum Verdict {
    Proved,
    Refused(String),
    NotCompiled(String),
    Unknown(String),
}

/// So many mutants of a repository, or as many as there are places; the same seed, the same mutants.
pub fn choose(house: &Path, seed: u64, count: usize) -> Result<Vec<Mutant>, String> {
    let sources = sources(house)?;
    let mut names = Names::default();
    sources.iter().for_each(|(_, _, text)| names.read(text));
    let mut places: Vec<(usize, Site)> = Vec::new();
    for (number, (_, _, text)) in sources.iter().enumerate() {
        places.extend(sites(text, &names).into_iter().map(|site| (number, site)));
    }
    let mut random = Random::new(seed);
    let mut mutants = Vec::new();
    while mutants.len() < count && !places.is_empty() {
        let (number, site) = places.swap_remove(random.below(places.len()));
        let new = random.pick(&site.new);
        mutants.push(mutant(&sources[number], &site, new));
    }
    Ok(mutants)
}

/// Asks the prover about mutants of a repository, whose crates have to be proved, and tells what it says.
pub fn run(house: &Path, prover: &str, seed: u64, count: usize, out: &mut impl Write) -> Result<(), String> {
    let mutants = choose(house, seed, count)?;
    let copy = Copy::of(house)?;
    let mut sound = BTreeSet::new();
    let mut survivors = Vec::new();
    let mut tell = |text: String| writeln!(out, "{text}").map_err(|error| format!("standard output: {error}"));
    for mutant in &mutants {
        if sound.insert(&mutant.name) {
            match copy.verdict(prover, &mutant.name)? {
                Verdict::Proved => {}
                _ => return Err(format!("{} isn't proved as it stands; `rt check` first", mutant.name)),
            }
        }
        let file = copy.0.join(&mutant.file);
        files::write(&file, mutant.texts[1].as_bytes())?;
        let verdict = copy.verdict(prover, &mutant.name)?;
        files::write(&file, mutant.texts[0].as_bytes())?;
        let said = match verdict {
            Verdict::Proved => {
                survivors.push(mutant);
                "PROVED all the same".to_string()
            }
            Verdict::Refused(place) => format!("refused at {place}"),
            Verdict::NotCompiled(place) => format!("not compiled, {place}"),
            Verdict::Unknown(status) => format!("the prover can't tell, {status}"),
        };
        tell(format!("{}: {said}", mutant.told()))?;
    }
    tell(format!(
        "{} of {} are proved all the same",
        survivors.len(),
        mutants.len()
    ))?;
    for mutant in survivors {
        tell(format!(
            "\n{}\n- {}\n+ {}",
            mutant.told(),
            mutant.lines[0],
            mutant.lines[1]
        ))?;
    }
    Ok(())
}

impl Mutant {
    fn told(&self) -> String {
        let (file, line) = (self.file.display(), self.line);
        format!("{file}:{line}: `{}` to `{}`", self.old, self.new)
    }
}

fn mutant((name, file, text): &(String, PathBuf, String), site: &Site, new: &str) -> Mutant {
    let (before, behind) = (&text[..site.at], &text[site.at + site.old.len()..]);
    let changed = format!("{before}{new}{behind}");
    let line = before.matches('\n').count();
    let told = |text: &str| text.lines().nth(line).unwrap_or_default().trim().to_string();
    Mutant {
        name: name.clone(),
        file: file.clone(),
        line: line + 1,
        old: site.old.clone(),
        new: new.to_string(),
        lines: [told(text), told(&changed)],
        texts: [text.clone(), changed],
    }
}

/// The crates' sources, sorted: crate, file and text.
fn sources(house: &Path) -> Result<Vec<(String, PathBuf, String)>, String> {
    let crates = house.join("crates");
    let mut names = Vec::new();
    for entry in fs::read_dir(&crates).map_err(|error| files::told(&crates, error))? {
        let entry = entry.map_err(|error| files::told(&crates, error))?;
        names.push(entry.file_name().to_string_lossy().into_owned());
    }
    names.sort();
    let mut sources = Vec::new();
    for name in names {
        let folder = Path::new("crates").join(&name).join("src");
        if !house.join(&folder).is_dir() {
            continue;
        }
        for file in files::ending(&house.join(&folder), "rt")? {
            let under = folder.join(file.file_name().unwrap_or_default());
            sources.push((name.clone(), under, files::text(&file)?));
        }
    }
    Ok(sources)
}

/// A copy of what the prover needs, in a folder that goes when this does.
struct Copy(PathBuf);

impl Copy {
    fn of(house: &Path) -> Result<Copy, String> {
        static MADE: AtomicUsize = AtomicUsize::new(0);
        let (own, made) = (std::process::id(), MADE.fetch_add(1, Ordering::Relaxed));
        let folder = std::env::temp_dir().join(format!("host-mutants-{own}-{made}"));
        fs::create_dir(&folder).map_err(|error| files::told(&folder, error))?;
        let copy = Copy(folder);
        copied(&house.join("crates.txt"), &copy.0.join("crates.txt"))?;
        copied(&house.join("crates"), &copy.0.join("crates"))?;
        Ok(copy)
    }

    /// Asks the prover about a crate of the copy.
    fn verdict(&self, prover: &str, name: &str) -> Result<Verdict, String> {
        let mut command = Command::new(prover);
        let folder = self.0.join("crates").join(name);
        let asked = command.arg("check").current_dir(folder).output();
        let asked = asked.map_err(|error| format!("{prover}: {error}"))?;
        let said = [asked.stdout, asked.stderr].concat();
        let said = String::from_utf8_lossy(&said);
        let place = first_place(&said);
        Ok(match asked.status.code() {
            Some(0) => Verdict::Proved,
            Some(1) if said.lines().any(|line| line.starts_with(REFUSED)) => Verdict::Refused(place),
            Some(1) => Verdict::NotCompiled(place),
            _ => Verdict::Unknown(asked.status.to_string()),
        })
    }
}

/// How the prover begins the line that ends a check of what compiles and isn't proved.
const REFUSED: &str = "logic=not-proved";

impl Drop for Copy {
    fn drop(&mut self) {
        // What is left of it, if this fails, is in the way of nothing.
        let _ = fs::remove_dir_all(&self.0);
    }
}

/// File and line, under the crate's folder, of the first fault that is told: an error, or a note of what is not proved.
fn first_place(said: &str) -> String {
    let place = |line: &str| {
        let line = line.strip_prefix("note: ").unwrap_or(line);
        let line = line.strip_prefix("./").unwrap_or(line);
        let mut parts = line.split(':');
        let (file, line, column) = (parts.next()?, parts.next()?, parts.next()?);
        let is_number = |text: &str| !text.is_empty() && text.chars().all(|digit| digit.is_ascii_digit());
        let is_place = !file.contains(' ') && is_number(line) && is_number(column);
        is_place.then(|| format!("{file}:{line}"))
    };
    let first = said.lines().find_map(place);
    first.unwrap_or_else(|| "a place that isn't told".to_string())
}

/// Copies a file, or a folder with all that it has but what is made.
fn copied(from: &Path, to: &Path) -> Result<(), String> {
    if !from.is_dir() {
        return fs::copy(from, to).map(|_| ()).map_err(|error| files::told(from, error));
    }
    fs::create_dir(to).map_err(|error| files::told(to, error))?;
    for entry in fs::read_dir(from).map_err(|error| files::told(from, error))? {
        let name = entry.map_err(|error| files::told(from, error))?.file_name();
        if name != MADE {
            copied(&from.join(&name), &to.join(&name))?;
        }
    }
    Ok(())
}

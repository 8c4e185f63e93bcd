//! Finds the proved library and has it linked: the archive that `host/library` makes for the machine at hand, or the
//! one that NGHIRALUM_LIBRARY names.

use std::env;
use std::ffi::OsString;
use std::fs;
use std::io;
use std::path::{Path, PathBuf};
use std::process::{self, Command, Stdio};

/// An archive that was made before, which spares the script.
const GIVEN: &str = "NGHIRALUM_LIBRARY";
const SCRIPT: &str = "host/library";
/// The crate of the proved functions.
const CRATE: &str = "editor";
/// What is written of a crate. What is made stands beside it, and changes whenever something is proved.
const WRITTEN: [&str; 3] = ["src", "specs", "proofs"];

fn main() {
    if let Err(message) = link() {
        eprintln!("nghiralum: {message}");
        process::exit(1);
    }
}

fn link() -> Result<(), String> {
    println!("cargo:rerun-if-env-changed={GIVEN}");
    let archive = match env::var_os(GIVEN) {
        Some(given) => PathBuf::from(given),
        None => made()?,
    };
    println!("cargo:rerun-if-changed={}", archive.display());
    // A copy stays what it is, wherever the archive goes, and has the one name that the linker is told.
    let folder = PathBuf::from(var("OUT_DIR")?);
    let copied = fs::copy(&archive, folder.join("libnghiralum_proved.a"));
    copied.map_err(|error| format!("the proved library {}: {error}", archive.display()))?;
    println!("cargo:rustc-link-search=native={}", folder.display());
    println!("cargo:rustc-link-lib=static=nghiralum_proved");
    Ok(())
}

/// The archive that the script makes. What the script says where it fails is the message.
fn made() -> Result<PathBuf, String> {
    let package = PathBuf::from(var("CARGO_MANIFEST_DIR")?);
    let top = package.parent().ok_or("the package stands in no repository")?;
    for source in sources(top)? {
        println!("cargo:rerun-if-changed={}", source.display());
    }
    for_this_machine()?;
    let script = top.join(SCRIPT);
    let output = Command::new(&script)
        .args(["archive", CRATE])
        .stdin(Stdio::null())
        .output()
        .map_err(|error| format!("{}: {error}", script.display()))?;
    if !output.status.success() {
        let said = String::from_utf8_lossy(&output.stderr);
        return Err(format!(
            "the proved library can't be made\n{}\n{}",
            said.trim_end(),
            advice(&script)
        ));
    }
    let path = String::from_utf8_lossy(&output.stdout);
    Ok(PathBuf::from(path.trim_end()))
}

/// What the archive is made of: the script, the list of crates, and of each crate what is written.
fn sources(top: &Path) -> Result<Vec<PathBuf>, String> {
    let mut sources = vec![top.join(SCRIPT), top.join("crates.txt")];
    let crates = top.join("crates");
    let told = |error: io::Error| format!("{}: {error}", crates.display());
    for entry in fs::read_dir(&crates).map_err(told)? {
        let folder = entry.map_err(told)?.path();
        let written = WRITTEN.iter().map(|part| folder.join(part));
        sources.extend(written.filter(|part| part.is_dir()));
    }
    Ok(sources)
}

fn advice(script: &Path) -> String {
    let script = script.display();
    format!("It needs the Rattle kit (`rt`), or {GIVEN} set to an archive that `{script} archive {CRATE}` made before.")
}

/// The script makes a library for the machine that it runs on, and no other.
fn for_this_machine() -> Result<(), String> {
    let (target, machine) = (var("TARGET")?, var("HOST")?);
    if target == machine {
        return Ok(());
    }
    let (target, machine) = (target.to_string_lossy(), machine.to_string_lossy());
    Err(format!(
        "the proved library is made for the machine at hand, {machine}; for {target} set {GIVEN} to an archive for it"
    ))
}

fn var(name: &str) -> Result<OsString, String> {
    env::var_os(name).ok_or_else(|| format!("cargo hasn't set {name}"))
}

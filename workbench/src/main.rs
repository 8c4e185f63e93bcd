//! `nghi`: the workbench from the command line.

use std::ffi::OsString;
use std::io::{self, ErrorKind, Write};
use std::process::ExitCode;
use std::thread;
use workbench::commands::{self, Output};
use workbench::failure::{plain, Failure};

/// Terms are walked by recursion, up to a thousand deep.
const STACK: usize = 64 << 20;

fn main() -> ExitCode {
    let arguments: Vec<OsString> = std::env::args_os().skip(1).collect();
    let worker = thread::Builder::new().stack_size(STACK);
    let outcome = match worker
        .spawn(move || commands::run(&arguments))
        .map(thread::JoinHandle::join)
    {
        Ok(Ok(outcome)) => outcome,
        Ok(Err(_)) => Err(Failure::guard("the command came to grief")),
        Err(error) => Err(Failure::file(format!("no thread for the command: {error}"))),
    };
    let told = outcome.and_then(|Output { text, status, error }| match error {
        true => Ok(io::stderr().write_all(text.as_bytes()).map_or(status, |()| status)),
        false => say(&text).map(|()| status),
    });
    match told {
        Ok(status) => ExitCode::from(status),
        Err(failure) => {
            // Nobody is left to tell if this fails as well.
            let _ = writeln!(io::stderr(), "nghi: {failure}");
            ExitCode::from(failure.status)
        }
    }
}

/// Writes to standard output. Where nobody reads on, that is no fault; where the disk is full, it is.
fn say(text: &str) -> Result<(), Failure> {
    let mut out = io::stdout().lock();
    match out.write_all(text.as_bytes()).and_then(|()| out.flush()) {
        Err(error) if error.kind() != ErrorKind::BrokenPipe => {
            Err(Failure::file(format!("standard output: {}", plain(&error))))
        }
        _ => Ok(()),
    }
}

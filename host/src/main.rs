//! The commands of the second implementation: each reads its files, asks the library, and prints. Whatever a command
//! is given, it ends with an answer or with one message on standard error and status 2.

use host::requests::{self, Calls, Request};
use host::shelf::Shelf;
use host::{
    bench, book, compare, corpus, edits, files, frames, mutants, narration, random, rehearse, routes, translate, types,
    words,
};
use std::io::{self, Write};
use std::path::{Path, PathBuf};
use std::process::ExitCode;
use std::thread;

const USE: &str = "\
host translate [FILE]                   print a book's listing or refusal, as the small program does
host rehearse FILE SCHEDULE             play a book under a schedule (a file of words): events done
host narrate FILE [OUT]                 turn a narration into a book
host words FILE [OUT]                   turn decimal words (# to the line's end is a remark) into a book
host books [--check] DIR                write (or only check) the files derived in a folder of books
host shelf [--check] BOOKS CRATE        write (or only check) what the program shelf reads and prints
host requests [--check] BOOKS PROCESSES CRATE   write (or only check) what the program calls reads and prints
host requests --write FUNCTION WHAT..   print a request; a slice is a file, or =ITEM,.. (COUNTxITEM repeats one),
                                        a number its figures
host requests --random SEED COUNT       print random requests
host requests --answer                  answer the requests of standard input, as the program calls does
host edits [--check] CRATES DOC         write (or only check) the page of the must-fail edits
host mutants SEED COUNT                 ask the prover about random mutants of the sources, at the repository's top
host random SEED COUNT DIR              write random books
host compare PROGRAM PATH..             compare a program over books and folders of books
host compare PROGRAM --random SEED COUNT   compare a program over random books
host frames OBJECT [NAME..]             print the stack frames of an object's functions, in bytes (x86-64)
host bench LIB BOOKS [PLOT]             time proved code, a library made by host/library, against this and its anchor
host bench --types LIB                  time the check of derivations alone
host routes LIB SEED COUNT [DIR..]      compare proved bytes, proved words and this on books, schedules, questions and
                                        listings
host routes --lean SEED COUNT [DIR..]   compare the bench's anchor and this on books and schedules
host routes --types LIB SEED COUNT [DIR..]   compare proved bytes, proved words and this on derivations, of the processes
                                        of the folders and of random ones
host types FILE [OUT]                   derive the effect of a process; write OUT.asked and OUT.derivation
host types --check ASKED DERIVATION     print the verdict on a derivation, a file of words
host help                               print this
";

/// Deep terms are walked by recursion; a narration's text may be deeper than any term that passes.
const STACK: usize = 64 << 20;

fn main() -> ExitCode {
    let arguments: Vec<String> = (std::env::args_os().skip(1))
        .map(|argument| argument.to_string_lossy().into_owned())
        .collect();
    let worker = thread::Builder::new().stack_size(STACK);
    let outcome = match worker.spawn(move || run(&arguments)).map(|worker| worker.join()) {
        Ok(Ok(outcome)) => outcome,
        Ok(Err(_)) => Err("the command came to grief".to_string()),
        Err(error) => Err(format!("no thread for the command: {error}")),
    };
    match outcome {
        Ok(true) => ExitCode::SUCCESS,
        Ok(false) => ExitCode::FAILURE,
        Err(message) => {
            // Nobody is left to tell if this fails as well.
            let _ = writeln!(io::stderr(), "host: {message}");
            ExitCode::from(2)
        }
    }
}

/// Runs one command: whether all is well, or a message about what the command was given.
fn run(arguments: &[String]) -> Result<bool, String> {
    let arguments: Vec<&str> = arguments.iter().map(String::as_str).collect();
    match arguments.as_slice() {
        [] | ["help"] => say(USE)?,
        ["translate"] => {
            let book = files::read(io::stdin(), 4 * book::READ);
            let book = book.map_err(|error| format!("standard input: {error}"))?;
            say(&(translate::print(&book) + "\n"))?;
        }
        ["translate", file] => {
            let book = first_words(file, book::READ)?;
            say(&(translate::print(&book) + "\n"))?;
        }
        ["rehearse", file, schedule] => {
            let book = first_words(file, book::READ)?;
            let schedule = first_words(schedule, rehearse::READ)?;
            say(&(rehearse::print(&book, &schedule) + "\n"))?;
        }
        ["narrate", file, out @ ..] if out.len() < 2 => {
            let book = narration::narrate(&files::text(Path::new(file))?);
            let book = book.map_err(|mistake| format!("{file}: {mistake}"))?;
            another(file, out.first())?;
            give(&words::to_bytes(&book.words()), out.first())?;
        }
        ["words", file, out @ ..] if out.len() < 2 => {
            let words = words::of_text(&files::text(Path::new(file))?);
            let words = words.map_err(|mistake| format!("{file}: {mistake}"))?;
            another(file, out.first())?;
            give(&words::to_bytes(&words), out.first())?;
        }
        ["books", "--check", folder] => {
            let books = corpus::check(Path::new(folder))?;
            say(&format!("{books} books in {folder} are current\n"))?;
        }
        ["books", folder] => {
            let books = corpus::write(Path::new(folder))?;
            say(&format!("{books} books in {folder} are written\n"))?;
        }
        ["shelf", "--check", books, folder] => {
            let shelf = Shelf::of(Path::new(books))?;
            shelf.check(Path::new(folder))?;
            say(&format!("{}, current in {folder}\n", shelf.told()))?;
        }
        ["shelf", books, folder] if *books != "--check" => {
            let shelf = Shelf::of(Path::new(books))?;
            shelf.write(Path::new(folder))?;
            say(&format!("{}, written to {folder}\n", shelf.told()))?;
        }
        ["requests", "--answer"] => {
            requests::answer(&mut io::stdin().lock(), &mut io::stdout())?;
        }
        ["requests", "--write", function, given @ ..] => {
            give(&Request::of(function, given)?.bytes(), None)?;
        }
        ["requests", "--random", seed, count] => {
            give(&requests::random(number(seed)?, number(count)? as usize), None)?;
        }
        ["requests", "--check", books, processes, folder] => {
            let calls = Calls::of(Path::new(books), Path::new(processes))?;
            calls.check(Path::new(folder))?;
            say(&format!("{} requests, current in {folder}\n", calls.requests))?;
        }
        ["requests", books, processes, folder] if !books.starts_with("--") => {
            let calls = Calls::of(Path::new(books), Path::new(processes))?;
            calls.write(Path::new(folder))?;
            say(&format!("{} requests, written to {folder}\n", calls.requests))?;
        }
        ["edits", "--check", crates, page] => {
            let edits = edits::Page::of(Path::new(crates))?;
            edits.check(Path::new(page))?;
            say(&format!("{} edits in {page} are current\n", edits.edits))?;
        }
        ["edits", crates, page] if *crates != "--check" => {
            let edits = edits::Page::of(Path::new(crates))?;
            edits.write(Path::new(page))?;
            say(&format!("{} edits in {page} are written\n", edits.edits))?;
        }
        ["mutants", seed, count] => {
            let (seed, count) = (number(seed)?, number(count)? as usize);
            mutants::run(Path::new("."), "rt", seed, count, &mut io::stdout())?;
        }
        ["random", seed, count, folder] => {
            random::write(number(seed)?, number(count)? as usize, Path::new(folder))?;
        }
        ["compare", program, "--random", seed, count] => {
            let (seed, count) = (number(seed)?, number(count)? as usize);
            return compare::random(program, seed, count, &mut io::stdout());
        }
        ["compare", program, first, rest @ ..] if *first != "--random" => {
            let paths = [&[*first], rest].concat();
            let paths: Vec<PathBuf> = paths.iter().map(PathBuf::from).collect();
            return compare::over(program, &paths, &mut io::stdout());
        }
        ["frames", object, names @ ..] => {
            for frame in frames::read(Path::new(object), names)? {
                say(&format!("{} {}\n", frame.bytes, frame.name))?;
            }
        }
        ["bench", "--types", library] => bench::run_types(Path::new(library), &mut io::stdout())?,
        ["bench", library, books, plot @ ..] if plot.len() < 2 => {
            let (library, books) = (Path::new(library), Path::new(books));
            let plot = plot.first().map(Path::new);
            bench::run(library, books, plot, &mut io::stdout())?;
        }
        ["routes", "--lean", seed, count, folders @ ..] => {
            let (seed, count) = (number(seed)?, number(count)? as usize);
            let folders: Vec<PathBuf> = folders.iter().map(PathBuf::from).collect();
            return routes::run_lean(seed, count, &folders, &mut io::stdout());
        }
        ["routes", "--types", library, seed, count, folders @ ..] => {
            let (seed, count) = (number(seed)?, number(count)? as usize);
            let folders: Vec<PathBuf> = folders.iter().map(PathBuf::from).collect();
            return routes::types::run(Path::new(library), seed, count, &folders, &mut io::stdout());
        }
        ["routes", library, seed, count, folders @ ..] => {
            let (seed, count) = (number(seed)?, number(count)? as usize);
            let folders: Vec<PathBuf> = folders.iter().map(PathBuf::from).collect();
            return routes::run(Path::new(library), seed, count, &folders, &mut io::stdout());
        }
        ["types", "--check", asked, derivation] => {
            let asked = some_words(asked)?;
            let apart = if types::keeps_apart(&asked) {
                "apart"
            } else {
                "not apart"
            };
            let verdict = types::verdict(&asked, &some_words(derivation)?);
            say(&format!("{verdict}; bound names are {apart}\n"))?;
        }
        ["types", file, out @ ..] if out.len() < 2 && *file != "--check" => {
            let (told, derived) =
                types::tell(&files::text(Path::new(file))?).map_err(|mistake| format!("{file}: {mistake}"))?;
            if let (Some(out), Some(derived)) = (out.first(), derived) {
                give(&words::to_bytes(&derived.asked), Some(&format!("{out}.asked").as_str()))?;
                give(
                    &words::to_bytes(&derived.derivation),
                    Some(&format!("{out}.derivation").as_str()),
                )?;
            }
            say(&ended(told))?;
        }
        [command, ..] => {
            return Err(format!("what is asked with `{command}` isn't clear\n\n{USE}"));
        }
    }
    Ok(true)
}

fn number(text: &str) -> Result<u64, String> {
    let number = text.parse();
    number.map_err(|_| format!("`{text}` is no number"))
}

/// The bytes of a file's first words, "and no further".
fn first_words(name: &str, most: usize) -> Result<Vec<u8>, String> {
    files::first_bytes(Path::new(name), 4 * most)
}

/// The words of a file of what is asked or of a derivation.
fn some_words(name: &str) -> Result<Vec<u32>, String> {
    let words = words::of_bytes(&first_words(name, types::READ)?);
    words.map_err(|_| format!("{name}: the bytes are no words, four each"))
}

fn ended(mut text: String) -> String {
    if !text.ends_with('\n') {
        text.push('\n');
    }
    text
}

fn say(text: &str) -> Result<(), String> {
    give(text.as_bytes(), None)
}

/// Refuses to write over the source.
fn another(source: &str, out: Option<&&str>) -> Result<(), String> {
    let full = |path: &str| std::fs::canonicalize(path).ok();
    match out {
        Some(out) if full(source).is_some() && full(source) == full(out) => {
            Err(format!("{out}: this is the source, and it is not written over"))
        }
        _ => Ok(()),
    }
}

/// Writes bytes to a file, or to standard output; a closed pipe is an error like any other.
fn give(bytes: &[u8], file: Option<&&str>) -> Result<(), String> {
    match file {
        Some(name) => files::write(Path::new(name), bytes),
        None => {
            let mut out = io::stdout().lock();
            let written = out.write_all(bytes).and_then(|()| out.flush());
            written.map_err(|error| format!("standard output: {error}"))
        }
    }
}

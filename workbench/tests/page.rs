//! The page in a browser, where a Chromium is installed: at its first, a middle and its last move, what is marked as done is what
//! `nghi draw --json` says is done by then; the arrow keys; what is tied. Where none is installed, each test says that it was
//! skipped.

use std::collections::BTreeSet;
use std::ffi::OsString;
use std::fs;
use std::path::{Path, PathBuf};
use std::process::{Command, Stdio};
use workbench::commands::run;

const NAMES: [&str; 4] = ["chromium", "chromium-browser", "google-chrome", "chrome"];

fn browser() -> Option<&'static str> {
    NAMES.into_iter().find(|name| {
        let asked = Command::new(name)
            .arg("--version")
            .stdout(Stdio::null())
            .stderr(Stdio::null())
            .status();
        asked.is_ok_and(|status| status.success())
    })
}

/// The page as the browser has it after its script ran, at this move.
fn shown(browser: &str, folder: &Path, page: &Path, at: usize) -> Option<String> {
    let profile = format!("--user-data-dir={}", folder.join("profile").display());
    let address = format!("file://{}#move={at}", page.display());
    let options = [
        "--headless",
        "--no-sandbox",
        "--disable-gpu",
        "--virtual-time-budget=3000",
        "--dump-dom",
    ];
    let output = (Command::new(browser).args(options).arg(profile).arg(address))
        .stdin(Stdio::null())
        .stderr(Stdio::null())
        .output()
        .ok()?;
    let text = String::from_utf8(output.stdout).ok()?;
    text.contains("id=\"stepper\"").then_some(text)
}

/// The value of an attribute in a tag's text.
fn attribute<'t>(tag: &'t str, name: &str) -> Option<&'t str> {
    let from = tag.find(&format!(" {name}=\""))? + name.len() + 3;
    tag[from..].split('"').next()
}

/// Of the tags of this kind that belong to a move: its number, and whether it is marked as done.
fn marks(page: &str, tag: &str) -> Vec<(usize, bool)> {
    let begin = format!("<{tag} ");
    let tags = page.split(&begin).skip(1).filter_map(|rest| rest.split('>').next());
    tags.filter_map(|tag| {
        let tag = format!(" {tag}");
        let number = attribute(&tag, "data-move")?.parse().ok()?;
        let classes = attribute(&tag, "class").unwrap_or("");
        Some((number, classes.split(' ').any(|class| class == "done")))
    })
    .collect()
}

fn answer(arguments: &[&str]) -> String {
    let arguments: Vec<OsString> = arguments.iter().map(OsString::from).collect();
    run(&arguments).expect("an answer").text
}

/// The numbers behind `"move": ` in what is printed for programs.
fn moves(json: &str) -> Vec<usize> {
    let numbers = json.split("\"move\": ").skip(1);
    numbers
        .filter_map(|rest| rest.split(|sign: char| !sign.is_ascii_digit()).next()?.parse().ok())
        .collect()
}

/// A page in a folder of its own, and what `nghi draw --json` says of it; nothing where there is no browser.
struct Page {
    browser: &'static str,
    folder: PathBuf,
    page: PathBuf,
    json: String,
    /// How many moves there are.
    last: usize,
}

impl Page {
    fn of(name: &str) -> Option<Page> {
        let Some(browser) = browser() else {
            println!("skipped: no Chromium is installed");
            return None;
        };
        let folder = std::env::temp_dir().join(format!("nghi-page-{name}-{}", std::process::id()));
        fs::create_dir_all(&folder).expect("a folder");
        let page = folder.join("page.html");
        let narration = Path::new(env!("CARGO_MANIFEST_DIR")).join("../books/kerberos.narration");
        let narration = narration.to_str().expect("a path that is text");
        answer(&["draw", narration, "-o", page.to_str().expect("a path that is text")]);
        let json = answer(&["draw", narration, "--json"]);
        let moves = json
            .split("\"moves\": [")
            .nth(1)
            .and_then(|rest| rest.split(']').next());
        let last = moves.map_or(0, |moves| moves.matches("\"party\"").count());
        assert!(last > 10);
        Some(Page {
            browser,
            folder,
            page,
            json,
            last,
        })
    }

    fn shown(&self, at: usize) -> Option<String> {
        let shown = shown(self.browser, &self.folder, &self.page, at);
        if shown.is_none() {
            println!("skipped: {} shows no page here", self.browser);
        }
        shown
    }

    /// The page after a person did this: a script behind the page's own does it.
    fn after(&self, script: &str) -> Option<String> {
        let text = fs::read_to_string(&self.page).expect("the page");
        let end = "</body>";
        assert!(text.matches(end).count() == 1);
        let with = text.replace(end, &format!("<script>{script}</script>{end}"));
        fs::write(&self.page, with).expect("written");
        let shown = self.shown(self.last);
        fs::write(&self.page, text).expect("written");
        shown
    }
}

impl Drop for Page {
    fn drop(&mut self) {
        let _ = fs::remove_dir_all(&self.folder);
    }
}

#[test]
fn at_some_moves() {
    let Some(page) = Page::of("moves") else { return };
    let last = page.last;
    let mut seen = BTreeSet::new();
    for at in [0, last / 2, last] {
        let Some(dom) = page.shown(at) else { return };
        let told = match at {
            0 => format!("Before the first of {last} moves."),
            _ => format!("Move {at} of {last}, "),
        };
        assert!(dom.contains(&told), "{told}");
        let (cells, lines) = (marks(&dom, "td"), marks(&dom, "li"));
        // As many as the answer for programs has: an event's line each, and a cell for each term that is held.
        assert_eq!(cells.len() + lines.len(), moves(&page.json).len());
        for (number, done) in cells.iter().chain(&lines) {
            assert_eq!(*done, at >= *number, "move {number} at {at}");
        }
        seen.insert(cells.iter().filter(|(_, done)| *done).count());
    }
    // More is held as the run goes on.
    assert_eq!(seen.len(), 3, "{seen:?}");
}

/// The arrow keys go a move back or on, and the address says where one is.
#[test]
fn keys() {
    let Some(page) = Page::of("keys") else { return };
    let press = "['ArrowLeft', 'ArrowLeft', 'ArrowLeft', 'ArrowRight', 'Enter'].forEach(function (key) { \
                 document.dispatchEvent(new KeyboardEvent('keydown', { key: key, bubbles: true })); }); \
                 document.title = location.hash;";
    let Some(dom) = page.after(press) else { return };
    let at = page.last - 2;
    assert!(dom.contains(&format!("Move {at} of {}, ", page.last)));
    assert!(dom.contains(&format!("<title>#move={at}</title>")));
    for (number, done) in marks(&dom, "li") {
        assert_eq!(done, at >= number, "move {number}");
    }
}

/// Pointing at a chip ties it, its line of the program and its line of the source; pointing away unties them.
#[test]
fn pointing() {
    let Some(page) = Page::of("pointing") else { return };
    let point = "var chip = document.querySelector('.chip.open'); \
                 chip.dispatchEvent(new MouseEvent('mouseover', { bubbles: true })); \
                 document.title = chip.getAttribute('data-event') + ' ' + chip.getAttribute('data-step');";
    let Some(dom) = page.after(point) else { return };
    let tied = |dom: &str| -> Vec<String> {
        let tags = dom.split('<').filter_map(|rest| rest.split('>').next());
        let tied =
            tags.filter(|tag| attribute(tag, "class").is_some_and(|all| all.split(' ').any(|own| own == "tied")));
        tied.map(str::to_string).collect()
    };
    let title = dom
        .split("<title>")
        .nth(1)
        .and_then(|rest| rest.split("</title>").next());
    let (event, step) = title.and_then(|title| title.split_once(' ')).expect("the chip's own");
    let found = tied(&dom);
    assert_eq!(found.len(), 3, "{found:?}");
    let of = |tag: &str, kind: &str, value: &str| tag.starts_with(kind) && tag.contains(value);
    let (event, step) = (format!("data-event=\"{event}\""), format!("data-step=\"{step}\""));
    assert!(found.iter().any(|tag| of(tag, "g ", &event)), "{found:?}");
    assert!(found.iter().any(|tag| of(tag, "li ", &event)), "{found:?}");
    assert!(
        found
            .iter()
            .any(|tag| of(tag, "li ", &step) && !tag.contains("data-event")),
        "{found:?}"
    );
    let away = format!("{point} chip.dispatchEvent(new MouseEvent('mouseout', {{ bubbles: true }}));");
    let Some(dom) = page.after(&away) else { return };
    assert!(tied(&dom).is_empty());
}

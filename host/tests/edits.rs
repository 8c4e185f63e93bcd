//! The page of the must-fail edits, made from their heads.

mod common;

use common::{complains, printed, top, Folder};
use host::edits::Page;
use std::fs;

const PAST: &str = "\
# wrong: writes at the length itself
# refused: nothing outside is written
# at: `put`: slice-write-out
# log: omega: at 0 | 0
file: src/lib.rt
old:     if at < out.len() {
new:     if at <= out.len() {
";

const SOURCE: &str = "fn put() {\n    if at < out.len() {\n    }\n}\n";

/// Two crates with edits, listed against the order of their names, one as a static library, and one without.
fn house(name: &str) -> Folder {
    let list = b"# NAME: what it stands on\nwords:\nplain: words\nline staticlib: words\n";
    let house = Folder::with(name, &[("crates.txt", list)]);
    for folder in ["crates/words/must-fail", "crates/line/must-fail", "crates/plain/src"] {
        fs::create_dir_all(house.at().join(folder)).expect("a folder");
    }
    for folder in ["crates/words/src", "crates/line/src"] {
        fs::create_dir_all(house.at().join(folder)).expect("a folder");
        house.file(&format!("{folder}/lib.rt"), SOURCE);
    }
    house.file("crates/words/must-fail/past.edit", PAST);
    house.file(
        "crates/words/must-fail/again.edit",
        PAST.replace("the length", "its end"),
    );
    house.file("crates/words/must-fail/remark.txt", "no edit");
    house.file("crates/line/must-fail/late.edit", PAST);
    house
}

#[test]
fn the_page_is_current() {
    let page = Page::of(&top().join("crates")).unwrap();
    assert_eq!(page.check(&top().join("docs/EDITS.md")), Ok(()));
    assert!(page.edits >= 56);
}

/// An edit whose text is not in its file, or is there twice, is a fault.
#[test]
fn an_edit_that_does_not_apply() {
    let house = house("edits-apply");
    let fault = |source: &str| {
        house.file("crates/line/src/lib.rt", source);
        Page::of(&house.at().join("crates")).map(|page| page.edits)
    };
    assert_eq!(fault(SOURCE), Ok(3));
    assert!(fault("fn put() {}\n").unwrap_err().ends_with("is not in src/lib.rt"));
    assert!(fault(&SOURCE.repeat(2)).unwrap_err().ends_with("more than once"));
    let idle = |edit: String| {
        house.file("crates/line/src/lib.rt", SOURCE);
        house.file("crates/line/must-fail/late.edit", edit);
        Page::of(&house.at().join("crates")).map(|page| page.edits)
    };
    let unchanged = [PAST.replace("<=", "<"), PAST.replace("new:", "now:")];
    for edit in unchanged {
        assert!(idle(edit).unwrap_err().ends_with("nothing is changed"));
    }
}

#[test]
fn a_table_for_each_crate() {
    let house = house("edits");
    let page = Page::of(&house.at().join("crates")).unwrap();
    assert_eq!(page.edits, 3);
    let (preamble, tables) = page.text.split_once("\n## words\n").expect("a table");
    assert!(preamble.starts_with("# The must-fail edits\n"));
    let head = "| edit | the wrong program | why it must be refused | refused at | what the log says first |\n";
    let rest = "nothing outside is written | `put`: slice-write-out | omega: at 0 \\| 0 |\n";
    let words = format!(
        "\n{head}|---|---|---|---|---|\n\
         | `again` | writes at its end itself | {rest}| `past` | writes at the length itself | {rest}"
    );
    let line = format!("\n## line\n\n{head}|---|---|---|---|---|\n| `late` | writes at the length itself | {rest}");
    assert_eq!(tables, words + &line);
}

#[test]
fn heads_that_lack_a_line() {
    let house = house("edits-heads");
    let crates = house.path("crates");
    let edit = house.path("crates/line/must-fail/late.edit");
    for line in ["wrong", "refused", "at", "log"] {
        let begin = format!("# {line}:");
        let without: Vec<&str> = PAST.lines().filter(|line| !line.starts_with(&begin)).collect();
        let empty = format!("{begin}\n{}", without.join("\n"));
        let twice = format!("{begin} once more\n{PAST}");
        for (text, fault) in [
            (without.join("\n"), "is missing"),
            (empty, "is missing"),
            (twice, "stands there twice"),
        ] {
            fs::write(&edit, text).expect("an edit");
            let told = complains(&["edits", &crates, &house.path("EDITS.md")]);
            assert_eq!(told, format!("host: {edit}: `{begin}` {fault}\n"));
        }
    }
    assert!(!house.at().join("EDITS.md").exists());
}

#[test]
fn written_and_checked() {
    let house = house("edits-command");
    let (crates, page) = (house.path("crates"), house.path("EDITS.md"));
    complains(&["edits", "--check", &crates, &page]);
    assert_eq!(
        printed(&["edits", &crates, &page]),
        format!("3 edits in {page} are written\n")
    );
    assert_eq!(
        printed(&["edits", "--check", &crates, &page]),
        format!("3 edits in {page} are current\n")
    );
    house.file("crates/line/must-fail/late.edit", PAST.replace("itself", "alone"));
    let told = complains(&["edits", "--check", &crates, &page]);
    assert_eq!(told, format!("host: {page}: stale, not what the edits give\n"));
    // A crate that the list doesn't name; and no list.
    house.file("crates.txt", "words:\n");
    let told = complains(&["edits", &crates, &page]);
    let line = house.path("crates/line");
    assert_eq!(
        told,
        format!("host: {line}: has edits, and is not in {}\n", house.path("crates.txt"))
    );
    house.remove("crates.txt");
    complains(&["edits", &crates, &page]);
    complains(&["edits", &crates]);
    complains(&["edits", "--check", &crates]);
}

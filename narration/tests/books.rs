//! Books written as narrations: each narrates to the very same book.

use narration::book::Book;
use narration::{narrate, write, Names};
use std::fs;
use std::path::{Path, PathBuf};

fn book(text: &str) -> Book {
    narrate(text).expect("a narration").book
}

/// The book of a text, written with made-up names.
fn written(text: &str) -> String {
    let book = book(text);
    write(&book, &Names::made_up(&book))
}

#[test]
fn parties_and_steps() {
    let text = written(
        "# Comments and names are not in a book.\n\
        party Tag knows Reader, K, KR+\n\
        party Reader makes nothing knows Reader, K, KR-\n\
        party Server\n\
        Tag -> Reader: {N, h(M)}KR+, {}K\n\
        Reader -> Tag:\n\
        Server -> Tag: h(M), {Reader, O}({N}K)+\n",
    );
    let expected = "\
party A knows B, n2, n3+
party B makes nothing knows B, n2, n3-
party C

A -> B: {n7, op0(n8)}n3+, {}n2
B -> A:
C -> A: op0(n8), {B, n14}({n7}n2)+
";
    assert_eq!(text, expected);
    assert_eq!(written(&text), expected);
    assert_eq!(written("party A"), "party A\n");
}

#[test]
fn a_rows_line_where_the_order_needs_it() {
    // The known rows are sorted, so Y would come before X.
    let text = written("party A knows f(X, Y), Y\n");
    let expected = "rows A, n1, n2, op0(n1, n2)\n\nparty A knows n2, op0(n1, n2)\n";
    assert_eq!(text, expected);
    // A row that nothing uses; a row before the first name; and long lines are broken.
    assert_eq!(written("rows N\nparty A"), "rows n0, A\n\nparty A\n");
    let long = written("rows f(N1, N2, N3, N4, N5, N6, N7), g(N1, N2, N3, N4, N5, N6, N7)\nparty A");
    let expected = "\
rows n0, n1, n2, n3, n4, n5, n6, op0(n0, n1, n2, n3, n4, n5, n6)
rows op1(n0, n1, n2, n3, n4, n5, n6), A

party A
";
    assert_eq!(long, expected);
}

/// A text's own names are used where they are asked for.
#[test]
fn with_the_names_of_a_text() {
    let text = "party Tag knows K\nparty Reader knows K\n\nReader -> Tag: N\nTag -> Reader: h({N}K)\n";
    let narration = narrate(text).expect("a narration");
    assert_eq!(write(&narration.book, &narration.names), text);
}

#[test]
fn every_narration_comes_back() {
    let folder = Path::new(env!("CARGO_MANIFEST_DIR")).join("../books");
    let files = fs::read_dir(folder).expect("the folder of books");
    let files = files.map(|entry| entry.expect("a file").path());
    let narrations: Vec<PathBuf> = files
        .filter(|path| path.extension().is_some_and(|own| own == "narration"))
        .collect();
    assert!(narrations.len() > 100);
    for path in narrations {
        let book = book(&fs::read_to_string(&path).expect("a text"));
        let text = write(&book, &Names::made_up(&book));
        let again = narrate(&text).unwrap_or_else(|mistakes| panic!("{path:?}: {mistakes:?}\n{text}"));
        assert!(again.book == book, "{path:?}\n{text}");
        assert_eq!(write(&again.book, &again.names), text, "{path:?}");
    }
}

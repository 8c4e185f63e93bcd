//! Narration texts: what they give, and where their mistakes are found.

mod common;

use common::{atom, book, making_nothing, party, row, step, EXAMPLE_1};
use host::book::{read, Row};
use host::narration::narrate;
use host::random::Random;

/// The rows of a text of one party A that has these `rows` lines; A, row 0, is left out.
fn rows(terms: &str) -> Vec<Row> {
    let text = format!("rows A\nrows {terms}\nparty A\n");
    let mut rows = narrate(&text)
        .unwrap_or_else(|mistake| panic!("{terms}: {mistake}"))
        .rows;
    assert_eq!(rows.remove(0), atom());
    rows
}

#[test]
fn the_whole_trial() {
    let text = "# ISO symmetric-key two-pass unilateral authentication\n\
        party A knows A, B, K\n\
        party B knows A, B, K\n\
        \n\
        B -> A: N\n\
        A -> B: {N, B}K\n";
    assert_eq!(narrate(text).unwrap().words(), EXAMPLE_1);
}

#[test]
fn forms_of_terms() {
    assert_eq!(rows("K"), [atom()]);
    assert_eq!(rows("N_B', 0"), [atom(), atom()]);
    assert_eq!(rows("f()"), [row(1, 0, &[])]);
    assert_eq!(rows("f(K, K)"), [atom(), row(1, 0, &[1, 1])]);
    assert_eq!(rows("{}K"), [atom(), row(2, 0, &[1])]);
    assert_eq!(rows("K+"), [atom(), row(3, 0, &[1])]);
    assert_eq!(rows("K+-"), [atom(), row(3, 0, &[1]), row(4, 0, &[2])]);
    // A sign belongs to the key, unless parentheses keep it off.
    let key = [atom(), row(3, 0, &[1]), atom(), row(2, 0, &[2, 3])];
    assert_eq!(rows("{N}K+"), key);
    assert_eq!(rows("{N}(K+)"), key);
    let whole = [atom(), atom(), row(2, 0, &[1, 2]), row(3, 0, &[3])];
    assert_eq!(rows("({N}K)+"), whole);
    assert_eq!(rows("(({N}(K)))+"), whole);
    // A key may be any term.
    assert_eq!(
        rows("{N}{M}K"),
        [atom(), atom(), row(2, 0, &[1, 2]), atom(), row(2, 0, &[3, 4])]
    );
    assert_eq!(
        rows("{N}f(K)-"),
        [atom(), row(1, 0, &[1]), row(4, 0, &[2]), atom(), row(2, 0, &[3, 4])]
    );
}

#[test]
fn rows_in_the_order_of_appearance() {
    // Parts before their row, a key before the contents, and no term twice.
    assert_eq!(
        rows("{N, f(M)}K, M, f(M), {N, f(M)}K"),
        [atom(), atom(), atom(), row(1, 0, &[3]), row(2, 0, &[1, 2, 4])]
    );
    // A party's name before what it knows; known rows sorted.
    let narrated = narrate("party A knows g(X, Y), Y, A\nparty B\nB -> A: B, Z\nA -> B:\n").unwrap();
    let expected = book(
        vec![atom(), atom(), atom(), row(1, 0, &[1, 2]), atom(), atom()],
        &[party(0, &[0, 2, 3]), party(4, &[])],
        &[step(1, 0, &[4, 5]), step(0, 1, &[])],
    );
    assert_eq!(narrated, expected);
}

#[test]
fn parties_that_make_nothing() {
    let text = "party A makes nothing knows K\nparty B makes nothing\nparty C\nC -> A: N\n";
    let plain = book(
        vec![atom(), atom(), atom(), atom(), atom()],
        &[party(0, &[1]), party(2, &[]), party(3, &[])],
        &[step(2, 0, &[4])],
    );
    assert_eq!(narrate(text), Ok(making_nothing(plain.clone(), &[0, 1])));
    // Nothing but the marks.
    assert_eq!(narrate(&text.replace(" makes nothing", "")), Ok(plain));
}

#[test]
fn tags_of_operations() {
    let tags = |terms: &str| -> Vec<u32> { rows(terms).iter().map(|row| row.tag).collect() };
    assert_eq!(tags("f(), g(), f(g())"), [0, 1, 0]);
    assert_eq!(tags("op5(), op0(), op65535()"), [5, 0, 65535]);
    // Other names keep clear of every opN of the text, also of later ones.
    assert_eq!(tags("f(), op0(), g(), op2()"), [1, 0, 3, 2]);
    // No opN: a leading zero, a number out of range, no number, more than a number.
    assert_eq!(tags("op00(), op65536(), op(), op1x(), op1()"), [0, 2, 3, 4, 1]);
    // An atom of that name takes no tag, and may share an operation's name.
    assert_eq!(tags("op0, f(), f"), [0, 0, 0]);
    // The order of names is that of the text: the contents stand before the key there.
    assert_eq!(tags("{f()}g()"), [1, 0, 0]);
    assert_eq!(tags("f(g(h()))"), [2, 1, 0]);
}

#[test]
fn blanks_comments_and_line_ends() {
    let plain = narrate("party A knows K\nparty B\nA -> B: {N}K-, f(K)\n").unwrap();
    for text in [
        "party A knows K\nparty B\nA -> B: {N}K-, f(K)",
        "party A knows K\r\nparty B\r\nA -> B: {N}K-, f(K)\r\n",
        "\n\n  party\tA   knows K # who\n#\nparty B#\n\nA->B:{N}K-,f(K)# A -> B: N",
        "party A knows K\nparty B\nA  ->  B  :  { N } K -  ,  f ( K )  \n\n",
    ] {
        assert_eq!(narrate(text).as_ref(), Ok(&plain), "{text:?}");
    }
    let marked = making_nothing(plain, &[0, 1]);
    let text = "party A  makes\tnothing   knows K\nparty B makes nothing# no more\nA -> B: {N}K-, f(K)\n";
    assert_eq!(narrate(text), Ok(marked));
}

#[test]
fn no_word_is_reserved() {
    let text = "rows rows, party, knows\n\
        party rows knows rows\n\
        party party knows knows\n\
        party knows\n\
        party -> rows: party, rows\n\
        rows -> knows: knows(), party-\n\
        knows->party:rows->x";
    let text = text.replace("rows->x", "rows");
    // `knows` is a party, so it can't be an operation; everything else goes.
    let mistake = narrate(&text).unwrap_err();
    assert_eq!((mistake.spot.line, mistake.spot.column), (6, 16));
    let book = narrate(&text.replace("knows()", "f()")).unwrap();
    assert_eq!(book.parties.len(), 3);
    assert_eq!(book.steps.len(), 3);

    let text = "rows makes, nothing()\n\
        party makes makes nothing knows makes, nothing\n\
        party nothing knows makes\n\
        party party makes nothing\n\
        makes -> nothing: makes, nothing\n";
    let mistake = narrate(text).unwrap_err();
    assert_eq!((mistake.spot.line, mistake.spot.column), (1, 13));
    let book = narrate(&text.replace("nothing()", "f()")).unwrap();
    let makes: Vec<bool> = book.parties.iter().map(|party| party.makes).collect();
    assert_eq!(makes, [false, true, false]);
    assert_eq!(book.parties[0].known, [0, 2]);
}

/// The text, and where its mistake is to be found.
#[rustfmt::skip]
const MISTAKES: &[(&str, usize, usize, &str)] = &[
    ("", 1, 1, "expected a party, found the end of the text"),
    ("# nothing\n\n", 3, 1, "expected a party, found the end of the text"),
    ("rows N", 1, 7, "expected a party, found the end of the text"),
    ("party", 1, 6, "expected the party's name, found the end of the line"),
    ("party {A}K", 1, 7, "expected the party's name, found `{`"),
    ("party A(N)", 1, 8, "expected `makes nothing`, `knows` or the end of the line, found `(`"),
    ("party A B", 1, 9, "expected `makes nothing`, `knows` or the end of the line, found `B`"),
    ("party A nothing", 1, 9, "expected `makes nothing`, `knows` or the end of the line, found `nothing`"),
    ("party A makes", 1, 14, "expected `nothing` (what a party makes is not listed), found the end of the line"),
    ("party A makes N", 1, 15, "expected `nothing` (what a party makes is not listed), found `N`"),
    ("party A makes knows K", 1, 15, "expected `nothing` (what a party makes is not listed), found `knows`"),
    ("party A makes, K", 1, 14, "expected `nothing` (what a party makes is not listed), found `,`"),
    ("party A makes nothing K", 1, 23, "expected `knows` or the end of the line, found `K`"),
    ("party A makes nothing makes nothing", 1, 23, "expected `knows` or the end of the line, found `makes`"),
    ("party A makes nothing knows", 1, 28, "expected a term, found the end of the line"),
    ("party A knows K makes nothing", 1, 17, "expected `,` or the end of the line, found `makes`"),
    ("party A knows", 1, 14, "expected a term, found the end of the line"),
    ("party A knows K,  # more", 1, 17, "expected a term, found the end of the line"),
    ("party A knows K M", 1, 17, "expected `,` or the end of the line, found `M`"),
    ("party A knows K, K", 1, 18, "expected each term once in what a party knows, found this one again"),
    ("party A knows f(K), (f(K))", 1, 22, "expected each term once in what a party knows, found this one again"),
    ("party A\n party A", 2, 8, "expected a party not declared yet, found `A` a second time"),
    ("party A knows A(K)", 1, 15, "expected an operation's name, found `A`, which is a party's name"),
    ("rows f(B(), N)\nparty A\nparty B", 1, 8, "expected an operation's name, found `B`, which is a party's name"),
    ("rows", 1, 5, "expected a term, found the end of the line"),
    ("party A\nrows N", 2, 1, "expected a party or a step (`rows` lines come first), found `rows`"),
    ("party A\nparty B\nA -> B: N\nparty C", 4, 1, "expected a step (parties come before the steps), found `party`"),
    ("A -> B: N", 1, 10, "expected a party, found the end of the text"),
    ("party A\nA -> B: N", 2, 6, "expected a party's name, found `B`, which no party line declares"),
    ("party A\nC -> A: N", 2, 1, "expected a party's name, found `C`, which no party line declares"),
    ("party A\nA -> A: N", 2, 6, "expected a receiver other than the sender, found `A` again"),
    ("party A\nA B: N", 2, 3, "expected `->` (if this is no `party` and no `rows` line), found `B`"),
    ("parties A", 1, 9, "expected `->` (if this is no `party` and no `rows` line), found `A`"),
    ("party A\nA", 2, 2, "expected `->` (if this is no `party` and no `rows` line), found the end of the line"),
    ("-> A: N", 1, 1, "expected `rows`, `party` or a step, found `->`"),
    ("{N}K", 1, 1, "expected `rows`, `party` or a step, found `{`"),
    ("party A\nA -> : N", 2, 6, "expected the receiver's name, found `:`"),
    ("party A\nA -> B N", 2, 8, "expected `:`, found `N`"),
    ("party A\nA -> B", 2, 7, "expected `:`, found the end of the line"),
    ("party A\nA -> B: N ->", 2, 11, "expected `,` or the end of the line, found `->`"),
    ("party A\nA -> B: N,", 2, 11, "expected a term, found the end of the line"),
    ("party A\nA -> B: , N", 2, 9, "expected a term, found `,`"),
    ("party A\nA -> B: +K", 2, 9, "expected a term, found `+`"),
    ("party A\nA -> B: f(N", 2, 12, "expected `,` or `)`, found the end of the line"),
    ("party A\nA -> B: f(N,)", 2, 13, "expected a term, found `)`"),
    ("party A\nA -> B: f(N})", 2, 12, "expected `,` or `)`, found `}`"),
    ("party A\nA -> B: {N", 2, 11, "expected `,` or `}`, found the end of the line"),
    ("party A\nA -> B: {N)K", 2, 11, "expected `,` or `}`, found `)`"),
    ("party A\nA -> B: {N}", 2, 12, "expected a term, found the end of the line"),
    ("party A\nA -> B: {N}, K", 2, 12, "expected a term, found `,`"),
    ("party A\nA -> B: {}+", 2, 11, "expected a term, found `+`"),
    ("party A\nA -> B: (N", 2, 11, "expected `)`, found the end of the line"),
    ("party A\nA -> B: (N, M)", 2, 11, "expected `)`, found `,`"),
    ("party A\nA -> B: ()", 2, 10, "expected a term, found `)`"),
    ("party A\nA -> B: K)", 2, 10, "expected `,` or the end of the line, found `)`"),
    // A letter of any script is one of a name; the column is counted in characters.
    ("party A knows \u{00e9}\u{20ac}", 1, 16, "expected `,` or the end of the line, found `\u{20ac}`"),
    ("party A knows \u{1f511}, K", 1, 15, "expected a term, found `\u{1f511}`"),
    ("party A knows K # \u{1f511}\n  % ", 2, 3, "expected `rows`, `party` or a step, found `%`"),
    ("party A\nA -> B: f(1,2,3,4,5,6,7,8, 9)", 2, 28, "expected at most 8 arguments, found one more"),
    ("party A\nA -> B: {1,2,3,4,5,6,7,8,9}K", 2, 26, "expected at most 8 contents, found one more"),
    ("party A\nA -> B: 1,2,3,4,5,6,7,8,9", 2, 25, "expected at most 8 messages, found one more"),
    (concat!("party A\nA -> B: K", "0123456789012345678901234567890123456789012345678901234567890123456789012345678901234567890123456789",
             "0123456789012345678901234567890123456789012345678901234567890123456789012345678901234567890123456789",
             "0123456789012345678901234567890123456789012345678901234"), 2, 9, "expected a name of at most 255 letters, found one of 256"),
    // The first line that has one, whether it is badly written or says something wrong.
    ("party A\nparty A\nA -> B: (", 2, 7, "expected a party not declared yet, found `A` a second time"),
    ("party A\nparty B (\nA -> C: N", 2, 9, "expected `makes nothing`, `knows` or the end of the line, found `(`"),
];

#[test]
fn mistakes_with_line_and_column() {
    for (text, line, column, message) in MISTAKES {
        let mistake = narrate(text).expect_err(text);
        let expected = format!("line {line}, column {column}: {message}");
        assert_eq!(mistake.to_string(), expected, "{text:?}");
        assert_eq!((mistake.spot.line, mistake.spot.column), (*line, *column));
    }
}

fn list(count: usize, term: impl Fn(usize) -> String) -> String {
    let terms: Vec<String> = (0..count).map(term).collect();
    terms.join(", ")
}

/// A text at a limit is a book; one over it, a mistake at this spot.
fn limit(text: impl Fn(usize) -> String, most: usize, line: usize, column: usize, message: &str) {
    let book = narrate(&text(most)).unwrap_or_else(|mistake| panic!("{message}: {mistake}"));
    assert_eq!(read(&book.words()), Ok(book));
    let mistake = narrate(&text(most + 1)).expect_err(message);
    let expected = format!("line {line}, column {column}: expected {message}");
    assert_eq!(mistake.to_string(), expected);
}

#[test]
fn limits() {
    let atoms = |count| list(count, |n| format!("n{n:04}"));
    limit(
        |n| format!("rows {}\nparty n0000", atoms(n)),
        1024,
        1,
        6 + 1024 * 7,
        "at most 1024 rows, found a term that needs one more",
    );
    limit(
        |n| format!("party A knows {}", atoms(n)),
        256,
        1,
        15 + 256 * 7,
        "at most 256 known terms, found one more",
    );
    limit(
        |n| (0..n).map(|n| format!("party P{n}\n")).collect(),
        16,
        17,
        7,
        "at most 16 parties, found one more",
    );
    limit(
        |n| format!("party A\nparty B\n{}", "A -> B: N\n".repeat(n)),
        64,
        67,
        1,
        "at most 64 steps, found one more",
    );
    limit(
        |n| format!("party A knows K{}", "-".repeat(n)),
        1022,
        1,
        15,
        "a term of size at most 1024, found one of size 1025",
    );
    // 255 ciphers under K and a half more or less, in the contents.
    limit(
        |n| {
            format!(
                "party A knows {}N{}{}",
                "{".repeat(255),
                "+".repeat(n),
                "}K".repeat(255)
            )
        },
        2,
        1,
        15,
        "a term of size at most 1024, found one of size 1025",
    );
}

#[test]
fn the_pool_is_bounded() {
    // 1,000 operations of eight arguments take 8,000 words; the rest goes to what a party knows.
    let digits = |n: usize| -> String { list(8, |place| format!("{}", (n >> place) & 1)) };
    let operations = (0..1000)
        .map(|n| format!("rows f{}({})\n", n / 256, digits(n)))
        .collect::<String>();
    let known = |count| list(count, |n| format!("f0({})", digits(n)));
    let text = |count| format!("{operations}party A knows {}\n", known(count));
    let book = narrate(&text(192)).unwrap();
    assert_eq!(book.words()[6], 8192);
    assert_eq!(read(&book.words()), Ok(book));
    let mistake = narrate(&text(193)).unwrap_err();
    assert_eq!(
        mistake.to_string(),
        format!(
            "line 1001, column {}: expected lists of at most 8192 words in all, found a term that needs more",
            15 + 192 * 28
        )
    );
    // One message, and one row, over it.
    let place = |text: &str| {
        let spot = narrate(text).unwrap_err().spot;
        (spot.line, spot.column)
    };
    assert_eq!(place(&format!("{}party B\nA -> B: B, 0\n", text(191))), (1003, 12));
    assert_eq!(place(&format!("{}party B\nA -> B: {{}}{{}}K\n", text(191))), (1003, 9));
}

/// No nesting of a text, however deep, takes the stack with it.
#[test]
fn nesting_deeper_than_any_stack() {
    let deep = 1_000_000;
    let term = |begin: &str, middle: &str, end: &str| {
        narrate(&format!(
            "party A knows {}{middle}{}",
            begin.repeat(deep),
            end.repeat(deep)
        ))
    };
    assert!(term("(", "K", ")").is_ok());
    for (begin, middle, end) in [
        ("", "K", "+"),
        ("{", "N", "}K"),
        ("{}", "K", ""),
        ("f(", "N", ")"),
        ("(", "K", ")-"),
    ] {
        let mistake = term(begin, middle, end).unwrap_err();
        assert!(mistake.expected == "a term of size at most 1024");
    }
    for (begin, middle, end) in [("(", "", ""), ("f(", "N", ""), ("{", "N", "}"), ("{}", "", "")] {
        assert!(term(begin, middle, end).is_err());
    }
}

fn pick(random: &mut Random, from: &[&'static str]) -> &'static str {
    from[random.below(from.len())]
}

/// A random text, most of them close to narrations.
fn text(random: &mut Random) -> String {
    const PIECES: [&str; 26] = [
        "A", "B", "K", "N", "f(", "op1(", "{", "}", "}K", "(", ")", ",", ", ", "+", "-", "->", ":", " ", "#", "party",
        "knows", "makes ", "nothing", "rows", "\n", "f()",
    ];
    let mut text = String::new();
    if random.percent(80) {
        text.push_str("party A knows A, K\nparty B\n");
    }
    for _ in 0..random.below(4) {
        if random.percent(80) {
            text.push_str(pick(
                random,
                &[
                    "A -> B: ",
                    "B -> A: ",
                    "rows ",
                    "party C knows ",
                    "party C makes nothing knows ",
                ],
            ));
        }
        if random.percent(70) {
            term(random, 4, &mut text);
        }
        for _ in 0..random.below(3) {
            text.push_str(pick(random, &PIECES));
        }
        text.push('\n');
    }
    text
}

fn term(random: &mut Random, depth: usize, text: &mut String) {
    match random.below(if depth == 0 { 1 } else { 5 }) {
        0 => text.push_str(pick(random, &["A", "B", "K", "N", "M", "op1", "f"])),
        1 => {
            text.push_str(pick(random, &["f(", "g(", "op1(", "op0("]));
            terms(random, depth, text);
            text.push(')');
        }
        2 => {
            text.push('{');
            terms(random, depth, text);
            text.push('}');
            term(random, depth - 1, text);
        }
        3 => {
            text.push('(');
            term(random, depth - 1, text);
            text.push(')');
        }
        _ => {
            term(random, depth - 1, text);
            text.push_str(pick(random, &["+", "-"]));
        }
    }
}

fn terms(random: &mut Random, depth: usize, text: &mut String) {
    for n in 0..random.below(4) {
        text.push_str(if n == 0 { "" } else { ", " });
        term(random, depth - 1, text);
    }
}

/// Whatever is accepted passes refusals 1 to 9; whatever isn't has its spot in the text.
#[test]
fn accepted_texts_are_books() {
    let mut random = Random::new(1);
    let mut accepted = 0;
    for _ in 0..20_000 {
        let text = text(&mut random);
        match narrate(&text) {
            Ok(book) => {
                accepted += 1;
                assert_eq!(read(&book.words()).as_ref(), Ok(&book), "{text}");
            }
            Err(mistake) => {
                let line = text.split('\n').nth(mistake.spot.line - 1).expect(&text);
                assert!(mistake.spot.column <= line.chars().count() + 1, "{text}\n{mistake}");
                assert!(!mistake.expected.is_empty() && !mistake.found.is_empty(), "{mistake}");
            }
        }
    }
    assert!(accepted > 4_000, "{accepted} of the texts are narrations");
}

//! What is read of a text besides its book: names, places, and all of its mistakes. The host's tests have the books.

use narration::book::Book;
use narration::{lines, narrate, Mistake, Names, Spot};

const TEXT: &str = "# a tag\nparty Tag makes nothing knows K, f(K)\nparty Reader knows K\n\nReader -> Tag: N\n\tTag -> Reader: {N, Tag}K, ({N}K)+\n";

fn at(line: usize, column: usize, length: usize) -> Spot {
    Spot { line, column, length }
}

#[test]
fn names_and_places() {
    let narration = narrate(TEXT).expect("a narration");
    let texts = narration.names.texts(&narration.book);
    let told = |places: &[(u32, Spot)]| -> Vec<(String, Spot)> {
        (places.iter())
            .map(|(row, spot)| (texts[*row as usize].clone(), *spot))
            .collect()
    };
    let term = |text: &str, spot: Spot| (text.to_string(), spot);
    let [tag, reader] = &narration.parties[..] else {
        panic!("two parties");
    };
    assert_eq!((tag.name, reader.name), (at(2, 7, 3), at(3, 7, 6)));
    assert_eq!(told(&tag.known), [term("K", at(2, 31, 1)), term("f(K)", at(2, 34, 4))]);
    let [first, second] = &narration.steps[..] else {
        panic!("two steps");
    };
    assert_eq!((first.sender, first.receiver), (at(5, 1, 6), at(5, 11, 3)));
    // A tab is a character.
    assert_eq!((second.sender, second.receiver), (at(6, 2, 3), at(6, 9, 6)));
    let halves = [term("{N, Tag}K", at(6, 17, 9)), term("({N}K)+", at(6, 28, 7))];
    assert_eq!(told(&second.messages), halves);
    // Parts too, each where it stands.
    let all = told(&narration.terms);
    assert!(all.contains(&term("Tag", at(6, 21, 3))) && all.contains(&term("K", at(2, 36, 1))));
}

#[test]
fn printed_back_it_is_the_same() {
    let narration = narrate(TEXT).expect("a narration");
    let book = &narration.book;
    assert_eq!(Book::of(&book.words()).as_ref(), Some(book));
    assert_eq!(Book::of(&book.words()[..20]), None);
    assert_eq!(Book::of(&[]), None);
    let made_up = Names::made_up(book).texts(book);
    assert_eq!(made_up[..3], ["A", "n1", "op0(n1)"]);
}

#[test]
fn letters_and_line_ends() {
    let plain = narrate("party Ä knows Ключ\nparty B\nÄ -> B: {N₁}Ключ\n");
    // A figure below the line is a number's sign, as others.
    assert!(plain.is_ok(), "{plain:?}");
    let names = plain.expect("a narration").names;
    assert_eq!(names.atoms[..2], [Some("Ä".to_string()), Some("Ключ".to_string())]);
    let book = |text: &str| narrate(text).map(|narration| narration.book);
    let unix = book("party A knows K\nparty B\nA -> B: K\n").expect("a book");
    for other in [
        "\u{feff}party A knows K\nparty B\nA -> B: K\n",
        "party A knows K\rparty B\rA -> B: K\r",
        "party A knows K\r\nparty B\r\nA -> B: K\r\n",
        "party A knows K\n\rparty B\n\n\rA -> B: K",
    ] {
        assert_eq!(book(other).as_ref(), Ok(&unix), "{other:?}");
    }
    assert_eq!(lines("a\r\nb\rc\nd\n"), ["a", "b", "c", "d", ""]);
    assert_eq!(lines(""), [""]);
}

#[test]
fn every_mistake() {
    let told = |text: &str| -> Vec<String> {
        let mistakes: Vec<Mistake> = narrate(text).expect_err("mistakes");
        mistakes.iter().map(Mistake::to_string).collect()
    };
    // Of how it is written, a line's first each.
    assert_eq!(
        told("party A knows K,\nparty\nA -> : N\nA -> B: {N, f(}K"),
        [
            "line 1, column 17: expected a term, found the end of the line",
            "line 2, column 6: expected the party's name, found the end of the line",
            "line 3, column 6: expected the receiver's name, found `:`",
            "line 4, column 15: expected a term, found `}`",
        ]
    );
    // Of the other lines what they say; of a name that stands in a line which can't be read nothing is known.
    assert_eq!(
        told("party A\nparti B\nA -> C: N\nB -> A: {N\nA -> A: N"),
        [
            "line 2, column 7: expected `->` (if this is no `party` and no `rows` line), found `B`",
            "line 3, column 6: expected a party's name, found `C`, which no party line declares",
            "line 4, column 11: expected `,` or `}`, found the end of the line",
            "line 5, column 6: expected a receiver other than the sender, found `A` again",
        ]
    );
    // Of what it says, all.
    assert_eq!(
        told("party A knows K, K\nparty A\nA -> C: N\nD -> A: A(N)\nA -> A: N"),
        [
            "line 1, column 18: expected each term once in what a party knows, found this one again",
            "line 2, column 7: expected a party not declared yet, found `A` a second time",
            "line 3, column 6: expected a party's name, found `C`, which no party line declares",
            "line 4, column 1: expected a party's name, found `D`, which no party line declares",
            "line 4, column 9: expected an operation's name, found `A`, which is a party's name",
            "line 5, column 6: expected a receiver other than the sender, found `A` again",
        ]
    );
    // A limit is told once, however often it is passed.
    let many: String = (0..1_100).map(|n| format!("rows n{n}\n")).collect();
    assert_eq!(told(&format!("{many}party A")).len(), 1);
    let mistakes = narrate("party A knows {N}K, {N}K").expect_err("a mistake");
    assert_eq!(mistakes[0].spot.length, 4);
}

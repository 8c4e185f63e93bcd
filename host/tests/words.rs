//! Words from bytes and from decimal texts, and back.

use host::book::Refusal;
use host::words::{first, line, of_bytes, of_text, to_bytes};

#[test]
fn bytes_low_byte_first() {
    let words = [0, 1, 256, 0x0403_0201, u32::MAX];
    let bytes = to_bytes(&words);
    assert_eq!(bytes[..8], [0, 0, 0, 0, 1, 0, 0, 0]);
    assert_eq!(bytes[8..], [0, 1, 0, 0, 1, 2, 3, 4, 255, 255, 255, 255]);
    assert_eq!(of_bytes(&bytes), Ok(words.to_vec()));
    assert_eq!(of_bytes(&[]), Ok(vec![]));
    for odd in [1, 2, 3, 17] {
        assert_eq!(of_bytes(&bytes[..odd]), Err(Refusal::new(1, &[0])));
    }
}

#[test]
fn so_far_and_no_further() {
    assert_eq!(first(&[1, 2, 3], 1), [1, 2, 3]);
    assert_eq!(first(&[1, 2, 3, 4, 5], 1), [1, 2, 3, 4]);
    assert_eq!(first(&[1, 2, 3, 4, 5], 2), [1, 2, 3, 4, 5]);
}

#[test]
fn a_line() {
    assert_eq!(line(&[]), "");
    assert_eq!(line(&[7]), "7");
    assert_eq!(line(&[0, 10, u32::MAX]), "0 10 4294967295");
    assert_eq!(of_text(&line(&[3, 0, 9])), Ok(vec![3, 0, 9]));
}

#[test]
fn texts_and_their_mistakes() {
    assert_eq!(of_text(""), Ok(vec![]));
    let text = "1 2\t3\r\n# 4\n  5# 6 x\n4294967295 007";
    assert_eq!(of_text(text), Ok(vec![1, 2, 3, 5, 4294967295, 7]));
    for (text, spot, found) in [
        ("1 x", "line 1, column 3", "x"),
        ("1\n 2 -3", "line 2, column 4", "-3"),
        ("+1", "line 1, column 1", "+1"),
        ("1\n\n\u{00e9} 4294967296", "line 3, column 1", "\u{00e9}"),
        ("1, 2", "line 1, column 1", "1,"),
        ("0 4294967296", "line 1, column 3", "4294967296"),
    ] {
        let expected = format!("{spot}: expected a word from 0 to 4294967295, found `{found}`");
        assert_eq!(of_text(text), Err(expected));
    }
}

//! Words of 32 bits as they come and go: as the bytes of a file, four each, low byte first; as decimal texts with
//! remarks; and in decimal on one line. Nothing else in the host makes words of bytes or of text, or the other way.

use crate::book::Refusal;

/// The words of a file's bytes; "if the count of bytes read isn't a multiple of four it says refusal 1, place 0".
pub fn of_bytes(bytes: &[u8]) -> Result<Vec<u32>, Refusal> {
    let chunks = bytes.chunks_exact(4);
    if !chunks.remainder().is_empty() {
        return Err(Refusal::new(1, &[0]));
    }
    let word = |chunk: &[u8]| u32::from_le_bytes([chunk[0], chunk[1], chunk[2], chunk[3]]);
    Ok(chunks.map(word).collect())
}

/// The bytes of a file of these words.
pub fn to_bytes(words: &[u32]) -> Vec<u8> {
    words.iter().flat_map(|word| word.to_le_bytes()).collect()
}

/// The bytes of at most so many words, "and no further": odd bytes behind the last of them aren't seen.
pub fn first(bytes: &[u8], most: usize) -> &[u8] {
    &bytes[..bytes.len().min(4 * most)]
}

/// The words of a text: decimal, separated by blanks, `#` comments to the end of the line.
pub fn of_text(text: &str) -> Result<Vec<u32>, String> {
    let mut words = Vec::new();
    for (number, line) in text.lines().enumerate() {
        let line = line.split('#').next().unwrap_or("");
        for piece in line.split_ascii_whitespace() {
            match of_figures(piece) {
                Some(word) => words.push(word),
                None => {
                    // The piece is a part of the line, so the distance of the two is its place there.
                    let before = piece.as_ptr() as usize - line.as_ptr() as usize;
                    let column = line[..before].chars().count() + 1;
                    return Err(format!(
                        "line {}, column {column}: expected a word from 0 to {}, found `{piece}`",
                        number + 1,
                        u32::MAX
                    ));
                }
            }
        }
    }
    Ok(words)
}

/// The word of a text that has decimal figures alone.
fn of_figures(text: &str) -> Option<u32> {
    let figures = text.bytes().all(|byte| byte.is_ascii_digit());
    text.parse().ok().filter(|_| figures)
}

/// A number that is asked for in decimal, or what is wrong with it.
pub fn number(text: &str) -> Result<u32, String> {
    of_figures(text).ok_or_else(|| format!("`{text}` is no number from 0 to {}", u32::MAX))
}

/// Words in decimal on one line with single spaces, without the line's end.
pub fn line(words: &[u32]) -> String {
    let words: Vec<String> = words.iter().map(u32::to_string).collect();
    words.join(" ")
}

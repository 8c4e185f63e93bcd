//! What is handed in: a file or standard input, and whether it is a narration or a book. The kind is told by the content.

use crate::failure::{plain, Failure};
use std::ffi::OsStr;
use std::fs;
use std::io::{self, Read};
use std::path::{Path, PathBuf};

/// More bytes than any book or listing has, and than a narration needs. What is larger is not read at all: a part of it says
/// something else.
const MOST: u64 = 16 << 20;

/// Bytes, and what they are called.
pub struct Input {
    /// The path as it is shown, or "standard input".
    pub name: String,
    /// Nothing for standard input.
    pub path: Option<PathBuf>,
    pub bytes: Vec<u8>,
}

#[derive(Clone, PartialEq, Eq, Debug)]
pub enum Content {
    Narration(String),
    Book,
    /// Neither; what it seems to be.
    Other(&'static str),
}

impl Input {
    /// Of a path, or of `-`.
    pub fn read(path: &OsStr) -> Result<Input, Failure> {
        let name = name(path);
        if path == "-" {
            let bytes =
                whole(io::stdin().lock()).map_err(|error| Failure::file(format!("{name}: {}", plain(&error))))?;
            return Ok(Input {
                name,
                path: None,
                bytes,
            });
        }
        let path = Path::new(path);
        let told = |error: io::Error| Failure::file(format!("{name}: {}", reason(path, &error)));
        let bytes = fs::File::open(path).and_then(whole).map_err(told)?;
        Ok(Input {
            name,
            path: Some(path.to_path_buf()),
            bytes,
        })
    }

    pub fn content(&self) -> Content {
        content(&self.bytes)
    }
}

/// What a path, or `-`, is called.
pub fn name(path: &OsStr) -> String {
    match path == "-" {
        true => "standard input".to_string(),
        false => shown(Path::new(path)),
    }
}

/// A path as it is shown: what a terminal would take for a command is one unknown character.
pub fn shown(path: &Path) -> String {
    let plain = |sign: char| if sign.is_control() { '\u{fffd}' } else { sign };
    match path.as_os_str().is_empty() {
        true => "``".to_string(),
        false => path.display().to_string().chars().map(plain).collect(),
    }
}

/// All bytes that there are.
fn whole(from: impl Read) -> io::Result<Vec<u8>> {
    let mut bytes = Vec::new();
    from.take(MOST + 1).read_to_end(&mut bytes)?;
    match bytes.len() as u64 <= MOST {
        true => Ok(bytes),
        false => Err(io::Error::other("it has more than 16 MB, and so much is not read")),
    }
}

/// The reason without the number that the system gives it.
fn reason(path: &Path, error: &io::Error) -> String {
    match error.kind() {
        io::ErrorKind::NotFound => "there is no such file".to_string(),
        io::ErrorKind::PermissionDenied => "it can't be read: permission is denied".to_string(),
        _ if path.is_dir() => "it is a folder, and a narration or a book is asked for".to_string(),
        _ => plain(error),
    }
}

/// Text is a narration, well written or not. What is no text is a book, right or wrong, unless it is plainly something else.
fn content(bytes: &[u8]) -> Content {
    const KINDS: [(&[u8], &str); 13] = [
        (b"\x89PNG", "a PNG picture"),
        (b"\xff\xd8\xff", "a JPEG picture"),
        (b"GIF8", "a GIF picture"),
        (b"%PDF", "a PDF document"),
        (b"PK\x03\x04", "a ZIP archive, or a document of an office program"),
        (b"\x1f\x8b", "a gzip archive"),
        (b"\xfd7zXZ", "an xz archive"),
        (b"\x7fELF", "a program"),
        (b"\xff\xfe\0\0", "text in UTF-32"),
        (b"\0\0\xfe\xff", "text in UTF-32"),
        (b"\xff\xfe", "text in UTF-16"),
        (b"\xfe\xff", "text in UTF-16"),
        (b"RIFF", "a sound, a film or a WebP picture"),
    ];
    if let Some((_, kind)) = KINDS.iter().find(|(front, _)| bytes.starts_with(front)) {
        return Content::Other(kind);
    }
    match std::str::from_utf8(bytes) {
        Ok(text) if !text.contains('\0') => Content::Narration(text.to_string()),
        // A book's header has its rows at word 8.
        _ if bytes.len() >= 8 && bytes[4..8] == [8, 0, 0, 0] => Content::Book,
        _ if bytes.starts_with(b"BM") => Content::Other("a BMP picture"),
        _ if bytes.starts_with(b"BZh") => Content::Other("a bzip2 archive"),
        _ if of_two_bytes(bytes) => Content::Other("text in UTF-16"),
        Err(_) if bytes.iter().all(|byte| written(*byte)) => Content::Other("text that is not UTF-8"),
        Ok(_) if mostly(bytes.iter().copied(), typed) => Content::Other("text with a zero byte in it"),
        _ => Content::Book,
    }
}

/// Whether most of these are such, four of five.
fn mostly(bytes: impl Iterator<Item = u8> + Clone, such: fn(u8) -> bool) -> bool {
    bytes.clone().filter(|byte| such(*byte)).count() * 5 > bytes.count() * 4
}

/// A byte that a keyboard gives, whatever the coding.
fn typed(byte: u8) -> bool {
    matches!(byte, b' '..=b'~' | b'\n' | b'\r' | b'\t')
}

/// The same, or a letter of another coding. A book has zeros in its header, and more of them behind it.
fn written(byte: u8) -> bool {
    typed(byte) || byte >= 0x80
}

/// Text of two bytes a letter: one is typed and the other is zero. Of a book's words two bytes of four are zero at least.
fn of_two_bytes(bytes: &[u8]) -> bool {
    let every_other = |from: usize| bytes.iter().copied().skip(from).step_by(2);
    let zero = |byte: u8| byte == 0;
    let as_text = |text: usize, zeros: usize| mostly(every_other(text), typed) && mostly(every_other(zeros), zero);
    bytes.len() >= 4 && bytes.len().is_multiple_of(2) && (as_text(0, 1) || as_text(1, 0))
}

#[cfg(test)]
mod tests {
    use super::*;

    #[test]
    fn whole_or_not_at_all() {
        let read = |bytes: u64| whole(io::repeat(b' ').take(bytes)).map(|read| read.len() as u64);
        assert_eq!(read(MOST).ok(), Some(MOST));
        assert!(read(MOST + 1).is_err());
    }

    #[test]
    fn kinds() {
        let text = |bytes: &[u8]| matches!(content(bytes), Content::Narration(_));
        assert!(text(b"party A\n") && text(b"") && text("party Ä\n".as_bytes()) && text(b"\xef\xbb\xbfparty A"));
        assert_eq!(content(&[1, 0, 0, 0, 8, 0, 0, 0]), Content::Book);
        assert_eq!(content(&[0; 7]), Content::Book);
        assert_eq!(content(b"\x89PNG\r\n"), Content::Other("a PNG picture"));
        assert!(matches!(content(b"party M\xfcller knows K\n"), Content::Other(_)));
        assert!(matches!(content(b"\xff\xfep\0a\0"), Content::Other(_)));
        // Russian in Windows-1251, and text of two bytes a letter.
        assert_eq!(
            content(b"party \xca\xeb\xfe\xf7\n"),
            Content::Other("text that is not UTF-8")
        );
        assert_eq!(content(b"\xca\xeb\xfe\x01"), Content::Book);
        assert_eq!(content(b"p\0a\0r\0t\0y\0"), Content::Other("text in UTF-16"));
        assert_eq!(content(b"\0p\0a\0r\0t\0y"), Content::Other("text in UTF-16"));
        assert_eq!(content(b"p\0\0\0a\0\0\0"), Content::Book);
        assert_eq!(content(b"\xff\xfe\0\0p\0\0\0"), Content::Other("text in UTF-32"));
        assert_eq!(
            content(b"party A knows K\0\n"),
            Content::Other("text with a zero byte in it")
        );
    }
}

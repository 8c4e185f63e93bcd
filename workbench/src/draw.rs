//! Pictures of a run: the scene that is drawn, and the three forms that it is drawn in.

pub mod html;
pub mod mmd;
pub mod scene;
pub mod svg;

use crate::failure::Failure;
use scene::Scene;
use std::ffi::OsStr;
use std::path::Path;

/// A picture of more events than this is a wall and no picture.
pub const MOST_EVENTS: usize = 400;

/// What a picture is written as.
#[derive(Clone, Copy, PartialEq, Eq, Debug)]
pub enum Form {
    Svg,
    Html,
    Mermaid,
}

impl Form {
    /// By the name that `--as` has.
    pub fn named(name: &str) -> Option<Form> {
        match name {
            "svg" => Some(Form::Svg),
            "html" => Some(Form::Html),
            "mmd" => Some(Form::Mermaid),
            _ => None,
        }
    }

    /// By the end of a file's name.
    pub fn of_path(path: &OsStr) -> Option<Form> {
        let end = Path::new(path).extension()?.to_str()?;
        Form::named(&end.to_ascii_lowercase())
    }
}

/// The picture of a scene. Each event stands in it once.
pub fn picture(scene: &Scene, form: Form) -> Result<String, Failure> {
    match form {
        Form::Svg => svg::picture(scene, svg::Use::Alone),
        Form::Html => html::page(scene),
        Form::Mermaid => mmd::diagram(scene),
    }
}

/// Whether a file begins as our pictures do.
pub fn is_ours(front: &[u8]) -> bool {
    let fronts = [svg::FRONT, html::FRONT, mmd::FRONT];
    fronts.iter().any(|own| front.starts_with(own.as_bytes()))
}

/// Text as it stands in XML and in HTML, in quotes too. What neither may hold, as most control signs, becomes the sign
/// that stands for what can't be shown.
pub fn escaped(text: &str) -> String {
    let mut safe = String::with_capacity(text.len());
    for sign in text.chars() {
        match sign {
            '&' => safe.push_str("&amp;"),
            '<' => safe.push_str("&lt;"),
            '>' => safe.push_str("&gt;"),
            '"' => safe.push_str("&quot;"),
            '\t' => safe.push('\t'),
            '\u{fdd0}'..='\u{fdef}' => safe.push('\u{fffd}'),
            _ if sign.is_control() || sign as u32 & 0xfffe == 0xfffe => safe.push('\u{fffd}'),
            _ => safe.push(sign),
        }
    }
    safe
}

#[cfg(test)]
mod tests {
    use super::*;

    #[test]
    fn escapes() {
        assert_eq!(escaped("<a & \"b\">"), "&lt;a &amp; &quot;b&quot;&gt;");
        assert_eq!(escaped("ключ 鍵\t'"), "ключ 鍵\t'");
        assert_eq!(escaped("\0\u{b}\u{85}\u{fffe}\u{1ffff}"), "\u{fffd}".repeat(5));
    }

    #[test]
    fn forms() {
        assert_eq!(Form::of_path(OsStr::new("a/b.SVG")), Some(Form::Svg));
        assert_eq!(Form::of_path(OsStr::new("svg")), None);
        assert_eq!(Form::of_path(OsStr::new("a.png")), None);
        assert!(is_ours(svg::FRONT.as_bytes()) && !is_ours(b"<svg") && !is_ours(b""));
    }
}

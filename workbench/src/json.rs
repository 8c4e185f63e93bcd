//! Answers for programs: JSON, with a version number at the top (docs/WORKBENCH.md has every field).

use std::fmt::{self, Write};

/// Changes when a field changes its meaning or goes; new fields don't change it.
pub const VERSION: u32 = 1;

#[derive(Clone, PartialEq, Debug)]
pub enum Json {
    Null,
    Bool(bool),
    Number(u64),
    Text(String),
    List(Vec<Json>),
    Object(Vec<(String, Json)>),
}

/// An object of these fields, in this order.
pub fn object<const N: usize>(fields: [(&str, Json); N]) -> Json {
    Json::Object(
        fields
            .into_iter()
            .map(|(name, value)| (name.to_string(), value))
            .collect(),
    )
}

/// The answer of a command: its version, the command's name and these fields.
pub fn answer<const N: usize>(command: &str, fields: [(&str, Json); N]) -> Json {
    let front = object([("nghi", VERSION.into()), ("command", command.into())]);
    match (front, object(fields)) {
        (Json::Object(mut front), Json::Object(rest)) => {
            front.extend(rest);
            Json::Object(front)
        }
        (front, _) => front,
    }
}

impl From<&str> for Json {
    fn from(text: &str) -> Json {
        Json::Text(text.to_string())
    }
}

impl From<String> for Json {
    fn from(text: String) -> Json {
        Json::Text(text)
    }
}

impl From<u32> for Json {
    fn from(number: u32) -> Json {
        Json::Number(number.into())
    }
}

impl From<usize> for Json {
    fn from(number: usize) -> Json {
        Json::Number(number as u64)
    }
}

impl From<bool> for Json {
    fn from(value: bool) -> Json {
        Json::Bool(value)
    }
}

impl<T: Into<Json>> From<Option<T>> for Json {
    fn from(value: Option<T>) -> Json {
        value.map_or(Json::Null, Into::into)
    }
}

impl<T: Into<Json>> From<Vec<T>> for Json {
    fn from(list: Vec<T>) -> Json {
        Json::List(list.into_iter().map(Into::into).collect())
    }
}

impl fmt::Display for Json {
    /// On one line: a line is an answer.
    fn fmt(&self, out: &mut fmt::Formatter<'_>) -> fmt::Result {
        match self {
            Json::Null => out.write_str("null"),
            Json::Bool(value) => write!(out, "{value}"),
            Json::Number(number) => write!(out, "{number}"),
            Json::Text(text) => put_text(text, out),
            Json::List(list) => {
                out.write_char('[')?;
                for (n, item) in list.iter().enumerate() {
                    out.write_str(if n == 0 { "" } else { ", " })?;
                    write!(out, "{item}")?;
                }
                out.write_char(']')
            }
            Json::Object(fields) => {
                out.write_char('{')?;
                for (n, (name, value)) in fields.iter().enumerate() {
                    out.write_str(if n == 0 { "" } else { ", " })?;
                    put_text(name, out)?;
                    write!(out, ": {value}")?;
                }
                out.write_char('}')
            }
        }
    }
}

/// Quoted so that it can stand in a page's script as well: `<` is written by its number.
fn put_text(text: &str, out: &mut fmt::Formatter<'_>) -> fmt::Result {
    out.write_char('"')?;
    for sign in text.chars() {
        match sign {
            '"' => out.write_str("\\\"")?,
            '\\' => out.write_str("\\\\")?,
            '\n' => out.write_str("\\n")?,
            '\r' => out.write_str("\\r")?,
            '\t' => out.write_str("\\t")?,
            '<' | '\u{2028}' | '\u{2029}' | '\0'..='\u{1f}' | '\u{7f}' => write!(out, "\\u{:04x}", sign as u32)?,
            _ => out.write_char(sign)?,
        }
    }
    out.write_char('"')
}

#[cfg(test)]
mod tests {
    use super::*;

    #[test]
    fn written() {
        let json = answer(
            "check",
            [
                ("ok", true.into()),
                ("rows", vec![1u32, 2].into()),
                ("text", "a \"b\"\n</script>\\".into()),
                ("none", Json::Null),
            ],
        );
        assert_eq!(
            json.to_string(),
            r#"{"nghi": 1, "command": "check", "ok": true, "rows": [1, 2], "text": "a \"b\"\n\u003c/script>\\", "none": null}"#
        );
    }
}

//! Authenticity types of source document 001, the shared-key part, on trees: what words spell, the check of a
//! derivation, and a text format from which derivations are found. `docs/DERIVATIONS.md` has the layout and the rules.

pub mod check;
pub mod find;
pub mod read;
pub mod text;
pub mod tree;
pub mod write;

pub use check::{keeps_apart, verdict, Verdict};
pub use find::{derive, Derived};
pub use text::Asked;

/// As many words of a file are read, and no further.
pub const READ: usize = 65_536;

/// What a text's process comes to: safe, or which effect is left, or which term has no type; and the derivation, where
/// there is one. A mistake in the text is told by its line.
pub fn tell(text: &str) -> Result<(String, Option<Derived>), String> {
    let asked = text::parse(text)?;
    Ok(match derive(&asked) {
        Err(reason) => (format!("no derivation: {reason}"), None),
        Ok(derived) => {
            let told = match (
                verdict(&derived.asked, &derived.derivation),
                derived.left.list().is_empty(),
            ) {
                (Verdict::Safe, _) => format!("safe, in {} lines", derived.lines),
                (Verdict::Another, false) => format!("not safe: {} is left", asked.effects(&derived.left)),
                (verdict, _) => format!("a derivation of {} lines, and the verdict {verdict}", derived.lines),
            };
            (told, Some(derived))
        }
    })
}

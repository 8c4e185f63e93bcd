//! The tags of operation names. A tag depends on the names of the whole text, so they are given out before any term
//! gets its row.

use super::book::MOST_TAG;
use std::collections::{HashMap, HashSet};

/// `opN` has the tag N. Every other name gets, in the order of first appearance, the smallest tag that
/// no `opN` of the text and no earlier name has.
pub struct Tags<'a> {
    given: HashMap<&'a str, u32>,
}

impl<'a> Tags<'a> {
    /// `names` in the order of the text, with repetitions.
    pub fn of(names: &[&'a str]) -> Tags<'a> {
        let own: HashSet<u32> = names.iter().filter_map(|name| own_tag(name)).collect();
        let mut given = HashMap::new();
        let mut next = 0;
        for name in names {
            if own_tag(name).is_some() || given.contains_key(name) {
                continue;
            }
            while own.contains(&next) {
                next += 1;
            }
            // Past 65,535 only in a text with far more rows than a table takes, so in no book.
            given.insert(*name, next);
            next += 1;
        }
        Tags { given }
    }

    /// The name that has the tag, as it stands in the text.
    pub fn name(&self, tag: u32) -> String {
        let given = self.given.iter().find(|(_, own)| **own == tag);
        given.map_or_else(|| format!("op{tag}"), |(name, _)| name.to_string())
    }

    pub fn tag(&self, name: &str) -> u32 {
        own_tag(name).unwrap_or_else(|| self.given[name])
    }
}

fn own_tag(name: &str) -> Option<u32> {
    let digits = name.strip_prefix("op")?;
    let plain = digits.bytes().all(|byte| byte.is_ascii_digit());
    if !plain || (digits.len() > 1 && digits.starts_with('0')) {
        return None;
    }
    digits.parse().ok().filter(|tag| *tag <= MOST_TAG)
}

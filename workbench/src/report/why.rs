//! Why bytes are refused by 1 to 9, in words: the first broken rule of the row, party or step at fault. The proved reader
//! has found the refusal; here only its reason is looked for, and where none is found, nothing is said.

use super::count;
use crate::subject::to_words;
use narration::book::{self, Layout, Sections, BOUNDS, COUNTS, HEADER, MARK, OFFSETS, PARTY, ROW, STEP};
use nghiralum::Refusal;

/// The reason for what the reader says of these bytes.
pub fn why(bytes: &[u8], refusal: Refusal) -> Option<String> {
    if !bytes.len().is_multiple_of(4) {
        return Some(format!(
            "{} are no whole words of four",
            count(bytes.len(), "byte", "bytes")
        ));
    }
    let words = &to_words(bytes)[..];
    let at = refusal.place() as usize;
    match refusal.number() {
        1 => Some(format!("{}, fewer than {HEADER}", count(words.len(), "word", "words"))),
        2 => bounds(words, at),
        3 => offset(words, at),
        4 => row(words, at),
        5 => size(words, at),
        6 => repeated(words, at),
        7 => party(words, at),
        8 => step(words, at),
        9 => Some(sum(words)),
        _ => None,
    }
}

/// As much of a list as lies in the pool, and no more of it than a good list could have.
fn clipped(pool: &[u32], first: u32, count: u32, most: u32) -> &[u32] {
    let from = (first as usize).min(pool.len());
    let to = from + (count.min(most) as usize).min(pool.len() - from);
    &pool[from..to]
}

fn bounds(words: &[u32], at: usize) -> Option<String> {
    let section = COUNTS.iter().position(|word| *word == at)?;
    let what = ["rows", "parties", "steps", "pool words"][section];
    let (least, most) = BOUNDS[section];
    Some(format!("{} {what}, where {least} to {most} are allowed", words[at]))
}

fn offset(words: &[u32], at: usize) -> Option<String> {
    let layout = Layout::counted(words);
    if at == HEADER {
        let (found, right) = (words.len(), layout.end);
        return Some(format!("the length is {found}, by the counts it is {right}"));
    }
    let section = OFFSETS.iter().position(|word| *word == at)?;
    let what = ["rows", "parties", "steps", "pool"][section];
    let (found, right) = (words[at], layout.offsets()[section]);
    Some(format!(
        "the offset of the {what} is {found}, by the counts it is {right}"
    ))
}

/// What is wrong with a list as such: its count, its first, or that it leaves the pool.
fn list(words: &[u32], list: &[u32], before: u64, most: u32) -> Option<String> {
    let &[first, count] = list else {
        return None;
    };
    let pool = Sections::of(words).pool.len();
    if count > most {
        return Some(format!("count {count} is over {most}"));
    }
    if u64::from(first) != before {
        return Some(format!(
            "first {first} is not {before}, the sum of the counts before it"
        ));
    }
    if before + u64::from(count) > pool as u64 {
        return Some(format!(
            "its list leaves the pool of {}",
            super::count(pool, "word", "words")
        ));
    }
    None
}

/// The sum of the counts before the row, party or step that begins at word `end`.
fn counts_before(words: &[u32], end: usize) -> u64 {
    let (sections, layout) = (Sections::of(words), Layout::counted(words));
    let rows = sections.rows.chunks_exact(ROW).zip(0..);
    let parties = sections.parties.chunks_exact(PARTY).zip(0..);
    let steps = sections.steps.chunks_exact(STEP).zip(0..);
    let counts = (rows.map(|(row, number)| (row[3], layout.row(number))))
        .chain(parties.map(|(party, number)| (party[2], layout.party(number))))
        .chain(steps.map(|(step, number)| (step[3], layout.step(number))));
    counts
        .filter(|(_, at)| *at < end)
        .map(|(count, _)| u64::from(count))
        .sum()
}

fn row(words: &[u32], at: usize) -> Option<String> {
    let own = Sections::of(words).rows.chunks_exact(ROW).nth(at)?;
    let (kind, tag, count) = (own[0], own[1], own[3]);
    let Some((least, most)) = book::parts(kind) else {
        return Some(format!("kind {kind} is none of 0 to 4"));
    };
    if kind != book::OPERATION && tag != 0 {
        return Some(format!("tag {tag}, where only an operation has one other than 0"));
    }
    if tag > book::MOST_TAG {
        return Some(format!("tag {tag} is over {}", book::MOST_TAG));
    }
    if count < least || count > most {
        return Some(format!("count {count}, where kind {kind} has {least} to {most} parts"));
    }
    let broken = list(
        words,
        &own[2..],
        counts_before(words, Layout::counted(words).row(at)),
        most,
    );
    broken.or_else(|| {
        let parts = clipped(Sections::of(words).pool, own[2], count, most);
        let later = parts.iter().find(|part| **part as usize >= at)?;
        Some(format!("part {later} is no row before it"))
    })
}

fn size(words: &[u32], at: usize) -> Option<String> {
    let sections = Sections::of(words);
    let mut sizes: Vec<u64> = Vec::new();
    for row in sections.rows.chunks_exact(ROW).take(at + 1) {
        let parts = clipped(sections.pool, row[2], row[3], book::MOST_PARTS);
        let parts: u64 = parts.iter().filter_map(|part| sizes.get(*part as usize)).sum();
        sizes.push(u64::from(book::own_size(row[0])) + parts);
    }
    Some(format!("size {} is over {}", sizes.last()?, book::MOST_SIZE))
}

fn repeated(words: &[u32], at: usize) -> Option<String> {
    let sections = Sections::of(words);
    let own = |row: usize| {
        let words = &sections.rows[ROW * row..][..ROW];
        (
            words[0],
            words[1],
            clipped(sections.pool, words[2], words[3], book::MOST_PARTS),
        )
    };
    let earlier = (0..at).find(|earlier| own(*earlier) == own(at))?;
    Some(format!("it agrees in kind, tag and parts with row {earlier}"))
}

fn party(words: &[u32], at: usize) -> Option<String> {
    let sections = Sections::of(words);
    let own = sections.parties.chunks_exact(PARTY).nth(at)?;
    let name = own[0];
    match sections.rows.chunks_exact(ROW).nth(name as usize) {
        None => return Some(format!("name {name} is no row")),
        Some(row) if row[0] != book::ATOM => return Some(format!("name {name} is no atom")),
        Some(_) => (),
    }
    let mut earlier = sections.parties.chunks_exact(PARTY).take(at);
    if let Some(earlier) = earlier.position(|other| other[0] == name) {
        return Some(format!("name {name} is the name of party {earlier} already"));
    }
    let before = counts_before(words, Layout::counted(words).party(at));
    let broken = list(words, &own[1..3], before, book::MOST_KNOWN);
    broken.or_else(|| {
        let known = clipped(sections.pool, own[1], own[2], book::MOST_KNOWN);
        if let Some(row) = known.iter().find(|row| **row >= words[COUNTS[0]]) {
            return Some(format!("known {row} is no row"));
        }
        if let Some(pair) = known.windows(2).find(|pair| pair[0] >= pair[1]) {
            return Some(format!(
                "known {} after {}, where the order is increasing",
                pair[1], pair[0]
            ));
        }
        let mark = own[MARK];
        (mark > 1).then(|| format!("mark {mark} is neither 1, may make, nor 0, may not"))
    })
}

fn step(words: &[u32], at: usize) -> Option<String> {
    let sections = Sections::of(words);
    let own = sections.steps.chunks_exact(STEP).nth(at)?;
    for (what, party) in [("sender", own[0]), ("receiver", own[1])] {
        if party >= words[COUNTS[1]] {
            return Some(format!("{what} {party} is no party"));
        }
    }
    if own[0] == own[1] {
        return Some(format!("sender and receiver are both party {}", own[0]));
    }
    let before = counts_before(words, Layout::counted(words).step(at));
    let broken = list(words, &own[2..], before, book::MOST_MESSAGES);
    broken.or_else(|| {
        let messages = clipped(sections.pool, own[2], own[3], book::MOST_MESSAGES);
        let message = messages.iter().find(|row| **row >= words[COUNTS[0]])?;
        Some(format!("message {message} is no row"))
    })
}

fn sum(words: &[u32]) -> String {
    let sum = counts_before(words, usize::MAX);
    let pool = count(words[COUNTS[3]] as usize, "word", "words");
    format!("the counts add up to {sum}, and the pool has {pool}")
}

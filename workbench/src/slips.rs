//! Slips of the pen: how far two words are from each other.

/// How many letters have to be put in, left out or changed, if they are no more than this.
pub fn slips(most: usize, one: &str, other: &str) -> Option<usize> {
    let (one, other): (Vec<char>, Vec<char>) = (one.chars().collect(), other.chars().collect());
    if one.len().abs_diff(other.len()) > most {
        return None;
    }
    // A row of the table for each letter of the one; only what is near the diagonal can be so small.
    let far = most + 1;
    let mut row: Vec<usize> = (0..=other.len()).map(|column| column.min(far)).collect();
    for (i, own) in one.iter().enumerate() {
        let (from, to) = (i.saturating_sub(most), other.len().min(i + far));
        let mut left = row[from];
        row[from] = far.min(i + 1);
        for j in from..to {
            let change = left + usize::from(*own != other[j]);
            left = row[j + 1];
            row[j + 1] = change.min(row[j] + 1).min(left + 1).min(far);
        }
    }
    row.last().copied().filter(|found| *found <= most)
}

#[cfg(test)]
mod tests {
    use super::*;

    /// The whole table, to compare with.
    fn distance(one: &str, other: &str) -> usize {
        match (one.split_at_checked(1), other.split_at_checked(1)) {
            (None, _) => other.len(),
            (_, None) => one.len(),
            (Some((a, one_rest)), Some((b, other_rest))) => {
                let change = distance(one_rest, other_rest) + usize::from(a != b);
                change
                    .min(distance(one_rest, other) + 1)
                    .min(distance(one, other_rest) + 1)
            }
        }
    }

    #[test]
    fn slips_of_the_pen() {
        assert_eq!(slips(2, "check", "chekc"), Some(2));
        assert_eq!(slips(1, "check", "chekc"), None);
        assert_eq!(
            (slips(2, "", "ab"), slips(1, "", "ab"), slips(0, "", "")),
            (Some(2), None, Some(0))
        );
        // All words of up to four letters, of two kinds.
        let words: Vec<String> = (0..5)
            .flat_map(|length| {
                (0..1u32 << length).map(move |bits| {
                    (0..length)
                        .map(|n| if bits >> n & 1 == 1 { 'a' } else { 'b' })
                        .collect()
                })
            })
            .collect();
        for one in &words {
            for other in &words {
                for most in 0..5 {
                    let whole = Some(distance(one, other)).filter(|found| *found <= most);
                    assert_eq!(slips(most, one, other), whole, "{one} {other} {most}");
                }
            }
        }
        let long = "ä".repeat(100_000);
        assert_eq!(slips(2, &long, &format!("{long}b")), Some(1));
    }
}

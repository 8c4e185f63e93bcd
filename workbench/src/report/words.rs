//! Words of sentences: numbers of things, lists, and terms that would fill the screen.

/// A term of more characters than this is cut.
const LONGEST: usize = 60;

/// `1 step`, `2 steps`.
pub fn count(n: usize, one: &str, more: &str) -> String {
    match n {
        1 => format!("1 {one}"),
        _ => format!("{n} {more}"),
    }
}

/// `A`, `A and B`, `A, B and C`; of many the first ones, and how many more there are.
pub fn listed(things: &[String]) -> String {
    const MOST: usize = 10;
    let shown: Vec<String> = things.iter().take(MOST).map(|thing| short(thing)).collect();
    match (shown.split_last(), things.len().saturating_sub(MOST)) {
        (None, _) => String::from("nothing"),
        (Some((last, [])), 0) => last.clone(),
        (Some((last, front)), 0) => format!("{} and {last}", front.join(", ")),
        (Some(_), more) => format!("{} and {more} more", shown.join(", ")),
    }
}

/// A term, cut if it is long.
pub fn short(term: &str) -> String {
    match term.chars().count() <= LONGEST {
        true => term.to_string(),
        false => format!("{}..", term.chars().take(LONGEST).collect::<String>()),
    }
}

#[cfg(test)]
mod tests {
    use super::*;

    #[test]
    fn lists() {
        let names = |n: usize| (0..n).map(|n| n.to_string()).collect::<Vec<_>>();
        assert_eq!(listed(&names(0)), "nothing");
        assert_eq!(listed(&names(1)), "0");
        assert_eq!(listed(&names(3)), "0, 1 and 2");
        assert_eq!(listed(&names(12)), "0, 1, 2, 3, 4, 5, 6, 7, 8, 9 and 2 more");
        assert_eq!(short(&"ä".repeat(61)), format!("{}..", "ä".repeat(60)));
        assert_eq!(count(1, "step", "steps"), "1 step");
    }
}

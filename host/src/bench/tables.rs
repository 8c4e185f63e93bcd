//! The tables in which the times are told, in Markdown.

use super::timing::{Outcome, SIDES};

/// What a group of books has come to.
pub struct Line {
    pub name: String,
    pub books: usize,
    pub outcome: Outcome,
    /// The book whose own ratio is the worst.
    pub worst: String,
    /// Bytes of all its books, and of their outputs.
    pub read: usize,
    pub written: usize,
}

/// Times and ratios.
pub fn times(name: &str, lines: &[Line]) -> String {
    let mut text = format!(
        "| {name} | books | {} | proved / host (quartiles) | proved / lean (quartiles) | single books, worst to host |\n\
         |---|---:|---:|---:|---:|---:|---:|---|\n",
        SIDES.join(" | ")
    );
    for line in lines {
        let Outcome {
            times,
            to_host,
            to_lean,
            best,
            worst: (worst, _),
        } = line.outcome;
        let single = match line.books {
            1 => String::new(),
            _ => format!("{best:.2} to {worst:.2}, {}", line.worst),
        };
        text += &format!(
            "| {} | {} | {} | {} | {} | {single} |\n",
            line.name,
            line.books,
            times.map(microseconds).join(" | "),
            ratio(to_host),
            ratio(to_lean),
        );
    }
    text
}

/// The median and, in brackets, the quartiles.
pub fn ratio([lower, middle, upper]: [f64; 3]) -> String {
    match middle {
        _ if middle < 10.0 => format!("{middle:.2} ({lower:.2} to {upper:.2})"),
        _ => format!("{middle:.1} ({lower:.1} to {upper:.1})"),
    }
}

/// Times of a book, and of one of its rows.
pub fn rows(name: &str, lines: &[(usize, Line)]) -> String {
    let mut text = format!(
        "| {name} | books | {} | {}, ns a row | proved / lean (quartiles) |\n\
         |---|---:|---:|---:|---:|---:|---:|---:|---:|\n",
        SIDES.join(" | "),
        SIDES.join(", ns a row | ")
    );
    for (rows, line) in lines {
        let Outcome { times, to_lean, .. } = line.outcome;
        let row = times.map(|time| format!("{:.1}", time / *rows as f64));
        text += &format!(
            "| {} | {} | {} | {} | {} |\n",
            line.name,
            line.books,
            times.map(microseconds).join(" | "),
            row.join(" | "),
            ratio(to_lean),
        );
    }
    text
}

/// Bytes read and written in a second of a processor's time.
pub fn bytes(name: &str, lines: &[&Line]) -> String {
    let mut text = format!(
        "| {name} | bytes a book, its output | {}, read and written |\n|---|---:|---:|---:|---:|\n",
        SIDES.join(", read and written | ")
    );
    for line in lines {
        let [read, written] = [line.read, line.written].map(|bytes| bytes as f64 / line.books as f64);
        // Bytes in a nanosecond are thousands of megabytes in a second.
        let rates = line.outcome.times.map(|time| {
            let [read, written] = [read, written].map(|bytes| rate(1e3 * bytes / time));
            format!("{read}, {written}")
        });
        text += &format!("| {} | {read:.0}, {written:.0} | {} |\n", line.name, rates.join(" | "));
    }
    text
}

/// Megabytes, to two places or more.
fn rate(megabytes: f64) -> String {
    match megabytes {
        _ if megabytes < 10.0 => format!("{megabytes:.1}"),
        _ => grouped(megabytes),
    }
}

/// Nanoseconds as microseconds, to three places or more.
pub fn microseconds(time: f64) -> String {
    let time = time / 1e3;
    match time {
        _ if time < 10.0 => format!("{time:.2}"),
        _ if time < 100.0 => format!("{time:.1}"),
        _ => grouped(time),
    }
}

/// A whole number, thousands apart.
pub fn grouped(number: f64) -> String {
    let whole = number.round() as u64;
    match whole / 1_000 {
        0 => format!("{whole}"),
        thousands => format!("{},{:03}", grouped(thousands as f64), whole % 1_000),
    }
}

#[cfg(test)]
mod tests {
    use super::*;

    #[test]
    fn times_are_told() {
        let told = [1_234.0, 12_345.0, 123_456.0, 1_234_567.0].map(microseconds);
        assert_eq!(told, ["1.23", "12.3", "123", "1,235"]);
        assert_eq!([0.4, 999.6, 1_002_003.0].map(grouped), ["0", "1,000", "1,002,003"]);
        assert_eq!([1.26, 12.3, 1_234.5].map(rate), ["1.3", "12", "1,235"]);
    }

    fn line(books: usize) -> Line {
        Line {
            name: "some".to_string(),
            books,
            outcome: Outcome {
                times: [2_000.0, 1_000.0, 100.0],
                to_host: [1.5, 2.0, 2.5],
                to_lean: [18.0, 20.0, 22.0],
                best: 1.0,
                worst: (3.0, 1),
            },
            worst: "that".to_string(),
            read: 4_000 * books,
            written: 500 * books,
        }
    }

    /// The lines below a table's head, if all have as many columns as the head has.
    fn body(table: &str) -> Vec<&str> {
        let lines: Vec<&str> = table.lines().collect();
        let bars = |line: &&str| line.matches('|').count();
        assert!(lines.iter().all(|line| bars(line) == bars(&lines[0])), "{table}");
        lines[2..].to_vec()
    }

    #[test]
    fn tables() {
        assert_eq!(
            body(&times("all", &[line(2), line(1)])),
            [
                "| some | 2 | 2.00 | 1.00 | 0.10 | 2.00 (1.50 to 2.50) | 20.0 (18.0 to 22.0) | 1.00 to 3.00, that |",
                "| some | 1 | 2.00 | 1.00 | 0.10 | 2.00 (1.50 to 2.50) | 20.0 (18.0 to 22.0) |  |",
            ]
        );
        assert_eq!(
            body(&rows("all", &[(10, line(2))])),
            ["| some | 2 | 2.00 | 1.00 | 0.10 | 200.0 | 100.0 | 10.0 | 20.0 (18.0 to 22.0) |"]
        );
        assert_eq!(
            body(&bytes("all", &[&line(2)])),
            ["| some | 4000, 500 | 2,000, 250 | 4,000, 500 | 40,000, 5,000 |"]
        );
    }
}

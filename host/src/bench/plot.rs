//! The plot of the growth, a picture in SVG: time per book against rows, all sides, on logarithmic scales.
//! It is written by hand, as there is no package to draw with.

use super::timing::SIDES;
use std::fmt::Write;

/// The sides' times at one size, in nanoseconds.
pub struct Point {
    pub rows: usize,
    pub times: [f64; 3],
}

const WIDTH: f64 = 720.0;
const HEIGHT: f64 = 440.0;
/// The frame's sides.
const LEFT: f64 = 80.0;
const RIGHT: f64 = 620.0;
const TOP: f64 = 50.0;
const BOTTOM: f64 = 370.0;

/// The sides' colours.
const COLOURS: [&str; 3] = ["#0b5cad", "#c2571a", "#3d7a35"];
/// Names stand apart by so much, where lines end close together.
const APART: f64 = 20.0;
const GRID: &str = "#dddddd";
const INK: &str = "#333333";

/// A logarithmic scale from a range of values to a range of places.
struct Scale {
    values: (f64, f64),
    places: (f64, f64),
}

impl Scale {
    fn place(&self, value: f64) -> f64 {
        let (low, high) = (self.values.0.ln(), self.values.1.ln());
        let share = (value.ln() - low) / (high - low);
        self.places.0 + share * (self.places.1 - self.places.0)
    }
}

/// The picture of at least two points of different sizes, in the order of their sizes.
pub fn svg(points: &[Point]) -> String {
    let times = || points.iter().flat_map(|point| point.times);
    let low = times().fold(f64::INFINITY, f64::min).log10().floor();
    let high = times().fold(0.0, f64::max).log10().ceil();
    let rows = points.iter().map(|point| point.rows as f64);
    let across = Scale {
        values: (rows.clone().fold(f64::INFINITY, f64::min), rows.fold(0.0, f64::max)),
        places: (LEFT, RIGHT),
    };
    let up = Scale {
        values: (10f64.powf(low), 10f64.powf(high.max(low + 1.0))),
        places: (BOTTOM, TOP),
    };

    let mut out = String::new();
    let mut put = |line: String| writeln!(out, "{line}").expect("a string takes all");
    let size = format!(r#"viewBox="0 0 {WIDTH} {HEIGHT}" width="{WIDTH}" height="{HEIGHT}""#);
    put(format!(
        r#"<svg xmlns="http://www.w3.org/2000/svg" {size} font-family="sans-serif" font-size="13" fill="{INK}">"#
    ));
    put(format!(
        r#"<title>Time per book against rows</title><rect width="{WIDTH}" height="{HEIGHT}" fill="white"/>"#
    ));
    put(text(LEFT, 28.0, "start", "Time per book, random playable books"));
    for power in low as i32..=up.values.1.log10().round() as i32 {
        let time = 10f64.powi(power);
        let y = up.place(time);
        put(line(LEFT, y, RIGHT, y));
        put(text(LEFT - 8.0, y + 4.0, "end", &unit(time)));
    }
    for point in points {
        let x = across.place(point.rows as f64);
        put(line(x, TOP, x, BOTTOM));
        put(text(x, BOTTOM + 20.0, "middle", &point.rows.to_string()));
    }
    let middle = (LEFT + RIGHT) / 2.0;
    let below = "rows (parties and steps grow along, to 16 and 64)";
    put(text(middle, BOTTOM + 46.0, "middle", below));
    let ends = points
        .last()
        .map_or([0.0; 3], |point| point.times.map(|time| up.place(time)));
    let names = apart(ends);
    for (side, name) in SIDES.iter().enumerate() {
        let colour = COLOURS[side];
        let place = |point: &Point| (across.place(point.rows as f64), up.place(point.times[side]));
        let places: Vec<(f64, f64)> = points.iter().map(place).collect();
        let pairs = places.iter().map(|(x, y)| format!("{x:.1},{y:.1}"));
        let pairs: Vec<String> = pairs.collect();
        put(format!(
            r#"<polyline points="{}" fill="none" stroke="{colour}" stroke-width="2"/>"#,
            pairs.join(" ")
        ));
        for (x, y) in &places {
            put(format!(r#"<circle cx="{x:.1}" cy="{y:.1}" r="3.5" fill="{colour}"/>"#));
        }
        put(format!(
            r#"<text x="{:.1}" y="{:.1}" fill="{colour}" font-weight="bold">{name}</text>"#,
            RIGHT + 10.0,
            names[side] + 4.0
        ));
    }
    put("</svg>".to_string());
    out
}

/// Where the names of lines stand that end at these places: in the same order, and none on another.
fn apart(ends: [f64; 3]) -> [f64; 3] {
    let mut order = [0, 1, 2];
    order.sort_by(|one, other| ends[*one].total_cmp(&ends[*other]));
    let mut places = ends;
    for (above, below) in [(0, 1), (1, 2)] {
        let lacking = (APART - (places[order[below]] - places[order[above]])).max(0.0);
        places[order[below]] += lacking;
    }
    places
}

fn line(x1: f64, y1: f64, x2: f64, y2: f64) -> String {
    format!(r#"<line x1="{x1:.1}" y1="{y1:.1}" x2="{x2:.1}" y2="{y2:.1}" stroke="{GRID}"/>"#)
}

fn text(x: f64, y: f64, anchor: &str, text: &str) -> String {
    format!(r#"<text x="{x:.1}" y="{y:.1}" text-anchor="{anchor}">{text}</text>"#)
}

/// A power of ten of nanoseconds in a unit that suits it.
fn unit(time: f64) -> String {
    match time {
        _ if time < 1e3 => format!("{time:.0} ns"),
        _ if time < 1e6 => format!("{:.0} µs", time / 1e3),
        _ => format!("{:.0} ms", time / 1e6),
    }
}

#[cfg(test)]
mod tests {
    use super::*;

    /// Whether every element that is opened is closed, in order.
    fn closes(text: &str) -> bool {
        let mut open = Vec::new();
        for piece in text.split('<').skip(1) {
            let Some((tag, _)) = piece.split_once('>') else {
                return false;
            };
            let name = tag.split([' ', '/']).find(|name| !name.is_empty());
            if tag.starts_with('/') {
                if open.pop() != name {
                    return false;
                }
            } else if !tag.ends_with('/') {
                open.push(name.unwrap_or(""));
            }
        }
        open.is_empty()
    }

    #[test]
    fn the_picture_is_well_formed() {
        let point = |rows: usize, times: [f64; 3]| Point { rows, times };
        let svg = svg(&[
            point(16, [12_000.0, 5_000.0, 1_100.0]),
            point(64, [90_000.0, 40_000.0, 4_000.0]),
            point(1_024, [2.4e6, 1.1e6, 30_000.0]),
        ]);
        assert!(closes(&svg), "{svg}");
        assert!(!closes("<a><b></a></b>") && !closes("<a>"));
        assert_eq!(svg.matches("<circle").count(), 9);
        assert_eq!(svg.matches("<polyline").count(), 3);
        for label in ["1 µs", "10 ms", ">16<", ">1024<", ">proved<", ">host<", ">lean<"] {
            assert!(svg.contains(label), "{label}");
        }
        assert!(!svg.contains("NaN") && !svg.contains("inf"));
    }

    #[test]
    fn names_stand_apart() {
        assert_eq!(apart([10.0, 100.0, 50.0]), [10.0, 100.0, 50.0]);
        assert_eq!(apart([100.0, 95.0, 300.0]), [115.0, 95.0, 300.0]);
        assert_eq!(apart([30.0, 25.0, 20.0]), [60.0, 40.0, 20.0]);
    }

    #[test]
    fn scales() {
        let scale = Scale {
            values: (1.0, 100.0),
            places: (10.0, 30.0),
        };
        assert!((scale.place(1.0) - 10.0).abs() < 1e-9);
        assert!((scale.place(10.0) - 20.0).abs() < 1e-9);
        assert!((scale.place(100.0) - 30.0).abs() < 1e-9);
    }
}

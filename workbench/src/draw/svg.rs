//! A scene as SVG: a lifeline for each party, a chip for each event, an arrow for each step. No script, no style sheet, no
//! outside address; every coordinate is an integer, on a grid that is the same for the same scene.
//!
//! A chip's word is centred on the lifeline and its text stands to the right of it, so that words and texts each make a
//! column. An arrow has a row of its own between SEND and what comes next. Where the message waits, as the receiver does
//! something else first, the arrow goes down beside the receiver's chips until RECEIVE.

use super::escaped;
use super::scene::{Event, Scene, Step, Stop};
use crate::cells::{cell, cells};
use crate::failure::Failure;
use crate::report::count;
use std::fmt::Write;

/// What every picture of ours begins with.
pub const FRONT: &str = "<svg data-drawn-by=\"nghi draw\" ";

/// Whether a picture is a file of its own or stands in a page, where its chips can be walked through.
#[derive(Clone, Copy, PartialEq, Eq, Debug)]
pub enum Use {
    Alone,
    InPage,
}

/// A sign of the monospaced font at 13 pixels, rounded up.
const CELL: i64 = 8;
/// A sign of a party's name, which is bold and larger.
const NAME_CELL: i64 = 10;
const MARGIN: i64 = 24;
/// The grid: a row is a chip or an arrow.
const ROW: i64 = 32;
const CHIP: i64 = 24;
/// The part of a chip with its word, centred on the lifeline.
const WORD: i64 = 72;
const PAD: i64 = 8;
/// Between the longest chip of a column and the next column.
const GAP: i64 = 32;
/// Between the lines of messages that wait beside each other.
const LANE: i64 = 12;
const HEAD_TOP: i64 = 64;
const HEAD: i64 = 46;
/// The most signs of why a run stops.
const STOP_CELLS: usize = 96;

#[derive(Clone, Copy, PartialEq, Eq, Debug)]
struct Area {
    x: i64,
    y: i64,
    width: i64,
    height: i64,
}

impl Area {
    fn right(self) -> i64 {
        self.x + self.width
    }

    fn bottom(self) -> i64 {
        self.y + self.height
    }

    fn meets(self, other: Area) -> bool {
        self.x < other.right() && other.x < self.right() && self.y < other.bottom() && other.y < self.bottom()
    }
}

/// Where a party's chips begin, and its lifeline.
struct Column {
    left: i64,
    line: i64,
    head: Area,
}

struct Chip<'s> {
    party: usize,
    number: usize,
    event: &'s Event,
    area: Area,
    text: String,
}

struct Arrow<'s> {
    step: &'s Step,
    y: i64,
    from: i64,
    to: i64,
    /// Where the message waits: how far down it goes, and then the chip's edge.
    down: Option<(i64, i64)>,
}

struct Layout<'s> {
    scene: &'s Scene,
    columns: Vec<Column>,
    chips: Vec<Chip<'s>>,
    arrows: Vec<Arrow<'s>>,
    stop: Option<(&'s Stop, Area)>,
    width: i64,
    height: i64,
}

/// The picture, after it was seen that no two boxes meet and that every event is in it once.
pub fn picture(scene: &Scene, purpose: Use) -> Result<String, Failure> {
    let layout = Layout::of(scene);
    layout.apart()?;
    let text = layout.written(purpose);
    each_once(scene, &text)?;
    Ok(text)
}

/// How wide the picture is.
pub fn width(scene: &Scene) -> i64 {
    Layout::of(scene).width
}

fn each_once(scene: &Scene, text: &str) -> Result<(), Failure> {
    let mark = " data-event=\"";
    let mut drawn: Vec<&str> = (text.split(mark).skip(1))
        .map(|rest| rest.split('"').next().unwrap_or(""))
        .collect();
    drawn.sort_unstable();
    let mut asked: Vec<String> = Vec::new();
    for (party, own) in scene.parties.iter().enumerate() {
        asked.extend((0..own.events.len()).map(|event| format!("{party}-{event}")));
    }
    asked.sort_unstable();
    match drawn == asked {
        true => Ok(()),
        false => Err(Failure::guard("the picture has not each event once")),
    }
}

/// The text, or as much of it as fits with two dots behind.
pub fn cut(text: &str, most: usize) -> String {
    if cells(text) <= most {
        return text.to_string();
    }
    let mut short = String::new();
    let mut taken = 2;
    for sign in text.chars() {
        taken += cell(sign);
        if taken > most {
            break;
        }
        short.push(sign);
    }
    short.push_str("..");
    short
}

/// The most signs of a chip's text: fewer parties leave more room.
fn most_cells(parties: usize) -> usize {
    match parties {
        0..=2 => 52,
        3 => 40,
        4 => 34,
        _ => 28,
    }
}

fn wide(text: &str) -> i64 {
    cells(text) as i64 * CELL
}

fn label(step: &Step) -> String {
    format!("{}: {}", step.place, step.text)
}

/// The moves of a step's SEND and RECEIVE.
fn moves(scene: &Scene, step: &Step) -> (usize, usize) {
    let sent = scene.parties[step.from].events[step.sent].at;
    (sent, scene.parties[step.to].events[step.received].at)
}

/// The lanes in which messages wait beside their receivers: of each step, none where RECEIVE comes right after SEND.
fn lanes(scene: &Scene) -> Vec<Option<usize>> {
    let mut lanes: Vec<Option<usize>> = vec![None; scene.steps.len()];
    let mut waiting: Vec<usize> = (0..scene.steps.len()).collect();
    waiting.retain(|step| {
        let (sent, received) = moves(scene, &scene.steps[*step]);
        received > sent + 1
    });
    waiting.sort_by_key(|step| moves(scene, &scene.steps[*step]));
    for (n, step) in waiting.iter().enumerate() {
        let own = &scene.steps[*step];
        let beside = |other: &&usize| {
            let other = &scene.steps[**other];
            other.to == own.to && moves(scene, other).1 >= moves(scene, own).0
        };
        let taken: Vec<usize> = (waiting[..n].iter().filter(beside))
            .filter_map(|other| lanes[*other])
            .collect();
        lanes[*step] = (0..).find(|lane| !taken.contains(lane));
    }
    lanes
}

impl<'s> Layout<'s> {
    fn of(scene: &'s Scene) -> Layout<'s> {
        let most = most_cells(scene.parties.len());
        let lanes = lanes(scene);
        let columns = columns(scene, &lanes, most);
        let mut layout = Layout {
            scene,
            columns,
            chips: Vec::new(),
            arrows: Vec::new(),
            stop: None,
            width: 0,
            height: 0,
        };
        let mut y = HEAD_TOP + HEAD + ROW / 2;
        for (party, number) in &scene.moves {
            layout.chip(*party, *number, y, most);
            y += ROW;
            let sent = (scene.steps.iter()).position(|step| (step.from, step.sent) == (*party, *number));
            if let Some(step) = sent {
                layout.arrow(&scene.steps[step], lanes[step], y);
                y += ROW;
            }
        }
        for (party, own) in scene.parties.iter().enumerate() {
            layout.chip(party, own.events.len() - 1, y, most);
        }
        layout.end_arrows();
        layout.close(y + CHIP);
        layout
    }

    fn chip(&mut self, party: usize, number: usize, y: i64, most: usize) {
        let event = &self.scene.parties[party].events[number];
        let text = cut(&event.told.text, most);
        let area = Area {
            x: self.columns[party].left,
            y,
            width: WORD + PAD + wide(&text) + PAD,
            height: CHIP,
        };
        self.chips.push(Chip {
            party,
            number,
            event,
            area,
            text,
        });
    }

    /// The arrow of a step; how far down it goes is known when RECEIVE has its chip.
    fn arrow(&mut self, step: &'s Step, lane: Option<usize>, y: i64) {
        let to = &self.columns[step.to];
        let lane = lane.map(|lane| to.left - LANE * (lane as i64 + 1));
        self.arrows.push(Arrow {
            step,
            y: y + 20,
            from: self.columns[step.from].line,
            to: lane.unwrap_or(to.line),
            down: lane.map(|_| (y, to.left)),
        });
    }

    fn end_arrows(&mut self) {
        for arrow in &mut self.arrows {
            let (party, number) = (arrow.step.to, arrow.step.received);
            let chip = (self.chips.iter()).find(|chip| (chip.party, chip.number) == (party, number));
            if let (Some((down, _)), Some(chip)) = (&mut arrow.down, chip) {
                *down = chip.area.y + CHIP / 2;
            }
        }
    }

    /// The sizes of the whole, and why the run stops, if it does.
    fn close(&mut self, bottom: i64) {
        let boxes = self.columns.iter().map(|column| column.head);
        let boxes = boxes.chain(self.chips.iter().map(|chip| chip.area));
        let widest = boxes.map(Area::right).max().unwrap_or(0);
        let heading = wide(&self.scene.title) * NAME_CELL / CELL;
        let heading = heading.max(wide(&self.scene.size()));
        self.width = widest.max(MARGIN + heading) + MARGIN;
        self.height = bottom + MARGIN;
        if let Some(stop) = &self.scene.stop {
            let lines = stop_lines(stop);
            let longest = lines.iter().map(|line| wide(line)).max().unwrap_or(0);
            self.width = self.width.max(longest + 4 * PAD + 2 * MARGIN);
            let area = Area {
                x: MARGIN,
                y: bottom + ROW,
                width: self.width - 2 * MARGIN,
                height: 2 * PAD + 20 * lines.len() as i64,
            };
            self.height = area.bottom() + MARGIN;
            self.stop = Some((stop, area));
        }
    }

    /// The guard of the layout.
    fn apart(&self) -> Result<(), Failure> {
        let heads = self.columns.iter().map(|column| column.head);
        let chips = self.chips.iter().map(|chip| chip.area);
        let boxes: Vec<Area> = heads.chain(chips).chain(self.stop.map(|(_, area)| area)).collect();
        let meets = |(n, one): (usize, &Area)| boxes[..n].iter().any(|other| one.meets(*other));
        let outside = |one: &Area| one.x < 0 || one.y < 0 || one.right() > self.width || one.bottom() > self.height;
        match boxes.iter().enumerate().any(meets) || boxes.iter().any(outside) {
            true => Err(Failure::guard("two boxes of the picture meet, or one leaves it")),
            false => Ok(()),
        }
    }

    fn written(&self, purpose: Use) -> String {
        let (width, height) = (self.width, self.height);
        let role = match purpose {
            Use::Alone => "img",
            Use::InPage => "group",
        };
        let mut out = String::from(FRONT);
        let lines = [
            format!(
                "xmlns=\"http://www.w3.org/2000/svg\" width=\"{width}\" height=\"{height}\" viewBox=\"0 0 {width} {height}\" \
                 role=\"{role}\" aria-labelledby=\"picture-title picture-description\" \
                 font-family=\"'DejaVu Sans Mono', Menlo, Consolas, 'Liberation Mono', monospace\" font-size=\"13\" fill=\"#1a1a1a\">"
            ),
            format!("<title id=\"picture-title\">The run of {}</title>", escaped(&self.scene.title)),
            format!("<desc id=\"picture-description\">{}</desc>", escaped(&self.description())),
            format!("<path class=\"paper\" d=\"M0 0H{width}V{height}H0Z\" fill=\"#ffffff\"/>"),
            format!(
                "<text class=\"heading\" x=\"{MARGIN}\" y=\"28\" font-size=\"16\" font-weight=\"bold\">{}</text>",
                escaped(&self.scene.title)
            ),
            format!(
                "<text class=\"size\" x=\"{MARGIN}\" y=\"48\" fill=\"#555555\">{}</text>",
                escaped(&self.scene.size())
            ),
        ];
        out.push_str(&lines.join("\n"));
        out.push('\n');
        self.lifelines(&mut out);
        self.arrows.iter().for_each(|arrow| self.put_arrow(arrow, &mut out));
        self.heads(&mut out);
        self.chips.iter().for_each(|chip| self.put_chip(chip, &mut out));
        if let Some((stop, area)) = &self.stop {
            put_stop(stop, *area, &mut out);
        }
        out.push_str("</svg>\n");
        out
    }

    /// The run in sentences, for who doesn't see it.
    fn description(&self) -> String {
        let scene = self.scene;
        let names: Vec<&str> = scene.parties.iter().map(|party| party.name.as_str()).collect();
        let mut text = format!("{}. Parties: {}.", scene.size(), names.join(", "));
        for step in &scene.steps {
            let (from, to) = (&scene.parties[step.from].name, &scene.parties[step.to].name);
            let _ = write!(text, " {}: {from} sends {to} {}.", step.place, step.text);
        }
        if let Some(stop) = &scene.stop {
            let _ = write!(text, " It stops at {}: {}.", stop.place, stop.reason);
        }
        text
    }

    fn lifelines(&self, out: &mut String) {
        out.push_str("<g class=\"lifelines\" stroke=\"#8a8a8a\" stroke-width=\"2\" fill=\"none\">\n");
        for (party, column) in self.columns.iter().enumerate() {
            let end = self.chips.iter().rev().find(|chip| chip.party == party);
            let (from, to) = (column.head.bottom(), end.map_or(0, |chip| chip.area.y));
            let _ = writeln!(out, "<path d=\"M{} {from}V{to}\"/>", column.line);
        }
        if let Some((stop, area)) = &self.stop {
            let (line, from) = (self.columns[stop.sender].line, area.y - ROW);
            let _ = writeln!(out, "<path d=\"M{line} {from}V{}\" stroke-dasharray=\"4 4\"/>", area.y);
        }
        out.push_str("</g>\n");
    }

    fn heads(&self, out: &mut String) {
        let most = most_cells(self.scene.parties.len());
        for (number, (party, column)) in self.scene.parties.iter().zip(&self.columns).enumerate() {
            let Area { x, y, .. } = column.head;
            let (name, begins) = (escaped(&party.name), escaped(&party.begins));
            let _ = writeln!(
                out,
                "<g class=\"head\" data-party=\"{number}\"><title>{name} {begins}</title>{}\
                 <text x=\"{}\" y=\"{}\" font-size=\"15\" font-weight=\"bold\">{}</text>\
                 <text x=\"{}\" y=\"{}\" font-size=\"12\">{}</text></g>",
                rect(column.head, "#f2f2f2", "#1a1a1a", ""),
                x + PAD + 4,
                y + 19,
                escaped(&cut(&party.name, most)),
                x + PAD + 4,
                y + 37,
                escaped(&cut(&party.begins, most)),
            );
        }
    }

    fn put_chip(&self, chip: &Chip, out: &mut String) {
        let Area { x, y, .. } = chip.area;
        let kind = chip.event.told.kind;
        let _ = writeln!(
            out,
            "<g class=\"chip {kind}\" data-event=\"{}-{}\"{} data-move=\"{}\"><title>{}</title>{}{}\
             <text class=\"word\" x=\"{}\" y=\"{}\" font-weight=\"bold\" text-anchor=\"middle\">{kind}</text>\
             <text x=\"{}\" y=\"{}\">{}</text></g>",
            chip.party,
            chip.number,
            step_mark(chip.event.told.step),
            chip.event.at,
            escaped(&self.title(chip)),
            rect(chip.area, "#ffffff", "#4a4a4a", ""),
            word(x, y, colour(kind)),
            x + WORD / 2,
            y + 17,
            x + WORD + PAD,
            y + 17,
            escaped(&chip.text),
        );
    }

    fn title(&self, chip: &Chip) -> String {
        let party = &self.scene.parties[chip.party];
        let told = &chip.event.told;
        let of = format!("event {} of {}", chip.number + 1, party.events.len());
        match told.kind {
            "end" => format!("{}: end {} ({of})", party.name, told.text),
            kind => format!(
                "{}: {kind} {} ({}, {of}, move {})",
                party.name, told.text, chip.event.place, chip.event.at
            ),
        }
    }

    fn put_arrow(&self, arrow: &Arrow, out: &mut String) {
        let Arrow { step, y, from, to, .. } = *arrow;
        let (sender, receiver) = (&self.scene.parties[step.from], &self.scene.parties[step.to]);
        let title = format!("{}: {} to {}: {}", step.place, sender.name, receiver.name, step.text);
        // The head points along the last piece of the line, and its tip is where that ends.
        let (path, tip, back) = match arrow.down {
            None if to > from => (format!("M{from} {y}H{}", to - 8), (to, y), -10),
            None => (format!("M{from} {y}H{}", to + 8), (to, y), 10),
            Some((down, edge)) => (format!("M{from} {y}H{to}V{down}H{}", edge - 8), (edge, down), -10),
        };
        let _ = writeln!(
            out,
            "<g class=\"arrow\"{} data-move=\"{}\"><title>{}</title>\
             <path class=\"line\" d=\"{path}\" fill=\"none\" stroke=\"#1a1a1a\" stroke-width=\"2\"/>\
             <path class=\"tip\" d=\"M{} {}l{back} -5v10z\"/>{}</g>",
            step_mark(Some(step.number)),
            sender.events[step.sent].at,
            escaped(&title),
            tip.0,
            tip.1,
            self.label(arrow),
        );
    }

    /// An arrow's text, beside the sender where it fits between two lifelines, else in the middle; what it stands on is
    /// blank, as a lifeline may be under it.
    fn label(&self, arrow: &Arrow) -> String {
        let Arrow { step, y, from, to, .. } = *arrow;
        let next = match step.to > step.from {
            true => step.from + 1,
            false => step.from - 1,
        };
        let near = if next == step.to { to } else { self.columns[next].line };
        let text = label(step);
        let room = |to: i64| ((to - from).abs() - 3 * PAD).max(0) / CELL;
        let to = if cells(&text) as i64 <= room(near) { near } else { to };
        let text = cut(&text, room(to) as usize);
        let (middle, half) = ((from + to) / 2, (wide(&text) + 1) / 2);
        format!(
            "<path class=\"paper\" d=\"M{} {}H{}V{}H{}Z\" fill=\"#ffffff\"/>\
             <text x=\"{middle}\" y=\"{}\" font-size=\"12\" text-anchor=\"middle\">{}</text>",
            middle - half,
            y - 17,
            middle + half,
            y - 2,
            middle - half,
            y - 6,
            escaped(&text),
        )
    }
}

/// Columns from left to right: each as wide as its longest chip or head, and as the arrows to the next one need.
fn columns(scene: &Scene, lanes: &[Option<usize>], most: usize) -> Vec<Column> {
    let mut columns: Vec<Column> = Vec::new();
    let mut x = MARGIN;
    for (number, party) in scene.parties.iter().enumerate() {
        let beside = (scene.steps.iter().zip(lanes)).filter(|(step, _)| step.to == number);
        let beside = beside.filter_map(|(_, lane)| *lane).max();
        let room = beside.map_or(0, |lane| LANE * (lane as i64 + 1));
        let arrows = scene.steps.iter().filter(|step| {
            let (one, other) = (step.from.min(step.to), step.from.max(step.to));
            number > 0 && (one, other) == (number - 1, number)
        });
        let longest = arrows.map(|step| wide(&cut(&label(step), most + 12))).max();
        let mut left = x + room;
        if let (Some(longest), Some(before)) = (longest, columns.last()) {
            left = left.max(before.line + longest + 3 * PAD + room);
        }
        let name = cells(&cut(&party.name, most)) as i64 * NAME_CELL;
        let head = Area {
            x: left,
            y: HEAD_TOP,
            width: (name.max(wide(&cut(&party.begins, most))) + 3 * PAD).max(WORD),
            height: HEAD,
        };
        let chips = party.events.iter().map(|event| wide(&cut(&event.told.text, most)));
        let chips = chips.max().unwrap_or(0) + WORD + 2 * PAD;
        x = left + head.width.max(chips) + GAP;
        columns.push(Column {
            left,
            line: left + WORD / 2,
            head,
        });
    }
    columns
}

/// What is said where a run stops.
fn stop_lines(stop: &Stop) -> Vec<String> {
    let mut lines = vec![
        cut(&format!("refused at {}: {}", stop.place, stop.text), STOP_CELLS),
        cut(&format!("{} (refusal {})", stop.reason, stop.number), STOP_CELLS),
    ];
    let later = match stop.later {
        0 => String::new(),
        later => format!(
            "; {} after it {} not drawn",
            count(later, "step", "steps"),
            if later == 1 { "is" } else { "are" }
        ),
    };
    lines.push(format!("the programs above are those of the steps before it{later}"));
    lines
}

fn put_stop(stop: &Stop, area: Area, out: &mut String) {
    let title = format!("refused at {}: {}: {}", stop.place, stop.text, stop.reason);
    let _ = write!(
        out,
        "<g class=\"stop\"{}><title>{}</title>{}",
        step_mark(Some(stop.step)),
        escaped(&title),
        rect(
            area,
            "#fdf0ee",
            "#a02010",
            " stroke-width=\"2\" stroke-dasharray=\"8 4\""
        ),
    );
    for (n, line) in stop_lines(stop).iter().enumerate() {
        let weight = if n < 2 { " font-weight=\"bold\"" } else { "" };
        let y = area.y + PAD + 14 + 20 * n as i64;
        let _ = write!(
            out,
            "<text x=\"{}\" y=\"{y}\"{weight}>{}</text>",
            area.x + 2 * PAD,
            escaped(line)
        );
    }
    out.push_str("</g>\n");
}

fn rect(area: Area, fill: &str, stroke: &str, more: &str) -> String {
    let Area { x, y, width, height } = area;
    format!(
        "<rect x=\"{x}\" y=\"{y}\" width=\"{width}\" height=\"{height}\" rx=\"6\" fill=\"{fill}\" stroke=\"{stroke}\"{more}/>"
    )
}

/// The left part of a chip, under its word.
fn word(x: i64, y: i64, fill: &str) -> String {
    format!(
        "<path class=\"under\" d=\"M{} {y}H{}V{}H{}a6 6 0 0 1 -6 -6V{}a6 6 0 0 1 6 -6Z\" fill=\"{fill}\" stroke=\"#4a4a4a\"/>",
        x + 6,
        x + WORD,
        y + CHIP,
        x + 6,
        y + 6
    )
}

/// A pale colour for each kind, beside its word.
fn colour(kind: &str) -> &'static str {
    match kind {
        "new" => "#d8f0d8",
        "send" => "#d8e6fa",
        "receive" => "#e6dcf6",
        "open" => "#fae8c4",
        "check" => "#cfecec",
        _ => "#e4e4e4",
    }
}

fn step_mark(step: Option<u32>) -> String {
    step.map_or_else(String::new, |step| format!(" data-step=\"{step}\""))
}

#[cfg(test)]
mod tests {
    use super::*;
    use crate::draw::scene::example;

    #[test]
    fn texts_are_cut_by_cells() {
        assert_eq!(cut("abcdef", 6), "abcdef");
        assert_eq!(cut("abcdefg", 6), "abcd..");
        assert_eq!(cut("äöüßäöü", 6), "äöüß..");
        assert_eq!(cut("鍵鍵鍵鍵", 6), "鍵鍵..");
        assert_eq!((cells("鍵a"), cells("")), (3, 0));
        assert_eq!(cut("abc", 0), "..");
    }

    /// One box that is moved onto another, or out of the picture, and one event less or twice break the guard.
    #[test]
    fn an_altered_picture_is_told() {
        let scene = example();
        let status = |told: Result<(), Failure>| told.map_err(|failure| failure.status);
        assert_eq!(status(Layout::of(&scene).apart()), Ok(()));
        for at in 1..Layout::of(&scene).chips.len() {
            let mut altered = Layout::of(&scene);
            altered.chips[at].area = altered.chips[at - 1].area;
            assert_eq!(status(altered.apart()), Err(70), "chip {at}");
            let mut altered = Layout::of(&scene);
            altered.chips[at].area.x = altered.width;
            assert_eq!(status(altered.apart()), Err(70), "chip {at}");
        }
        let text = Layout::of(&scene).written(Use::Alone);
        assert_eq!(status(each_once(&scene, &text)), Ok(()));
        for (number, party) in scene.parties.iter().enumerate() {
            for event in 0..party.events.len() {
                let mark = format!(" data-event=\"{number}-{event}\"");
                assert_eq!(status(each_once(&scene, &text.replace(&mark, ""))), Err(70), "{mark}");
                let twice = text.replace(&mark, &mark.repeat(2));
                assert_eq!(status(each_once(&scene, &twice)), Err(70), "{mark}");
            }
        }
    }

    #[test]
    fn areas_that_meet() {
        let area = |x, y| Area {
            x,
            y,
            width: 10,
            height: 10,
        };
        assert!(area(0, 0).meets(area(9, 9)) && area(0, 0).meets(area(0, 0)));
        assert!(!area(0, 0).meets(area(10, 0)) && !area(0, 0).meets(area(0, 10)));
    }
}

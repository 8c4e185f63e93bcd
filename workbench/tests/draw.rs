//! `nghi draw`: the pictures are read back, by a reader of XML of their own, and compared with what other commands say.

use std::collections::BTreeSet;
use std::ffi::OsString;
use std::fs;
use std::path::{Path, PathBuf};
use std::process::{Command, Stdio};
use std::thread;
use workbench::commands;

/// Terms are walked by recursion, as in the program.
const STACK: usize = 64 << 20;

/// Runs a command line: its status and what it says.
fn nghi(arguments: &[&str]) -> (u8, String) {
    let arguments: Vec<OsString> = arguments.iter().map(OsString::from).collect();
    let worker = thread::Builder::new().stack_size(STACK);
    let run = worker.spawn(move || match commands::run(&arguments) {
        Ok(output) => (output.status, output.text),
        Err(failure) => (failure.status, failure.message),
    });
    run.unwrap().join().unwrap()
}

fn books() -> Vec<PathBuf> {
    let mut books: Vec<PathBuf> = (fs::read_dir("../books").unwrap())
        .map(|entry| entry.unwrap().path())
        .filter(|path| path.extension().is_some_and(|end| end == "narration"))
        .collect();
    books.sort();
    books
}

/// A folder of a test's own, empty.
fn folder(name: &str) -> PathBuf {
    let folder = PathBuf::from(env!("CARGO_TARGET_TMPDIR")).join(name);
    let _ = fs::remove_dir_all(&folder);
    fs::create_dir_all(&folder).unwrap();
    folder
}

fn narration(folder: &Path, name: &str, text: &str) -> String {
    let path = folder.join(name);
    fs::write(&path, text).unwrap();
    path.to_str().unwrap().to_string()
}

#[derive(Clone, Debug)]
struct Element {
    name: String,
    attributes: Vec<(String, String)>,
    /// All text inside, that of its parts too.
    text: String,
    /// The place of its parent.
    parent: Option<usize>,
}

impl Element {
    fn get(&self, name: &str) -> Option<&str> {
        let found = self.attributes.iter().find(|(own, _)| own == name);
        found.map(|(_, value)| value.as_str())
    }

    fn number(&self, name: &str) -> i64 {
        let value = self.get(name).unwrap_or_else(|| panic!("no {name}: {self:?}"));
        value
            .parse()
            .unwrap_or_else(|_| panic!("{name} is no integer: {self:?}"))
    }

    fn is(&self, class: &str) -> bool {
        self.get("class")
            .is_some_and(|own| own.split(' ').any(|own| own == class))
    }
}

/// The elements of a text that is well formed, or what is wrong with it. In a page, scripts and styles are raw text.
fn read_xml(text: &str) -> Result<Vec<Element>, String> {
    let allowed = |sign: char| matches!(sign, '\t' | '\n' | ' '..='\u{d7ff}' | '\u{e000}'..='\u{fffd}' | '\u{10000}'..);
    if let Some(sign) = text.chars().find(|sign| !allowed(*sign)) {
        return Err(format!("the sign {:x} may not stand in XML", sign as u32));
    }
    let mut rest = text.strip_prefix("<!DOCTYPE html>").unwrap_or(text);
    let mut elements: Vec<Element> = Vec::new();
    let mut open: Vec<usize> = Vec::new();
    while let Some(at) = rest.find('<') {
        let words = unescaped(&rest[..at])?;
        match open.is_empty() {
            true if !words.trim().is_empty() => return Err(format!("`{words}` is outside of everything")),
            _ => open.iter().for_each(|own| elements[*own].text.push_str(&words)),
        }
        rest = &rest[at + 1..];
        if let Some(behind) = rest.strip_prefix('/') {
            let end = behind.find('>').ok_or("an end tag has no end")?;
            let last = open.pop().ok_or("an end tag without its start")?;
            if elements[last].name != behind[..end] {
                return Err(format!("`{}` is ended by `{}`", elements[last].name, &behind[..end]));
            }
            rest = &behind[end + 1..];
            continue;
        }
        if open.is_empty() && !elements.is_empty() {
            return Err("there are two roots".to_string());
        }
        let (element, empty, behind) = read_tag(rest, open.last().copied())?;
        let raw = matches!(&element.name[..], "script" | "style");
        let close = format!("</{}>", element.name);
        elements.push(element);
        rest = behind;
        if raw {
            let end = rest.find(&close).ok_or("a script has no end")?;
            elements.last_mut().unwrap().text = rest[..end].to_string();
            rest = &rest[end + close.len()..];
        } else if !empty {
            open.push(elements.len() - 1);
        }
    }
    match open.is_empty() && rest.trim().is_empty() && !elements.is_empty() {
        true => Ok(elements),
        false => Err("the text ends too early or too late".to_string()),
    }
}

fn is_name(text: &str) -> bool {
    let first = text.chars().next().is_some_and(|sign| sign.is_ascii_alphabetic());
    first
        && text
            .chars()
            .all(|sign| sign.is_ascii_alphanumeric() || "-:".contains(sign))
}

/// A tag from behind its `<`: the element, whether it is empty, and what stands behind the tag.
fn read_tag(text: &str, parent: Option<usize>) -> Result<(Element, bool, &str), String> {
    let end = text.find([' ', '>', '/', '\n']).ok_or("a tag has no end")?;
    let mut element = Element {
        name: text[..end].to_string(),
        attributes: Vec::new(),
        text: String::new(),
        parent,
    };
    if !is_name(&element.name) {
        return Err(format!("`{}` is no name of an element", element.name));
    }
    let mut rest = &text[end..];
    loop {
        let blank = rest.starts_with([' ', '\n']);
        rest = rest.trim_start_matches([' ', '\n']);
        if let Some(behind) = rest.strip_prefix("/>") {
            return Ok((element, true, behind));
        }
        if let Some(behind) = rest.strip_prefix('>') {
            return Ok((element, false, behind));
        }
        let (name, behind) = rest.split_once("=\"").ok_or("an attribute has no value in quotes")?;
        let (value, behind) = behind.split_once('"').ok_or("a value has no end")?;
        if !blank || !is_name(name) || value.contains('<') || element.get(name).is_some() {
            return Err(format!("`{name}` is no good attribute of `{}`", element.name));
        }
        element.attributes.push((name.to_string(), unescaped(value)?));
        rest = behind;
    }
}

fn unescaped(text: &str) -> Result<String, String> {
    let mut out = String::new();
    let mut rest = text;
    while let Some((before, behind)) = rest.split_once('&') {
        out.push_str(before);
        let signs = [("amp;", '&'), ("lt;", '<'), ("gt;", '>'), ("quot;", '"')];
        let sign = signs.iter().find(|(name, _)| behind.starts_with(name));
        let (name, sign) = sign.ok_or_else(|| format!("an unknown entity: {}", &text[..text.len().min(60)]))?;
        out.push(*sign);
        rest = &behind[name.len()..];
    }
    out.push_str(rest);
    match text.contains("]]>") {
        true => Err("]]> stands in the text".to_string()),
        false => Ok(out),
    }
}

#[test]
fn the_reader_of_xml_is_strict() {
    for good in [
        "<a/>",
        "<a b=\"1\" c=\"&lt;&quot;\">x &amp; y<b/></a>\n",
        "<a><script>1 < 2</script></a>",
    ] {
        assert!(read_xml(good).is_ok(), "{good}");
    }
    let bad = [
        "",
        "<a>",
        "</a>",
        "<a></b>",
        "<a/><b/>",
        "x<a/>",
        "<a/>x",
        "<a b=1/>",
        "<a b=\"1\" b=\"2\"/>",
        "<a>&nbsp;</a>",
        "<a>&</a>",
        "<a b=\"<\"/>",
        "<a>\u{1}</a>",
        "<a b=\"1\"c=\"2\"/>",
        "<1/>",
        "<a><b></a></b>",
        "<a>]]></a>",
    ];
    for bad in bad {
        assert!(read_xml(bad).is_err(), "{bad}");
    }
}

/// The name of the SVG's kind is the only thing that looks like an address, and nothing is fetched.
fn no_outside(text: &str, name: &str) {
    assert_eq!(text.matches("http://").count(), 1, "{name}");
    assert!(text.contains("xmlns=\"http://www.w3.org/2000/svg\""), "{name}");
    for word in [
        "https:", "url(", "@import", "href=", "src=", "ftp:", "file:", "data:", "<link", "<iframe", "<img",
    ] {
        assert!(!text.contains(word), "{name} has {word}");
    }
}

#[derive(Clone, Copy, Debug)]
struct Rect {
    x: i64,
    y: i64,
    right: i64,
    bottom: i64,
}

fn rect(element: &Element) -> Rect {
    let (x, y) = (element.number("x"), element.number("y"));
    Rect {
        x,
        y,
        right: x + element.number("width"),
        bottom: y + element.number("height"),
    }
}

/// Every number of a path is an integer; its first two are where it begins.
fn begins(path: &Element) -> (i64, i64) {
    let d = path.get("d").unwrap();
    let numbers: Vec<&str> = d
        .split(|sign: char| !(sign.is_ascii_digit() || sign == '-' || sign == '.'))
        .filter(|number| !number.is_empty())
        .collect();
    let numbers: Vec<i64> = numbers.iter().map(|number| number.parse().unwrap()).collect();
    (numbers[0], numbers[1])
}

/// The straight pieces of an arrow's line, `M x y H x V y H x`, from corner to corner.
fn pieces(path: &Element) -> Vec<Rect> {
    let (mut x, mut y) = begins(path);
    let d = path.get("d").unwrap();
    let behind = &d[d.find('H').unwrap()..];
    let mut pieces = Vec::new();
    for piece in behind.split_inclusive(['H', 'V']).collect::<Vec<_>>().windows(2) {
        let to: i64 = piece[1].trim_end_matches(['H', 'V']).parse().unwrap();
        let (from_x, from_y) = (x, y);
        match piece[0].ends_with('H') {
            true => x = to,
            false => y = to,
        }
        pieces.push(Rect {
            x: from_x.min(x),
            y: from_y.min(y),
            right: from_x.max(x),
            bottom: from_y.max(y),
        });
    }
    pieces
}

/// The SVG among these elements: whole, its boxes apart, its texts inside them, its arrows on lifelines or chips.
fn good_picture(elements: &[Element], events: usize, name: &str) {
    let svg = elements.iter().position(|element| element.name == "svg").unwrap();
    let (width, height) = (elements[svg].number("width"), elements[svg].number("height"));
    let inside = |mut at: usize| {
        while let Some(parent) = elements[at].parent {
            if parent == svg {
                return true;
            }
            at = parent;
        }
        false
    };
    let parts: Vec<&Element> = (0..elements.len())
        .filter(|at| inside(*at))
        .map(|at| &elements[at])
        .collect();
    assert!(elements[svg].get("role").is_some());
    for id in elements[svg].get("aria-labelledby").unwrap().split(' ') {
        let named = parts.iter().find(|part| part.get("id") == Some(id)).unwrap();
        assert!(!named.text.is_empty(), "{name}");
    }

    let rects: Vec<Rect> = (parts.iter())
        .filter(|part| part.name == "rect")
        .map(|part| rect(part))
        .collect();
    for (n, one) in rects.iter().enumerate() {
        assert!(
            one.x >= 0 && one.y >= 0 && one.right <= width && one.bottom <= height,
            "{name}: {one:?}"
        );
        for other in &rects[..n] {
            let apart = one.right <= other.x || other.right <= one.x || one.bottom <= other.y || other.bottom <= one.y;
            assert!(apart, "{name}: {one:?} meets {other:?}");
        }
    }

    let of = |at: usize, kind: &'static str| {
        let own = elements
            .iter()
            .filter(move |part| part.parent == Some(at) && part.name == kind);
        own.collect::<Vec<&Element>>()
    };
    let mut seen = BTreeSet::new();
    let mut lefts = BTreeSet::new();
    for at in (0..elements.len()).filter(|at| elements[*at].is("chip")) {
        let chip = &elements[at];
        assert!(seen.insert(chip.get("data-event").unwrap()), "{name}: a chip twice");
        let (own, texts, titles) = (rect(of(at, "rect")[0]), of(at, "text"), of(at, "title"));
        let kind = &texts[0].text;
        assert!(["new", "send", "receive", "open", "check", "end"].contains(&&kind[..]) && chip.is(kind));
        let text = &texts[1];
        let short = text.text.strip_suffix("..").unwrap_or(&text.text);
        assert!(
            !short.is_empty() && titles[0].text.contains(&format!("{kind} {short}")),
            "{name}"
        );
        assert!(
            text.number("x") + 8 * text.text.chars().count() as i64 + 4 <= own.right,
            "{name}: {}",
            text.text
        );
        lefts.insert(own.x);
    }
    assert_eq!(seen.len(), events, "{name}");

    let lifelines = elements.iter().position(|part| part.is("lifelines")).unwrap();
    let lines: BTreeSet<i64> = of(lifelines, "path").iter().map(|path| begins(path).0).collect();
    let mut waits: Vec<Rect> = Vec::new();
    for arrow in (0..elements.len()).filter(|at| elements[*at].is("arrow")) {
        let paths = of(arrow, "path");
        let (from, tip) = (begins(paths[0]), begins(paths[1]));
        assert!(paths[0].is("line") && paths[1].is("tip") && of(arrow, "title").len() == 1);
        assert!(lines.contains(&from.0), "{name}: an arrow leaves no lifeline");
        assert!(
            lines.contains(&tip.0) || lefts.contains(&tip.0),
            "{name}: an arrow reaches nothing"
        );
        // It ends where the message is received: right above that chip, or at its left edge.
        let received = |at: &usize| {
            elements[*at].is("receive") && elements[*at].get("data-step") == elements[arrow].get("data-step")
        };
        let received = rect(of((0..elements.len()).find(received).unwrap(), "rect")[0]);
        let above = tip == (received.x + 36, received.y - 12);
        assert!(
            above || tip == (received.x, received.y + 12),
            "{name}: {tip:?}, {received:?}"
        );
        for piece in pieces(paths[0]) {
            let through = |rect: &&Rect| {
                piece.x < rect.right
                    && rect.x < piece.right.max(piece.x + 1)
                    && piece.y < rect.bottom
                    && rect.y < piece.bottom + 1
            };
            assert!(
                !rects.iter().any(|rect| through(&rect)),
                "{name}: {piece:?} goes through a box"
            );
            let along = |other: &Rect| other.x == piece.x && other.y < piece.bottom && piece.y < other.bottom;
            if piece.x == piece.right {
                assert!(!waits.iter().any(along), "{name}: two messages wait in one place");
                waits.push(piece);
            }
        }
        let text = of(arrow, "text")[0];
        let half = 4 * text.text.chars().count() as i64;
        assert!(
            text.number("x") - half >= 0 && text.number("x") + half <= width,
            "{name}: {}",
            text.text
        );
    }
    assert!(parts.iter().all(|part| part.name != "script" && part.name != "style"));
}

fn good_page(page: &str, elements: &[Element], json: &str, source: Option<&str>, name: &str) {
    let data = (elements.iter()).find(|element| element.get("type") == Some("application/json"));
    assert_eq!(data.unwrap().text, json, "{name}: the data");
    let events = json.matches("\"kind\": \"").count();
    let inside = |list: &'static str| {
        elements.iter().filter(move |element| {
            element.name == "li" && element.parent.is_some_and(|parent| elements[parent].is(list))
        })
    };
    let lines: Vec<&Element> = inside("program").collect();
    assert_eq!(lines.len(), events, "{name}: program lines");
    let chips: BTreeSet<_> = (elements.iter().filter(|element| element.is("chip")))
        .map(|chip| (chip.get("data-event"), chip.get("data-step"), chip.get("data-move")))
        .collect();
    for line in lines {
        let own = (line.get("data-event"), line.get("data-step"), line.get("data-move"));
        assert!(chips.contains(&own), "{name}: a program line without its chip");
    }
    if let Some(source) = source {
        let told: Vec<&str> = inside("source").map(|line| line.text.as_str()).collect();
        assert_eq!(told.len(), source.lines().count(), "{name}: source lines");
        for (told, line) in told.iter().zip(source.lines()) {
            assert_eq!(told.strip_suffix(" refused").unwrap_or(told), line, "{name}");
        }
        let steps: BTreeSet<_> = inside("source").filter_map(|line| line.get("data-step")).collect();
        let refused = usize::from(!json.contains("\"refusal\": null"));
        assert_eq!(
            steps.len(),
            json.matches("\"from\": \"").count() + refused,
            "{name}: steps"
        );
    }
    let ids: Vec<&str> = elements.iter().filter_map(|element| element.get("id")).collect();
    assert_eq!(
        ids.len(),
        ids.iter().collect::<BTreeSet<_>>().len(),
        "{name}: an id twice"
    );
    assert!(page.contains("prefers-color-scheme") && page.contains("@media print"));
}

/// Only lines that Mermaid has, with a note for each event and a message for each step.
fn good_diagram(diagram: &str, json: &str, name: &str) {
    let mut lines = diagram.lines();
    assert_eq!(
        (lines.next(), lines.next()),
        (Some("%% nghi draw"), Some("sequenceDiagram"))
    );
    let (mut notes, mut messages) = (0, 0);
    for line in lines {
        let line = line.trim_start();
        let text = match line.strip_prefix("participant ") {
            Some(rest) => rest.split_once(" as ").unwrap().1,
            None => {
                let (front, text) = line.split_once(": ").unwrap();
                match front.starts_with("Note over p") {
                    true => notes += 1,
                    false => {
                        let (from, to) = front.split_once("->>").unwrap();
                        assert!(from.starts_with('p') && to.starts_with('p') && from != to);
                        messages += 1;
                    }
                }
                text
            }
        };
        assert!(
            text.is_ascii() && !text.contains([':', '%', '<', '>', '-']),
            "{name}: {text}"
        );
        for piece in text.split(';').rev().skip(1) {
            let number = piece.rsplit_once('#').map(|(_, number)| number.parse::<u32>());
            assert!(matches!(number, Some(Ok(_))), "{name}: {text}");
        }
        assert_eq!(text.matches('#').count(), text.matches(';').count(), "{name}: {text}");
        let word = |word: &str| word.eq_ignore_ascii_case("end");
        assert!(!text
            .split(|sign: char| !(sign.is_alphanumeric() || sign == '_'))
            .any(word));
    }
    let refused = usize::from(!json.contains("\"refusal\": null"));
    assert_eq!(notes, json.matches("\"kind\": \"").count() + refused, "{name}");
    assert_eq!(messages, json.matches("\"from\": \"").count(), "{name}");
}

/// All of one file, drawn in an order.
fn drawn(path: &str, order: &str, source: Option<&str>) -> (u8, usize) {
    let draw = |form: &str| nghi(&["draw", path, "--order", order, "--as", form]);
    let (status, json) = nghi(&["draw", path, "--order", order, "--json"]);
    if status == 2 {
        assert!(json.contains("at most 400 are drawn"), "{path}: {json}");
        return (2, 0);
    }
    let events = json.matches("\"kind\": \"").count();
    let (programs_status, programs) = nghi(&["programs", path, "--json"]);
    assert_eq!(programs_status, status, "{path}");
    if status == 0 {
        assert_eq!(programs.matches("\"kind\": \"").count(), events, "{path}");
    }
    let name = format!("{path}, {order}");
    let (svg_status, svg) = draw("svg");
    let (page_status, page) = draw("html");
    let (diagram_status, diagram) = draw("mmd");
    assert_eq!([svg_status, page_status, diagram_status], [status; 3], "{name}");
    let elements = read_xml(&svg).unwrap_or_else(|wrong| panic!("{name}: {wrong}"));
    good_picture(&elements, events, &name);
    no_outside(&svg, &name);
    let elements = read_xml(&page).unwrap_or_else(|wrong| panic!("{name}: {wrong}"));
    good_picture(&elements, events, &name);
    good_page(&page, &elements, &json, source, &name);
    no_outside(&page, &name);
    good_diagram(&diagram, &json, &name);
    assert_eq!(
        [draw("svg").1, draw("html").1, draw("mmd").1],
        [svg, page, diagram],
        "{name}"
    );
    (status, events)
}

#[test]
fn every_narration_is_drawn() {
    let mut statuses = [0; 3];
    for path in books() {
        let source = fs::read_to_string(&path).unwrap();
        let (status, _) = drawn(path.to_str().unwrap(), "narration", Some(&source));
        statuses[status as usize] += 1;
    }
    assert!(statuses[0] > 80 && statuses[1] > 10 && statuses[2] > 0, "{statuses:?}");
}

/// Where messages wait, arrows go beside the chips of who is to receive them.
#[test]
fn other_orders_are_drawn() {
    let mut waits = 0;
    for path in books() {
        let source = fs::read_to_string(&path).unwrap();
        if source.len() > 800 {
            continue;
        }
        let path = path.to_str().unwrap();
        for order in ["round", "reverse", "random:5"] {
            drawn(path, order, Some(&source));
            let (_, svg) = nghi(&["draw", path, "--order", order, "--as", "svg"]);
            let lines = svg.split("<path class=\"line\" d=\"").skip(1);
            waits += lines
                .filter(|line| line.split('"').next().unwrap().contains('V'))
                .count();
        }
    }
    assert!(waits > 10, "{waits} messages wait");
}

#[test]
fn an_example_to_the_word() {
    let (status, svg) = nghi(&["draw", "../books/example-1.narration", "--as", "svg"]);
    assert_eq!(status, 0);
    let elements = read_xml(&svg).unwrap();
    let titles: Vec<&str> = (elements.iter().filter(|element| element.name == "title"))
        .map(|title| title.text.as_str())
        .collect();
    assert_eq!(
        titles,
        [
            "The run of example-1.narration",
            "line 8: B to A: N",
            "line 9: A to B: {N, B}K",
            "A knows A, B, K",
            "B knows A, B, K",
            "B: new N (line 8, event 1 of 7, move 1)",
            "B: send N (line 8, event 2 of 7, move 2)",
            "A: receive x0 = N (line 8, event 1 of 3, move 3)",
            "A: send {x0, B}K (line 9, event 2 of 3, move 4)",
            "B: receive x0 = {N, B}K (line 9, event 3 of 7, move 5)",
            "B: open x0 with K: x1 = N, x2 = B (line 9, event 4 of 7, move 6)",
            "B: check x1 = N (line 9, event 5 of 7, move 7)",
            "B: check x2 = B (line 9, event 6 of 7, move 8)",
            "A: end keeps N as x0 (event 3 of 3)",
            "B: end keeps nothing (event 7 of 7)",
        ]
    );
    let (_, page) = nghi(&["draw", "../books/example-1.narration", "--as", "html"]);
    let cells: Vec<String> = (read_xml(&page).unwrap().iter().filter(|element| element.name == "td"))
        .map(|cell| format!("{} {}", cell.get("data-move").unwrap_or("-"), cell.text))
        .collect();
    let given = "0 given";
    let told = ["3 stored at line 8 as x0", "1 made at line 8"];
    assert_eq!(cells, [&[given; 6][..], &told[..]].concat());
}

#[test]
fn names_of_any_script() {
    let folder = folder("names");
    let text = "# <b>&amp; \"quoted\" ]]> </script> \u{1}\u{202e} 'x' # ; %%\n\
                party Ключ knows 鍵鍵鍵鍵, café'\nparty مفتاح knows 鍵鍵鍵鍵\n\
                Ключ -> مفتاح: {ñ', 鍵鍵鍵鍵, end}鍵鍵鍵鍵\nمفتاح -> Ключ: style(end, ñ'), {end, end, end, end, ñ', ñ', ñ'}鍵鍵鍵鍵\n";
    let path = narration(&folder, "a <b>&\"'.narration", text);
    for order in ["narration", "round", "reverse", "random:1"] {
        let (status, events) = drawn(&path, order, None);
        assert_eq!((status, events > 8), (0, true));
    }
    let (_, svg) = nghi(&["draw", &path, "--as", "svg"]);
    assert!(svg.contains("Ключ") && svg.contains("a &lt;b&gt;&amp;&quot;'.narration"));
    let (_, page) = nghi(&["draw", &path, "--as", "html"]);
    assert!(page.contains("# &lt;b&gt;&amp;amp; &quot;quoted&quot; ]]&gt; &lt;/script&gt; \u{fffd}"));
    assert_eq!(page.matches("</script>").count(), 2);
    let (_, diagram) = nghi(&["draw", &path, "--as", "mmd"]);
    assert!(diagram.contains("participant p0 as #1050;#1083;#1102;#1095;\n"));
}

#[test]
fn a_book_has_made_up_names_and_steps() {
    assert_eq!(drawn("../books/example-1.book", "narration", None), (0, 10));
    let (_, page) = nghi(&["draw", "../books/example-1.book", "--as", "html"]);
    assert!(page.contains("<li data-step=\"1\"><code>A -&gt; B: {n3, B}n2</code></li>"));
    let (_, svg) = nghi(&["draw", "../books/example-1.book", "--as", "svg"]);
    assert!(svg.contains(">step 1: {n3, B}n2</text>"));
    let (status, _) = drawn("../books/unplayable-late-key.book", "narration", None);
    assert_eq!(status, 1);
}

#[test]
fn the_smallest() {
    let folder = folder("smallest");
    for text in [
        "party A\n",
        "party A\nparty B\nA -> B:\n",
        "party A\nparty B\nparty C knows K",
    ] {
        let path = narration(&folder, "small.narration", text);
        drawn(&path, "narration", Some(text));
    }
}

#[test]
fn a_refused_narration_is_drawn_up_to_its_step() {
    let folder = folder("refused");
    let text = "party Client knows Client, K\nparty Server knows K\n\n\
                Client -> Server: {N}M\nServer -> Client: {N}K\nClient -> Server: N\n";
    let path = narration(&folder, "late.narration", text);
    let picture = folder.join("late.svg");
    let (status, told) = nghi(&["draw", &path, "-o", picture.to_str().unwrap()]);
    assert_eq!(status, 1);
    let reason = "Server would have to make N, which is taken";
    assert!(
        told.contains("refus") && told.contains(&format!("drawn up to line 5: {reason}")),
        "{told}"
    );
    let svg = fs::read_to_string(&picture).unwrap();
    let stop = (read_xml(&svg).unwrap().into_iter())
        .find(|element| element.is("stop"))
        .unwrap();
    assert!(stop.text.contains("refused at line 5: Server -> Client: {N}K"));
    assert!(stop.text.contains(reason) && stop.text.contains("1 step after it is not drawn"));
    assert_eq!(svg.matches("class=\"arrow\"").count(), 1);
    assert_eq!(drawn(&path, "narration", Some(text)), (1, 6));
    let (_, json) = nghi(&["draw", &path, "--json"]);
    assert!(json.contains(&format!("\"term\": \"N\", \"reason\": \"{reason}\"")));

    let text = "party T makes nothing knows K\nparty R knows K\nT -> R: N, {N}K\n";
    let path = narration(&folder, "tag.narration", text);
    let (status, page) = nghi(&["draw", &path, "--as", "html"]);
    assert!(status == 1 && page.contains("T would have to make N, and makes nothing"));
    assert!(page.contains("<li data-step=\"0\"><code>T -&gt; R: N, {N}K</code> <strong>refused</strong></li>"));
    assert_eq!(drawn(&path, "narration", Some(text)), (1, 2));
}

#[test]
fn too_large_is_said() {
    let (status, told) = nghi(&["draw", "../books/full-ring.narration", "--as", "svg"]);
    assert_eq!(status, 2);
    assert!(told.contains("592 events, and at most 400 are drawn"), "{told}");
    assert!(nghi(&["draw", "--help"]).1.contains("at most 400 events"));
}

#[test]
fn mistakes_are_not_drawn() {
    let folder = folder("mistakes");
    let path = narration(&folder, "wrong.narration", "party A\nA -> C: N\n");
    let picture = folder.join("wrong.svg");
    let (status, told) = nghi(&["draw", &path, "-o", picture.to_str().unwrap()]);
    assert!(status == 3 && told.contains("`C`") && !picture.exists());
    assert_eq!(nghi(&["draw", "../books/refusal-6.book", "--as", "svg"]).0, 1);
    assert_eq!(nghi(&["draw", "nothing.narration", "--as", "svg"]).0, 4);
}

#[test]
fn what_is_asked_for_is_said() {
    let example = "../books/example-1.narration";
    let wrong = |more: &[&str], word: &str| {
        let (status, told) = nghi(&[&["draw", example], more].concat());
        assert!(status == 2 && told.contains(word), "{more:?}: {status} {told}");
    };
    wrong(&[], "where to?");
    wrong(&["-o", "-"], "needs `--as svg`");
    wrong(&["-o", "picture.png"], "its name says no form");
    wrong(&["--as", "png"], "`png` is no form");
    wrong(&["-o", "-", "--as", "svg", "--json"], "both write to standard output");
    wrong(&["--as", "svg", "--order", "backwards"], "is no order");
    let out = |more: &[&str]| nghi(&[&["draw", example], more].concat());
    assert_eq!(out(&["--as", "svg"]), out(&["-o", "-", "--as", "svg"]));
    assert!(out(&["--json"])
        .1
        .starts_with("{\"nghi\": 1, \"command\": \"draw\", \"file\": "));
}

#[test]
fn files_are_written_whole_and_nothing_is_lost() {
    let folder = folder("files");
    let text = fs::read_to_string("../books/example-1.narration").unwrap();
    let path = narration(&folder, "one.narration", &text);
    let at = |name: &str| folder.join(name).to_str().unwrap().to_string();
    let draw = |more: &[&str]| nghi(&[&["draw", &path], more].concat());
    for name in ["one.svg", "one.html", "one.mmd"] {
        let (status, told) = draw(&["-o", &at(name)]);
        assert!(
            status == 0 && told.ends_with("2 parties, 2 steps, 10 events; order: narration\n"),
            "{told}"
        );
        let form = name.split_once('.').unwrap().1;
        assert_eq!(fs::read_to_string(at(name)).unwrap(), draw(&["--as", form]).1);
        // Over a picture of ours, of whatever form, it is written again.
        assert_eq!(draw(&["-o", &at(name), "--as", "mmd", "--order", "round"]).0, 0);
        assert!(fs::read_to_string(at(name)).unwrap().starts_with("%% nghi draw\n"));
    }
    // A picture and JSON at once.
    let (status, json) = draw(&["-o", &at("two.html"), "--json"]);
    assert!(status == 0 && json == draw(&["--json"]).1 && Path::new(&at("two.html")).exists());

    fs::write(at("mine.svg"), "<svg>drawn by hand</svg>").unwrap();
    fs::write(at("mine.html"), "<!DOCTYPE html>\n<html lang=\"en\">\n").unwrap();
    for name in ["mine.svg", "mine.html"] {
        let before = fs::read(at(name)).unwrap();
        let (status, told) = draw(&["-o", &at(name)]);
        assert!(status == 4 && told.contains("no picture of nghi's"), "{told}");
        assert_eq!(fs::read(at(name)).unwrap(), before);
        assert_eq!(draw(&["-o", &at(name), "--force"]).0, 0);
        assert!(fs::read_to_string(at(name)).unwrap().contains("nghi draw"));
    }

    // Never over the source, by whatever name, not even by force.
    fs::create_dir(at("inner")).unwrap();
    let names = [path.clone(), at("inner/../one.narration")];
    for name in &names {
        let (status, told) = draw(&["-o", name, "--as", "svg", "--force"]);
        assert!(status == 4 && told.contains("the file that is read"), "{told}");
    }
    #[cfg(unix)]
    {
        std::os::unix::fs::symlink(&path, at("link.svg")).unwrap();
        assert_eq!(draw(&["-o", &at("link.svg"), "--force"]).0, 4);
        std::os::unix::fs::symlink(at("one.svg"), at("other.svg")).unwrap();
        assert_eq!(draw(&["-o", &at("other.svg")]).0, 0);
        assert!(fs::symlink_metadata(at("other.svg")).unwrap().file_type().is_symlink());
        assert!(fs::read_to_string(at("one.svg")).unwrap().starts_with("<svg"));
        let (status, told) = draw(&["-o", "/dev/null", "--as", "svg", "--force"]);
        assert!(status == 4 && told.contains("no ordinary file"), "{told}");
        // No link stays in the repository: `rt ci` would refuse it.
        for name in ["link.svg", "other.svg"] {
            fs::remove_file(at(name)).unwrap();
        }
    }
    assert_eq!(fs::read_to_string(&path).unwrap(), text);

    assert_eq!(draw(&["-o", &at("none/one.svg")]).0, 4);
    assert_eq!(draw(&["-o", &at("inner"), "--as", "svg"]).0, 4);
    let left = fs::read_dir(&folder).unwrap().map(|entry| entry.unwrap().file_name());
    assert!(left.into_iter().all(|name| !name.to_string_lossy().starts_with('.')));
}

/// The program itself, from standard input, and with a name of a file that is no path.
#[test]
fn the_program_draws_from_standard_input() {
    let folder = folder("stdin");
    let input = fs::File::open("../books/example-1.narration").unwrap();
    let output = Command::new(env!("CARGO_BIN_EXE_nghi"))
        .current_dir(&folder)
        .args(["draw", "-", "-o", "here.svg"])
        .stdin(Stdio::from(input))
        .output()
        .unwrap();
    assert_eq!(output.status.code(), Some(0));
    assert_eq!(
        String::from_utf8(output.stdout).unwrap(),
        "here.svg: 2 parties, 2 steps, 10 events; order: narration\n"
    );
    let svg = fs::read_to_string(folder.join("here.svg")).unwrap();
    assert!(read_xml(&svg).is_ok() && svg.contains("The run of standard input"));
}

//! A scene as a page: the narration, the picture, the programs and who holds what, in one file that needs nothing else and
//! can be read without a script. With one, the run can be walked through move by move.

use super::scene::{Event, Held, Scene};
use super::{escaped, svg};
use crate::failure::Failure;
use std::fmt::Write;

/// What every page of ours begins with.
pub const FRONT: &str =
    "<!DOCTYPE html>\n<html lang=\"en\">\n<head>\n<meta name=\"generator\" content=\"nghi draw\"/>\n";

const STYLE: &str = include_str!("page.css");
const SCRIPT: &str = include_str!("page.js");

pub fn page(scene: &Scene) -> Result<String, Failure> {
    let title = escaped(&scene.title);
    let mut out = String::from(FRONT);
    let _ = write!(
        out,
        "<meta charset=\"utf-8\"/>\n<meta name=\"viewport\" content=\"width=device-width, initial-scale=1\"/>\n\
         <title>{title}: the run</title>\n<style>\n{STYLE}</style>\n</head>\n<body>\n\
         <header>\n<h1>{title}</h1>\n<p class=\"soft\">{}</p>\n",
        escaped(&scene.size())
    );
    if let Some(stop) = &scene.stop {
        let _ = writeln!(
            out,
            "<p class=\"refused\"><strong>Refused at {}:</strong> <code>{}</code><br/>{} (refusal {}). \
             What stands below are the steps before it.</p>",
            escaped(&stop.place),
            escaped(&stop.text),
            escaped(&stop.reason),
            stop.number
        );
    }
    out.push_str("</header>\n");
    out.push_str(&stepper(scene.moves.len()));
    out.push_str("<main>\n");
    source(scene, &mut out);
    let picture = svg::picture(scene, svg::Use::InPage)?;
    let _ = write!(
        out,
        "<section id=\"run\">\n<h2>The run</h2>\n<div class=\"picture\" style=\"--wide: {}px\">\n{picture}</div>\n</section>\n",
        svg::width(scene)
    );
    programs(scene, &mut out);
    terms(scene, &mut out);
    let _ = write!(
        out,
        "</main>\n<script type=\"application/json\" id=\"scene\">{}\n</script>\n<script>\n{SCRIPT}</script>\n</body>\n</html>\n",
        scene.json()
    );
    Ok(out)
}

/// Shown by the script, which it is of no use without.
fn stepper(moves: usize) -> String {
    let button = |by: &str, label: &str, sign: &str| {
        format!("<button type=\"button\" data-by=\"{by}\" aria-label=\"{label}\" title=\"{label}\">{sign}</button>\n")
    };
    format!(
        "<form id=\"stepper\" hidden=\"hidden\">\n<div class=\"controls\">\n{}{}\
         <input type=\"range\" min=\"0\" max=\"{moves}\" value=\"{moves}\" step=\"1\" aria-label=\"moves done\"/>\n{}{}</div>\n\
         <output aria-live=\"polite\"></output>\n</form>\n",
        button("first", "before the first move", "|\u{25c0}"),
        button("-1", "one move back", "\u{25c0}"),
        button("1", "one move on", "\u{25b6}"),
        button("last", "after the last move", "\u{25b6}|"),
    )
}

/// The lines of the text with their numbers; of a book its steps, which are counted from 0.
fn source(scene: &Scene, out: &mut String) {
    out.push_str("<section id=\"narration\">\n<h2>The narration</h2>\n");
    if scene.lines.is_empty() {
        out.push_str("<p class=\"soft\">A book has no text; these are its steps, and the names are made up.</p>\n");
        out.push_str("<ol class=\"source\" start=\"0\">\n");
        for step in &scene.steps {
            let (from, to) = (&scene.parties[step.from].name, &scene.parties[step.to].name);
            let text = format!("{from} -> {to}: {}", step.text);
            let _ = writeln!(
                out,
                "<li data-step=\"{}\"><code>{}</code></li>",
                step.number,
                escaped(&text)
            );
        }
        if let Some(stop) = &scene.stop {
            let _ = writeln!(
                out,
                "<li data-step=\"{}\"><code>{}</code> <strong>refused</strong></li>",
                stop.step,
                escaped(&stop.text)
            );
        }
    } else {
        out.push_str("<ol class=\"source\">\n");
        // A text that ends with a line feed has an empty line behind it, which nobody numbers.
        let shown = match scene.lines.last() {
            Some(last) if last.is_empty() => &scene.lines[..scene.lines.len() - 1],
            _ => &scene.lines[..],
        };
        for (number, line) in (1..).zip(shown) {
            source_line(scene, number, line, out);
        }
    }
    out.push_str("</ol>\n</section>\n");
}

fn source_line(scene: &Scene, number: usize, line: &str, out: &mut String) {
    let step = scene.steps.iter().find(|step| step.line == Some(number));
    let step = step.map(|step| step.number);
    let step = step.or_else(|| {
        (scene.stop.as_ref())
            .filter(|_| scene.stops_at(number))
            .map(|stop| stop.step)
    });
    let mark = match step {
        Some(step) => format!(" data-step=\"{step}\""),
        None if line.trim_start().starts_with('#') => String::from(" class=\"comment\""),
        None => String::new(),
    };
    let refused = match scene.stops_at(number) {
        true => " <strong>refused</strong>",
        false => "",
    };
    let _ = writeln!(out, "<li{mark}><code>{}</code>{refused}</li>", escaped(line));
}

fn programs(scene: &Scene, out: &mut String) {
    out.push_str("<section id=\"programs\">\n<h2>The programs</h2>\n<div class=\"programs\">\n");
    for (number, party) in scene.parties.iter().enumerate() {
        let _ = writeln!(
            out,
            "<article>\n<h3>{}</h3>\n<p class=\"soft\">{}</p>\n<ol class=\"program\">",
            escaped(&party.name),
            escaped(&party.begins)
        );
        for (place, event) in party.events.iter().enumerate() {
            program_line(number, place, event, out);
        }
        out.push_str("</ol>\n</article>\n");
    }
    out.push_str("</div>\n</section>\n");
}

fn program_line(party: usize, place: usize, event: &Event, out: &mut String) {
    let told = &event.told;
    let step = told
        .step
        .map_or_else(String::new, |step| format!(" data-step=\"{step}\""));
    let behind = match event.place.is_empty() {
        true => String::new(),
        false => format!(" <span class=\"soft\">{}</span>", escaped(&event.place)),
    };
    let _ = writeln!(
        out,
        "<li data-event=\"{party}-{place}\"{step} data-move=\"{}\"><b>{}</b> <code>{}</code>{behind}</li>",
        event.at,
        told.kind,
        escaped(&told.text)
    );
}

fn terms(scene: &Scene, out: &mut String) {
    out.push_str(
        "<section id=\"terms\">\n<h2>Who holds what</h2>\n<div class=\"scroll\">\n<table>\n\
         <caption>Each term that somebody holds, and since when. What a party only builds to send or compare, or opens, it does \
         not hold.</caption>\n<thead>\n<tr><th scope=\"col\">term</th>",
    );
    for party in &scene.parties {
        let _ = write!(out, "<th scope=\"col\">{}</th>", escaped(&party.name));
    }
    out.push_str("</tr>\n</thead>\n<tbody>\n");
    for term in &scene.terms {
        let _ = write!(out, "<tr><th scope=\"row\"><code>{}</code></th>", escaped(&term.text));
        for held in &term.held {
            out.push_str(&cell(held.as_ref()));
        }
        out.push_str("</tr>\n");
    }
    out.push_str("</tbody>\n</table>\n</div>\n</section>\n");
}

fn cell(held: Option<&Held>) -> String {
    let Some(held) = held else {
        return String::from("<td class=\"soft\">never</td>");
    };
    let step = held
        .step
        .map_or_else(String::new, |step| format!(" data-step=\"{step}\""));
    format!("<td{step} data-move=\"{}\">{}</td>", held.at, escaped(&held.text))
}

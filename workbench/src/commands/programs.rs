//! `nghi programs`: each party's events with the narration's own names and lines.

use crate::arguments::{Call, Command, Takes, JSON};
use crate::commands::Output;
use crate::failure::{Failure, PLAYABLE};
use crate::json::{answer, object, Json};
use crate::playable::{self, Playable};
use crate::told::{Names, Told};

pub static COMMAND: Command = Command {
    name: "programs",
    takes: "FILE [--party P] [--json]",
    does: "each party's events with the narration's own names and lines",
    places: (1, 1),
    options: &[("--party", Takes::One("a party's name")), JSON],
};

pub fn run(call: &Call) -> Result<Output, Failure> {
    let playable = match playable::open(call)? {
        Ok(playable) => playable,
        Err(output) => return Ok(output),
    };
    let chosen = playable.parties(call.text("--party")?)?;
    let names = Names::of(&playable.subject);
    let mut programs = Vec::new();
    for party in chosen {
        programs.push((party, names.program(&playable.answers.programs[party as usize])?));
    }
    let text = match call.has("--json") {
        true => format!("{}\n", json(&playable, &programs)),
        false => text(&playable, &programs),
    };
    Ok(Output::answer(text, PLAYABLE))
}

/// A party's name, and under it a line an event: where it belongs, what it is.
fn text(playable: &Playable, programs: &[(u32, Vec<Told>)]) -> String {
    let subject = &playable.subject;
    let mut text = String::new();
    for (party, told) in programs {
        if !text.is_empty() {
            text.push('\n');
        }
        text.push_str(&format!("{}\n", subject.party(*party)));
        let places: Vec<String> = (told.iter())
            .map(|told| told.step.map_or_else(String::new, |step| subject.step(step)))
            .collect();
        let width = places.iter().map(String::len).max().unwrap_or(0);
        for (place, told) in places.iter().zip(told) {
            text.push_str(&format!("  {place:width$}  {:7} {}\n", told.kind, told.text));
        }
    }
    text
}

fn json(playable: &Playable, programs: &[(u32, Vec<Told>)]) -> Json {
    let subject = &playable.subject;
    let event = |told: &Told| {
        object([
            ("kind", told.kind.into()),
            ("step", told.step.into()),
            ("line", told.step.and_then(|step| subject.line(step)).into()),
            ("text", told.text.as_str().into()),
        ])
    };
    let program = |(party, told): &(u32, Vec<Told>)| {
        object([
            ("party", subject.party(*party).into()),
            ("events", told.iter().map(event).collect::<Vec<_>>().into()),
        ])
    };
    answer(
        "programs",
        [
            ("file", subject.name.as_str().into()),
            ("programs", programs.iter().map(program).collect::<Vec<_>>().into()),
        ],
    )
}

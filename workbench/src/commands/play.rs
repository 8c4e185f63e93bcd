//! `nghi play`: a run of the programs, move by move, and how it leaves each party.

use crate::arguments::{Call, Command, Takes, JSON, ORDER};
use crate::cells::{cells, padded};
use crate::commands::Output;
use crate::failure::{Failure, PLAYABLE};
use crate::json::{answer, object, Json};
use crate::playable::{self, Playable};
use crate::run::{run as make, Idle, Move, Next, Order, Run};
use crate::told::{Names, Told};

pub static COMMAND: Command = Command {
    name: "play",
    takes: "FILE [--order ORDER] [--moves P,..] [--json]",
    does: "a run of the programs, move by move, and how it leaves each party",
    places: (1, 1),
    options: &[
        ORDER,
        ("--moves", Takes::One("parties' names with commas, a move each")),
        JSON,
    ],
};

pub fn run(call: &Call) -> Result<Output, Failure> {
    let playable = match playable::open(call)? {
        Ok(playable) => playable,
        Err(output) => return Ok(output),
    };
    let order = Order::asked(call, &playable.subject)?;
    let run = make(&playable.subject, &playable.answers, &order)?;
    let names = Names::of(&playable.subject);
    let programs = playable.answers.programs.iter();
    let played = Played {
        playable: &playable,
        told: programs
            .map(|program| names.program(program))
            .collect::<Result<_, _>>()?,
        run: &run,
    };
    let text = match call.has("--json") {
        true => format!("{}\n", played.json()),
        false => played.text(),
    };
    Ok(Output::answer(text, PLAYABLE))
}

/// A run, and what its events are called.
struct Played<'p> {
    playable: &'p Playable,
    told: Vec<Vec<Told>>,
    run: &'p Run,
}

/// A line of a run: a move, or one that did nothing.
enum Line<'p> {
    Did(&'p Move),
    Nothing(&'p Idle),
}

impl Line<'_> {
    fn party(&self) -> u32 {
        match self {
            Line::Did(done) => done.party,
            Line::Nothing(idle) => idle.party,
        }
    }
}

impl Played<'_> {
    /// The moves as they were asked, those between them that did nothing.
    fn lines(&self) -> Vec<Line<'_>> {
        let mut idle = self.run.idle.iter().peekable();
        let mut lines = Vec::new();
        for (number, done) in self.run.moves.iter().enumerate() {
            while let Some(own) = idle.next_if(|idle| idle.before <= number) {
                lines.push(Line::Nothing(own));
            }
            lines.push(Line::Did(done));
        }
        lines.extend(idle.map(Line::Nothing));
        lines
    }

    fn told(&self, done: &Move) -> &Told {
        &self.told[done.party as usize][done.event]
    }

    /// The step that a line is about.
    fn step(&self, line: &Line) -> Option<u32> {
        match line {
            Line::Did(done) => self.told(done).step,
            Line::Nothing(idle) => match idle.next {
                Next::Waits { step } => Some(step),
                _ => None,
            },
        }
    }

    /// A line a move: who, where and what. Then a line a party.
    fn text(&self) -> String {
        let subject = &self.playable.subject;
        let place = |line: &Line| self.step(line).map_or_else(String::new, |step| subject.step(step));
        let lines = self.lines();
        let wide = (lines.iter().map(|line| cells(subject.party(line.party())))).max();
        let far = lines.iter().map(|line| place(line).len()).max();
        let (wide, far) = (wide.unwrap_or(0), far.unwrap_or(0));
        let mut text = String::new();
        for line in &lines {
            let (kind, what) = match line {
                Line::Did(done) => (self.told(done).kind, &self.told(done).text[..]),
                Line::Nothing(idle) => idled(idle),
            };
            let (party, place) = (padded(subject.party(line.party()), wide), place(line));
            text.push_str(&format!("{party}  {place:far$}  {kind:7} {what}\n"));
        }
        if self.run.cut {
            text.push_str("the run goes on: at most 4,096 moves can be asked of the rehearsal, and these are they\n");
        }
        if !text.is_empty() {
            text.push('\n');
        }
        for (party, end) in (0..).zip(&self.run.ends) {
            let (done, of) = self.counts(party);
            let how = match end {
                Next::Finished => String::from("finished"),
                Next::Waits { step } => format!("waits for {}", subject.step(*step)),
                Next::CanMove => String::from("can move"),
            };
            text.push_str(&format!("{} {done}/{of} {how}\n", subject.party(party)));
        }
        text
    }

    /// The events that a party has done, and those that it has; END is counted nowhere.
    fn counts(&self, party: u32) -> (u32, usize) {
        let of = self.playable.answers.programs[party as usize].len() - 1;
        (self.run.done[party as usize], of)
    }

    fn json(&self) -> Json {
        let subject = &self.playable.subject;
        let line = |line: &Line| {
            let step = self.step(line);
            let (event, (kind, text)) = match line {
                Line::Did(done) => (Some(done.event), (self.told(done).kind, &self.told(done).text[..])),
                Line::Nothing(idle) => (None, idled(idle)),
            };
            object([
                ("party", subject.party(line.party()).into()),
                ("event", event.into()),
                ("kind", kind.into()),
                ("step", step.into()),
                ("line", step.and_then(|step| subject.line(step)).into()),
                ("text", text.into()),
            ])
        };
        let party = |(party, end): (u32, &Next)| {
            let (done, of) = self.counts(party);
            let (state, step) = match end {
                Next::Finished => ("finished", None),
                Next::Waits { step } => ("waits", Some(*step)),
                Next::CanMove => ("can move", None),
            };
            object([
                ("party", subject.party(party).into()),
                ("done", done.into()),
                ("events", of.into()),
                ("state", state.into()),
                ("step", step.into()),
                ("line", step.and_then(|step| subject.line(step)).into()),
            ])
        };
        let lines: Vec<Json> = self.lines().iter().map(line).collect();
        let parties: Vec<Json> = (0..).zip(&self.run.ends).map(party).collect();
        answer(
            "play",
            [
                ("file", subject.name.as_str().into()),
                ("moves", lines.into()),
                ("cut", self.run.cut.into()),
                ("parties", parties.into()),
            ],
        )
    }
}

/// What is told of a move that did nothing.
fn idled(idle: &Idle) -> (&'static str, &'static str) {
    match idle.next {
        Next::Finished => ("idle", "it has finished"),
        _ => ("waits", "it is not sent yet"),
    }
}

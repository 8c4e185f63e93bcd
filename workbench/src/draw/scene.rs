//! A scene: everything that a picture of a run shows, before it has any shape. What is in it comes from the proved answers,
//! told; here it is only put together, and compared once more where it could come apart.

use crate::failure::Failure;
use crate::json::{answer, object, Json};
use crate::listing::Event as Done;
use crate::proved::{Answers, Source};
use crate::report::count;
use crate::run::{run, Order};
use crate::subject::{to_bytes, Subject};
use crate::told::{Names, Told};
use nghiralum::Refusal;
use std::path::Path;

pub struct Scene {
    /// The source as it was named, and its last part, which heads the picture.
    pub file: String,
    pub title: String,
    pub order: String,
    /// The lines of the text; a book has none.
    pub lines: Vec<String>,
    pub parties: Vec<Party>,
    /// The steps that are drawn.
    pub steps: Vec<Step>,
    /// Who moves, and the place of what it does in its program. END is no move.
    pub moves: Vec<(usize, usize)>,
    /// The terms that somebody holds.
    pub terms: Vec<Term>,
    /// Why the run goes no further, where the narration is refused.
    pub stop: Option<Stop>,
}

pub struct Party {
    pub name: String,
    pub line: Option<usize>,
    /// What it begins with, in words.
    pub begins: String,
    pub events: Vec<Event>,
}

pub struct Event {
    pub told: Told,
    /// The line or step that it belongs to; END has none.
    pub place: String,
    pub line: Option<usize>,
    /// The move that does it, counted from 1; for END the last of its party, and 0 if there was none.
    pub at: usize,
}

pub struct Step {
    pub number: u32,
    pub place: String,
    pub line: Option<usize>,
    /// The sender and the receiver.
    pub from: usize,
    pub to: usize,
    /// Its messages, as the narration has them.
    pub text: String,
    /// The places of SEND and RECEIVE in their programs.
    pub sent: usize,
    pub received: usize,
}

pub struct Term {
    pub text: String,
    /// How each party holds it.
    pub held: Vec<Option<Held>>,
}

pub struct Held {
    /// `given`, `made` or `stored`.
    pub how: &'static str,
    pub step: Option<u32>,
    pub line: Option<usize>,
    /// The placeholder of what is stored.
    pub name: Option<String>,
    /// The move after which it is held; 0 from the start.
    pub at: usize,
    /// All that in words.
    pub text: String,
}

pub struct Stop {
    pub number: u8,
    pub step: u32,
    pub place: String,
    pub line: Option<usize>,
    /// The step's sender, and the step as the narration has it.
    pub sender: usize,
    pub text: String,
    /// The atom that can't be made.
    pub term: String,
    /// Why, in words.
    pub reason: String,
    /// How many steps come after it.
    pub later: usize,
}

impl Scene {
    /// The scene of a subject that can be played.
    pub fn of(subject: &Subject, answers: &Answers, order: &Order) -> Result<Scene, Failure> {
        let names = Names::of(subject);
        let run = run(subject, answers, order)?;
        let moves: Vec<(usize, usize)> = (run.moves.iter())
            .map(|step| (step.party as usize, step.event))
            .collect();
        let mut parties = Vec::new();
        for (number, program) in answers.programs.iter().enumerate() {
            parties.push(party(subject, number, names.program(program)?, &moves)?);
        }
        let events: usize = parties.iter().map(|party| party.events.len()).sum();
        if moves.len() + parties.len() != events {
            return Err(Failure::guard("the run has not the events of the programs"));
        }
        let steps = (0..subject.book.steps.len() as u32).map(|number| step(subject, answers, number));
        let steps = steps.collect::<Option<Vec<Step>>>();
        let steps = steps.ok_or_else(|| Failure::guard("a step has no SEND or no RECEIVE"))?;
        let terms = terms(subject, answers, &names, &parties);
        Ok(Scene {
            file: subject.name.clone(),
            title: title(&subject.name),
            order: order_name(order),
            lines: subject.text.as_ref().map_or_else(Vec::new, |text| text.lines.clone()),
            parties,
            steps,
            moves,
            terms,
            stop: None,
        })
    }

    /// The scene of a subject that is refused as unplayable: the steps before the refused one are a book that can be
    /// played, and of that book is all that is drawn, but for why it stops.
    pub fn of_refused(mut subject: Subject, refusal: Refusal, order: &Order) -> Result<Result<Scene, usize>, Failure> {
        let stop = stop(&subject, refusal).ok_or_else(|| Failure::guard(format!("no step is refused: {refusal}")))?;
        subject.book.steps.truncate(stop.step as usize);
        subject.bytes = to_bytes(&subject.book.words());
        let answers = Answers::of(&subject)?;
        let answers =
            answers.map_err(|own| Failure::guard(format!("the steps before {} are refused: {own}", stop.place)))?;
        if let Some(many) = too_many(&answers) {
            return Ok(Err(many));
        }
        let mut scene = Scene::of(&subject, &answers, order)?;
        scene.stop = Some(stop);
        Ok(Ok(scene))
    }

    pub fn events(&self) -> usize {
        self.parties.iter().map(|party| party.events.len()).sum()
    }

    /// The scene's counts and its order, in words.
    pub fn size(&self) -> String {
        format!(
            "{}, {}, {}; order: {}",
            count(self.parties.len(), "party", "parties"),
            count(self.steps.len(), "step", "steps"),
            count(self.events(), "event", "events"),
            self.order
        )
    }

    /// The line of the text at which the run stops.
    pub fn stops_at(&self, line: usize) -> bool {
        self.stop.as_ref().is_some_and(|stop| stop.line == Some(line))
    }

    pub fn json(&self) -> Json {
        answer(
            "draw",
            [
                ("file", self.file.as_str().into()),
                ("order", self.order.as_str().into()),
                ("parties", self.list(&self.parties, Scene::party_json)),
                ("steps", self.list(&self.steps, Scene::step_json)),
                ("moves", self.list(&self.moves, Scene::move_json)),
                ("terms", self.list(&self.terms, Scene::term_json)),
                ("refusal", self.stop.as_ref().map(Stop::json).into()),
                ("source", self.list(&self.lines, |_, line| line.as_str().into())),
            ],
        )
    }

    fn list<T>(&self, items: &[T], json: impl Fn(&Scene, &T) -> Json) -> Json {
        Json::List(items.iter().map(|item| json(self, item)).collect())
    }

    fn party_json(&self, party: &Party) -> Json {
        let event = |_: &Scene, event: &Event| {
            object([
                ("kind", event.told.kind.into()),
                ("step", event.told.step.into()),
                ("line", event.line.into()),
                ("text", event.told.text.as_str().into()),
                ("move", event.at.into()),
            ])
        };
        object([
            ("name", party.name.as_str().into()),
            ("line", party.line.into()),
            ("begins", party.begins.as_str().into()),
            ("events", self.list(&party.events, event)),
        ])
    }

    fn step_json(&self, step: &Step) -> Json {
        object([
            ("step", step.number.into()),
            ("line", step.line.into()),
            ("from", self.parties[step.from].name.as_str().into()),
            ("to", self.parties[step.to].name.as_str().into()),
            ("text", step.text.as_str().into()),
        ])
    }

    fn move_json(&self, (party, event): &(usize, usize)) -> Json {
        object([
            ("party", self.parties[*party].name.as_str().into()),
            ("event", (*event).into()),
        ])
    }

    fn term_json(&self, term: &Term) -> Json {
        let held = |held: &Held| {
            object([
                ("how", held.how.into()),
                ("step", held.step.into()),
                ("line", held.line.into()),
                ("as", held.name.as_deref().into()),
                ("move", held.at.into()),
            ])
        };
        let of_party = |(party, own): (&Party, &Option<Held>)| (party.name.clone(), own.as_ref().map(held).into());
        object([
            ("term", term.text.as_str().into()),
            (
                "held",
                Json::Object(self.parties.iter().zip(&term.held).map(of_party).collect()),
            ),
        ])
    }
}

impl Stop {
    fn json(&self) -> Json {
        object([
            ("number", u32::from(self.number).into()),
            ("step", self.step.into()),
            ("line", self.line.into()),
            ("text", self.text.as_str().into()),
            ("term", self.term.as_str().into()),
            ("reason", self.reason.as_str().into()),
        ])
    }
}

/// How many events there are, where these are more than are drawn.
pub fn too_many(answers: &Answers) -> Option<usize> {
    let events: usize = answers.programs.iter().map(Vec::len).sum();
    (events > super::MOST_EVENTS).then_some(events)
}

fn title(name: &str) -> String {
    let last = Path::new(name).file_name().and_then(|last| last.to_str());
    last.unwrap_or(name).to_string()
}

fn order_name(order: &Order) -> String {
    match order {
        Order::Narration => String::from("narration"),
        Order::Round => String::from("round"),
        Order::Reverse => String::from("reverse"),
        Order::Random(seed) => format!("random:{seed}"),
        Order::Moves(_) => String::from("given"),
    }
}

/// A party with its events, each with the move that does it.
fn party(subject: &Subject, number: usize, told: Vec<Told>, moves: &[(usize, usize)]) -> Result<Party, Failure> {
    let record = &subject.book.parties[number];
    let mine = |(at, (party, event)): (usize, &(usize, usize))| (*party == number).then_some((at + 1, *event));
    let mine: Vec<(usize, usize)> = moves.iter().enumerate().filter_map(mine).collect();
    let in_order = mine.iter().enumerate().all(|(at, (_, event))| at == *event);
    let ends = told.len() == mine.len() + 1 && told.last().is_some_and(|last| last.kind == "end");
    if !in_order || !ends {
        return Err(Failure::guard(
            "the run does not do each event of a program once, in its order",
        ));
    }
    let last = mine.last().map_or(0, |(at, _)| *at);
    let at = mine.iter().map(|(at, _)| *at).chain([last]);
    let event = |(told, at): (Told, usize)| Event {
        place: told.step.map_or_else(String::new, |step| subject.step(step)),
        line: told.step.and_then(|step| subject.line(step)),
        told,
        at,
    };
    let known: Vec<&str> = record.known.iter().map(|row| subject.term(*row)).collect();
    let known = match known.is_empty() {
        true => String::from("knows nothing"),
        false => format!("knows {}", known.join(", ")),
    };
    let text = subject.text.as_ref();
    Ok(Party {
        name: subject.party(number as u32).to_string(),
        line: text.and_then(|text| text.narration.parties.get(number).map(|place| place.name.line)),
        begins: match record.makes {
            true => known,
            false => format!("makes nothing, {known}"),
        },
        events: told.into_iter().zip(at).map(event).collect(),
    })
}

fn step(subject: &Subject, answers: &Answers, number: u32) -> Option<Step> {
    let record = &subject.book.steps[number as usize];
    let (from, to) = (record.sender as usize, record.receiver as usize);
    let sends = |event: &Done| matches!(event, Done::Send { step, .. } if *step == number);
    let receives = |event: &Done| matches!(event, Done::Receive { step, .. } if *step == number);
    Some(Step {
        number,
        place: subject.step(number),
        line: subject.line(number),
        from,
        to,
        text: messages(subject, number),
        sent: answers.programs[from].iter().position(sends)?,
        received: answers.programs[to].iter().position(receives)?,
    })
}

fn messages(subject: &Subject, step: u32) -> String {
    let rows = &subject.book.steps[step as usize].messages;
    let terms: Vec<&str> = rows.iter().map(|row| subject.term(*row)).collect();
    match terms.is_empty() {
        true => String::from("nothing"),
        false => terms.join(", "),
    }
}

/// The terms that somebody holds, in the order of their rows.
fn terms(subject: &Subject, answers: &Answers, names: &Names, parties: &[Party]) -> Vec<Term> {
    let row = |row: u32| {
        let held = |(number, party): (u32, &Party)| held(subject, names, party, answers.source(number, row), row);
        let held: Vec<Option<Held>> = (0..).zip(parties).map(held).collect();
        let text = subject.term(row).to_string();
        held.iter().any(Option::is_some).then_some(Term { text, held })
    };
    (0..subject.book.rows.len() as u32).filter_map(row).collect()
}

fn held(subject: &Subject, names: &Names, party: &Party, source: Source, row: u32) -> Option<Held> {
    let text = names.held(source)?;
    let (how, step, name, at) = match source {
        Source::Not => return None,
        Source::Given => ("given", None, None, 0),
        Source::Made { step } => {
            let made = |event: &&Event| event.told.kind == "new" && event.told.rows == [row];
            let at = party.events.iter().find(made).map_or(0, |event| event.at);
            ("made", Some(step), None, at)
        }
        Source::Stored { step, placeholder } => {
            // It is stored once all that arrived with it is opened and compared.
            let arrived = |event: &&Event| {
                event.told.step == Some(step) && matches!(event.told.kind, "receive" | "open" | "check")
            };
            let at = party.events.iter().filter(arrived).map(|event| event.at).max();
            (
                "stored",
                Some(step),
                Some(names.placeholder(placeholder)),
                at.unwrap_or(0),
            )
        }
    };
    Some(Held {
        how,
        step,
        line: step.and_then(|step| subject.line(step)),
        name,
        at,
        text,
    })
}

/// Why a narration is refused at a step, in words; nothing if this refusal has no step or no row.
fn stop(subject: &Subject, refusal: Refusal) -> Option<Stop> {
    let (step, row) = (refusal.place(), refusal.row()?);
    let record = subject.book.steps.get(step as usize)?;
    let (sender, receiver) = (subject.party(record.sender), subject.party(record.receiver));
    let term = subject.terms.get(row as usize)?.clone();
    let why = match refusal.number() {
        10 => "which is taken",
        _ => "and makes nothing",
    };
    Some(Stop {
        number: refusal.number(),
        step,
        place: subject.step(step),
        line: subject.line(step),
        sender: record.sender as usize,
        text: format!("{sender} -> {receiver}: {}", messages(subject, step)),
        reason: format!("{sender} would have to make {term}, {why}"),
        term,
        later: subject.book.steps.len() - step as usize - 1,
    })
}

/// A small one, for tests.
#[cfg(test)]
pub fn example() -> Scene {
    let (subject, answers) = crate::proved::example();
    Scene::of(&subject, &answers, &Order::Narration).expect("a scene")
}

#[cfg(test)]
mod tests {
    use super::*;
    use crate::proved;

    /// One move that is left out, done twice, or done before its time breaks the guard.
    #[test]
    fn altered_moves_are_told() {
        let (subject, answers) = proved::example();
        let moves = Scene::of(&subject, &answers, &Order::Round).expect("a scene").moves;
        let names = Names::of(&subject);
        for (number, program) in answers.programs.iter().enumerate() {
            let status = |moves: &[(usize, usize)]| {
                let told = names.program(program).expect("no guard");
                party(&subject, number, told, moves).map_or_else(|failure| failure.status, |_| 0)
            };
            assert_eq!(status(&moves), 0);
            let own: Vec<usize> = (0..moves.len()).filter(|at| moves[*at].0 == number).collect();
            for (n, at) in own.iter().enumerate() {
                let mut altered = moves.clone();
                altered.remove(*at);
                assert_eq!(status(&altered), 70, "without move {at}");
                let mut altered = moves.clone();
                altered.insert(*at, moves[*at]);
                assert_eq!(status(&altered), 70, "move {at} twice");
                if n > 0 {
                    let mut altered = moves.clone();
                    altered.swap(own[n - 1], *at);
                    assert_eq!(status(&altered), 70, "move {at} too early");
                }
            }
        }
    }
}
